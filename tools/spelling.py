#!/usr/bin/env python3
"""Brings the repository's own names to the spelling of the kit's CONTRACT_STYLE.md, section Names.

usage: python3 tools/spelling.py      at the top of the repository, once, right after the kit's port/port.py; then `rt fmt` in each crate

It rewrites crates/**/*.antt, the clauses, `ghost use` lines and backquoted names of crates/**/*.rt, and the lines of
crates/*/must-fail/*.edit, and writes tools/spelling.map: every name renamed, `old -> new`, sorted, with the old names from before port.py too,
so that docs can be respelled with it. A second run changes nothing.
"""

import os
import re
import sys

# Decided by hand: (crate, old) -> new, where the plain rule would give two things one name. A lemma that would have its function's name gets `_lem`.
TABLE = {
    # lemmas beside their functions
    ("bench", "good-address"): "good_address_lem",
    ("card", "no-frame"): "no_frame_lem",
    ("card", "outcome-number"): "outcome_number_lem",
    ("card_memory", "length-at"): "length_at_lem",
    ("card_memory", "record-at"): "record_at_lem",
    ("des", "with-gaps"): "with_gaps_lem",
    ("des", "bit-xor"): "bit_xor_lem",
    ("frame", "frame-octets"): "frame_octets_lem",
    ("frame", "can-have"): "can_have_lem",
    ("history", "aut-number"): "aut_number_lem",
    ("history", "aut-reply"): "aut_reply_lem",
    ("label", "well-formed-octets"): "well_formed_octets_lem",
    ("label", "in-range"): "in_range_lem",
    ("memory_history", "length-at"): "length_at_lem",
    ("memory_history", "after-lent"): "after_lent_lem",
    ("swap_write", "head-judged"): "head_judged_lem",
    ("tool", "wrong-cipher"): "wrong_cipher_lem",
    ("tool", "wrong-echo"): "wrong_echo_lem",
    ("tool", "event-logged"): "event_logged_lem",
    ("tool", "weakly-keyed"): "weakly_keyed_lem",
    ("tool", "keeps-all"): "keeps_all_lem",
    ("tool", "receiver-only"): "receiver_only_lem",
    ("tool_exports", "receiver-only"): "receiver_only_lem",
    ("tool_exports", "octet-shown"): "octet_shown_lem",
    ("tool_memory", "adp-at"): "adp_at_lem",
    ("tool_memory", "length-at"): "length_at_lem",
    ("tool_memory", "mark-at"): "mark_at_lem",
    ("tool_memory", "receiver-mark-at"): "receiver_mark_at_lem",
    ("tool_memory", "successes-at"): "successes_at_lem",
    ("tool_memory", "tab-at"): "tab_at_lem",
    ("card_exports", "octet-call"): "octet_call_lem",
    ("memory_history", "octet-call"): "octet_call_lem",
    # what a loop kept before a turn, beside the function of what is kept
    ("label", "kept-before"): "octets_before",
    ("label", "kept-characters"): "characters_kept",
    ("label", "kept-characters₀"): "characters_kept₀",
    ("label", "kept-octets"): "octets_kept",
    ("label", "kept-octets₀"): "octets_kept₀",
    # a field whose type says check_key, the function
    ("crc", "check-key"): "same_check_key",
    # the other name of number's `none`, beside a lemma no_number
    ("bench", "noNumber"): "not_a_number",
    # constructors beside a number, a function, a field or a variable of the same word
    ("history", "None"): "no_wait",
    ("history", "Broadcast"): "by_broadcast",
    ("card", "Octet"): "octet_call",
    ("tool", "Octet"): "octet_call",
    ("tool", "Over"): "all_over",
    ("receiver", "Silent"): "silent_outcome",
    ("receiver", "Dropped"): "dropped_outcome",
    ("receiver", "Complete"): "complete_outcome",
    # of what the spliced list holds at a place in, before and past the part
    "getD-in-spliced": "get_or-in_spliced",
    "getD-before-spliced": "get_or-before_spliced",
    "getD-past-spliced": "get_or-past_spliced",
}
# Steps that port.py took for lemmas: they are named after the Rust function.
GARBLED = {"width_of_lem": "width_of"}
# Words that are some function's name, but stand in names as plain words.
NO_NAMES = []

# What port.py made of own names: crate, old, new. A name is spelled anew from its old form, whose dashes say more.
PORTED = """
bench bad-kind bad_kind
bench by-count by_count
bench no-number no_number
card bare-spec bare_spec
card first-more first_more
card isTaken is_taken
card not-taken not_taken
card same-number same_number
card taken-as taken_as
card_exports by-address by_address
card_exports by-key by_key
card_exports by-lengths by_lengths
card_exports finish-spec finish_spec
card_exports found-inside found_inside
card_exports too-short too_short
card_memory keyAt key_at
card_memory kindAt kind_at
card_memory length-back length_back
card_memory lengthAt length_at
computed at-zero at_zero
computed digit-and digit_and
computed digit-assoc digit_assoc
computed first-of first_of
computed in-parts in_parts
computed none-other none_other
computed one-bit one_bit
computed xor-assoc xor_assoc
crc isZero is_zero
crc map-reverseAux map_reverse_aux
crc number-lt number_lt
crc plus-assoc plus_assoc
crc plus-comm plus_comm
crc plus-nil plus_nil
crc sumOf sum_of
crc word-fits word_fits
crc xor-assoc xor_assoc
crc xor-comm xor_comm
des alike-spec alike_spec
des all-named all_named
des bitsOf bits_of
des both-ways both_ways
des entry-lt entry_lt
des f-spec f_spec
des getD-bits get_d_bits
des inTurn in_turn
des is-inverse is_inverse
des length-exchanged length_exchanged
des low-bits low_bits
des number-lt number_lt
des one-bit one_bit
des same-bit same_bit
des shifted-half shifted_half
des so-far so_far
des twice-spec twice_spec
des upTo up_to
des weak-spec weak_spec
des_boxes wordOf word_of
des_vectors run-spec run_spec
frame bodyOf body_of
frame by-key by_key
frame by-length by_length
frame by-n by_n
frame close-spec close_spec
frame codeOf code_of
frame dataOf data_of
frame fields-made fields_made
frame fieldsAt fields_at
frame fieldsOf fields_of
frame fill-spec fill_spec
frame fixedOf fixed_of
frame frame-made frame_made
frame read-spec read_spec
frame readOf read_of
frame reads-same reads_same
frame too-long too_long
frame too-short too_short
frame valueAt value_at
frame write-spec write_spec
frame_text nameOf name_of
frame_text no-room no_room
frame_text nothing-written nothing_written
frame_text widthOf width_of
frame_text wordsOf words_of
framelist main-spec main_spec
history by-address by_address
history by-key by_key
history by-lengths by_lengths
history call-back call_back
history callAt call_at
history callOf call_of
history callsOf calls_of
history callsWithin calls_within
history first-read first_read
history going-done going_done
history going-next going_next
history going-start going_start
history in-use in_use
history label-kept label_kept
history open-of open_of
history run-spec run_spec
history sizeAt size_at
history some-left some_left
history wholeAt whole_at
label before-more before_more
label by-code by_code
label by-count by_count
label by-length by_length
label fit-refused fit_refused
label fit-spec fit_spec
label front-kept front_kept
label in-row in_row
label inRange in_range
label kept-again kept_again
label kept-whole kept_whole
label none-below none_below
label pair-code pair_code
label pair-of pair_of
label read-all read_all
label read-length read_length
label read-none read_none
label row-at row_at
label rowAt row_at
label rowOf row_of
label starts-first starts_first
label starts-other starts_other
label to-front to_front
label to-last to_last
label u′ u'
label w′ w'
memory_history all-made all_made
memory_history all-same all_same
memory_history as-long as_long
memory_history by-value by_value
memory_history call-back call_back
memory_history done-next done_next
memory_history first-back first_back
memory_history going-done going_done
memory_history going-next going_next
memory_history going-start going_start
memory_history in-memory in_memory
memory_history lent-same lent_same
memory_history memory-kept memory_kept
memory_history roomAt room_at
memory_history run-spec run_spec
memory_history size-back size_back
number after-last after_last
number after-none after_none
number goes-on goes_on
number head-at head_at
number laid-more laid_more
number laid-none laid_none
number low-first low_first
number not-found not_found
number one-form one_form
number product-small product_small
number read-spec read_spec
number reads-none reads_none
number scale-small scale_small
number tail-at tail_at
number too-many too_many
number width-four width_four
number width-one width_one
number width-spec width_spec
number width-three width_three
number width-two width_two
number write-spec write_spec
number written-next written_next
number written-read written_read
numbers numberOf number_of
octets as-long as_long
octets getD-part get_d_part
octets getD-reverse get_d_reverse
octets length-part length_part
octets part-join part_join
octets part-none part_none
octets partOf part_of
octets put-spec put_spec
octets same-end same_end
octets same-next same_next
octets same-self same_self
octets to-end to_end
receiver first-more first_more
receiver frameOf frame_of
receiver none-end none_end
receiver whole-length whole_length
receiver_memory after-front after_front
receiver_memory field-is field_is
receiver_memory fieldAt field_at
receiver_memory putAll put_all
records by-count by_count
records by-length by_length
records find-spec find_spec
records found-at found_at
records found-below found_below
records found-none found_none
records indexOf index_of
records lengthOf length_of
records seen-next seen_next
records store-spec store_spec
records stored-here stored_here
records stored-other stored_other
records write-spec write_spec
swap by-count by_count
swap by-front by_front
swap by-length by_length
swap each-at each_at
swap first-found first_found
swap firstOf first_of
swap from-next from_next
swap item-refused item_refused
swap itemAt item_at
swap kindOf kind_of
swap led-on led_on
swap length-front length_front
swap length-rest length_rest
swap next-last next_last
swap next-past next_past
swap nextAt next_at
swap none-left none_left
swap not-end not_end
swap not-good not_good
swap not-listed not_listed
swap one-list one_list
swap part-count part_count
swap rank-below rank_below
swap rankOf rank_of
swap start-first start_first
swap start-spec start_spec
swap startOf start_of
swap_before all-listed all_listed
swap_before known-alike known_alike
swap_before old-below old_below
swap_before same-good same_good
swap_list add-spec add_spec
swap_list add-to-spec add_to_spec
swap_list any-order any_order
swap_list count-long count_long
swap_list front-length front_length
swap_list in-place in_place
swap_list keep-spec keep_spec
swap_list length-inserted length_inserted
swap_list no-lower no_lower
swap_list placeOf place_of
swap_list taken-refused taken_refused
swap_list too-long too_long
swap_text count-most count_most
swap_text lineOf line_of
swap_write bodyOf body_of
swap_write front-long front_long
swap_write length-cut length_cut
swap_write next-here next_here
swap_write sizeOf size_of
swap_write write-read write_read
swap_write write-spec write_spec
text all-laid all_laid
text as-long as_long
text room-after room_after
tool answerOf answer_of
tool by-number by_number
tool effectOf effect_of
tool entryOf entry_of
tool given-back given_back
tool gives-nothing gives_nothing
tool lastOf last_of
tool moved-on moved_on
tool new-spec new_spec
tool none-of none_of
tool oneOf one_of
tool same-key same_key
tool same-number same_number
tool says-of says_of
tool tied-at tied_at
tool turnOf turn_of
tool_exports callOf call_of
tool_exports number-is number_is
tool_exports shows-nothing shows_nothing
tool_exports store-spec store_spec
tool_exports with-number with_number
tool_memory field-back field_back
tool_memory given-back given_back
tool_memory keyAt key_at
tool_memory length-back length_back
tool_memory lengthAt length_at
wake endedAs ended_as
wake no-more no_more
wake one-more one_more
wake withNumber with_number
"""

DELIM = "\\s(){}\\[\\].,;:\"`@|«»λ↦"
WORD = r"[^" + DELIM + r"]+"
TOK = re.compile(r'"(?:[^"\\\n]|\\.)*"|' + WORD + r"|[^\S\n]+|\n|.")
DECL = re.compile(r"^(\s*)((?:(?:pub|abbrev|unfoldable)\s+)*)(" + WORD + r")\s+:(?=\s|$)(.*)")
BLOCK = re.compile(r"^(\s*)(?:(?:pub|abbrev|unfoldable)\s+)*(record|data|module|where)\b\s*([^" + DELIM + r"]*)")
USE = re.compile(r"^(\s*)(ghost )?(?:(?:pub|abbrev|let|ghost)\s+)*use\s+([^\s{};]+?)(?:\.\{([^}]*)\}|\s+as\s+(" + WORD + r"))?\s*;?\s*$")
CAMEL = re.compile(r"[a-z0-9'][A-Z]")
CLAUSE = re.compile(r"\b(?:requires|ensures|invariant|decreases|returns)\b[^{};()]*\{")


def read(p):
    with open(p, encoding="utf-8") as f:
        return f.read()


def comment(line):
    m = re.search(r"(?:(?<=\s)|^)--(?=\s|$)", line)
    return (line[: m.start()], line[m.start():]) if m else (line, "")


def snake(w):
    """camelCase to snake_case, a part of a dashed name at a time; a capital at the front is left to the caller."""
    w = re.sub(r"(?<![A-Za-z0-9])getD(?![A-Za-z0-9])", "get_or", w)

    def words(m):
        run = m.group(2).lower()
        return m.group(1) + "_" + (run[:-1] + "_" + run[-1] if len(run) > 1 and m.group(3) else run)

    return re.sub(r"([a-z0-9'])([A-Z]+)(?=([a-z]?))", words, w)


def lower(w):
    return re.sub(r"([A-Z])", lambda m: ("_" if m.start() and w[m.start() - 1] != "_" else "") + m.group(1).lower(), w)


class File:
    """One .antt file: its module, what it declares and what it imports."""

    def __init__(self, path):
        self.path = path
        self.crate = path.split("/")[1]
        self.module = "Rattle." + path[len("crates/"):-len(".antt")].replace("/", ".")
        self.text = read(path)
        self.decls = []  # line, indent, kind, name, blocks, rest
        self.top = set()
        self.names = set()
        self.fields = set()
        self.cons = set()
        self.types = set()
        self.generated = set()
        stack = []
        lines = self.text.split("\n")
        for i, l in enumerate(lines):
            code, _ = comment(l)
            if not code.strip():
                continue
            ind = len(code) - len(code.lstrip())
            while stack and stack[-1][0] >= ind:
                stack.pop()
            m = BLOCK.match(code)
            if m and (m.group(2) in ("module", "where") or re.search(r"\swhere(\s|$)", code)):
                k = m.group(2)
                if k in ("record", "data"):
                    self.decls.append((i, ind, k, m.group(3), tuple(s[3] for s in stack), code))
                    self.types.add(m.group(3))
                    self.names.add(m.group(3))
                stack.append((ind, k, m.group(3), (k, i)))
                continue
            m = DECL.match(code)
            if not m or m.group(3) in ("let", "where", "in"):
                continue
            kind = {"record": "field", "data": "con"}.get(stack[-1][1] if stack else None, "fun")
            rest = m.group(4).strip() or (lines[i + 1].strip() if i + 1 < len(lines) else "")
            name = m.group(3)
            self.decls.append((i, ind, kind, name, tuple(s[3] for s in stack), rest))
            if kind == "field":
                self.fields.add(name)
                continue
            if kind == "con":
                self.cons.add(name)
            self.names.add(name)
            if path.endswith("/Proof.antt") and (ind == 0 or not any(s[1] == "where" for s in stack)) and re.match(r"(?:[({][^→]*?[)}]\s*→?\s*)*tie\.", rest):
                self.generated.add(name)
        self.imports, self.aliases = uses(self.text)


def uses(text, ghost=False):
    imports, aliases = {}, {}
    for l in text.split("\n"):
        code = l if ghost else comment(l)[0]
        m = USE.match(code)
        if not m or (ghost and not code.strip().startswith("ghost")):
            continue
        if m.group(4) is not None:
            for it in m.group(4).split(","):
                w = it.split()
                if not w:
                    continue
                if len(w) == 3 and w[1] == "as":
                    imports[w[2]] = (m.group(3), w[0])
                else:
                    imports[w[0]] = (m.group(3), w[0])
        else:
            aliases[m.group(5) or m.group(3).split(".")[-1]] = m.group(3)
    return imports, aliases


class Repo:
    def __init__(self, root):
        self.root = root
        self.files = {}
        self.rts = []
        self.edits = []
        for d, ds, fs in os.walk("crates"):
            ds[:] = sorted(x for x in ds if x != "out" and not x.startswith("."))
            for f in sorted(fs):
                p = os.path.join(d, f)
                if f.endswith(".antt"):
                    self.files[p] = File(p)
                elif f.endswith(".rt"):
                    self.rts.append(p)
                elif f.endswith(".edit"):
                    self.edits.append(p)
        self.by_module = {f.module: f for f in self.files.values()}
        self.fields = {}
        for f in self.files.values():
            for n in f.fields:
                self.fields.setdefault(n, set()).add(f.crate)
        self.ported = {}
        for l in PORTED.strip().split("\n"):
            crate, old, new = l.split()
            self.ported[(crate, new)] = old
        self.library = set()
        for f in self.files.values():
            for shown, (mod, name) in f.imports.items():
                if mod not in self.by_module and not re.match(r"Rattle\.[^.]+\.(specs\.declared|proofs)\b", mod):
                    self.library.add(name)
        for p in self.rts:
            for shown, (mod, name) in uses(read(p), True)[0].items():
                if mod not in self.by_module and ".specs.declared" not in mod:
                    self.library.add(name)
        self.defined = set(self.library)
        for f in self.files.values():
            for i, ind, kind, name, blocks, rest in f.decls:
                if kind == "field" or name in f.generated or "-" in name:
                    continue
                if "/specs/" in f.path or kind in ("record", "data", "con") or (ind == 0 and self.value(rest)):
                    if (f.crate, name) in self.ported and "-" in self.ported[(f.crate, name)]:
                        continue
                    self.defined.add(self.plain(f, kind, name))
                    if kind in ("record", "data"):
                        self.defined.add(name)
        self.facts = set()
        for f in self.files.values():
            for i, ind, kind, name, blocks, rest in f.decls:
                if name[:1].isupper() and kind in ("record", "data", "fun") and re.search(r"Type 0", rest) and re.search(r"→|\(", rest):
                    self.facts.add(name)
        self.defined -= set(NO_NAMES)
        self.new = {}
        self.seen = {}

    @staticmethod
    def value(rest):
        """Whether a declaration's type is one of data, or of facts, and not itself a fact: then its name is a function's."""
        last = re.split(r"→", rest)[-1].strip()
        return bool(re.fullmatch(r"Type [01]|ℕ|Bool|Unit|(?:List|Answer|Option|Vec) .*|[A-Z]\w*", last)) and "≡" not in last

    def plain(self, f, kind, name):
        if "-" not in name:
            for k in ((f.module, name), (f.crate, name)):
                if k in TABLE:
                    return TABLE[k]
        if kind == "con" and name[:1].isupper():
            return lower(name)
        return snake(name)

    @staticmethod
    def words_of(f):
        return f.imports.keys() | f.names

    def visible(self, f):
        """The definitions' names that file f declares or imports, in the new spelling: what a dash may join there."""
        if f.path not in self.seen:
            out = set()
            for shown, (mod, name) in f.imports.items():
                out.add(snake(name) if not name[:1].isupper() or "-" in name else name)
                s = self.export(mod, name)
                if s and name[:1].isupper() and name in self.by_module[s[0]].cons:
                    out.add(self.plain(self.by_module[s[0]], "con", name))
            for i, ind, kind, name, blocks, rest in f.decls:
                if kind != "field":
                    out.add(self.plain(f, kind, name))
            self.seen[f.path] = (out & self.defined) - set(NO_NAMES)
        return self.seen[f.path]

    def dashes(self, name, f):
        defined = self.visible(f)
        if "_" in name and not CAMEL.search(name.replace("-", "")):
            return name  # in the new spelling already
        parts = [p if p[:1].isupper() else snake(p) for p in name.split("-")]
        n = len(parts)
        # a fact keeps its capital, where the name has a dash after it
        first = name.split("-")[0]
        fact = first[:1].upper() + first[1:]
        if parts[0] not in defined and fact in self.facts and fact in self.words_of(f):
            if CAMEL.search(first) or any("_".join(parts[1:k]) in defined for k in range(2, n + 1)):
                defined = defined | {fact}
                parts[0] = fact
        if n == 1 or "" in parts:
            return "-".join(parts)
        # the fewest words outside names, then the fewest names: each group is a run of parts that is one name
        best = [None] * (n + 1)
        best[n] = (0, 0, [])
        for i in range(n - 1, -1, -1):
            for j in range(i + 1, n + 1):
                if i == 0 and j == n:
                    continue
                g = "_".join(parts[i:j])
                known = g in defined
                if j - i > 1 and not known:
                    continue
                c = (best[j][0] + (0 if known else 1), best[j][1] + 1, [(g, known)] + best[j][2])
                if best[i] is None or c[:2] < best[i][:2]:
                    best[i] = c
        groups = best[0][2]
        out = groups[0][0]
        for (a, ka), (b, kb) in zip(groups, groups[1:]):
            out += ("-" if ka and kb else "_") + b
        return out

    def spelled(self, f, kind, name):
        """The new spelling of a name that file f declares."""
        if kind in ("record", "data"):
            if "-" in name:
                return "".join(p[:1].upper() + p[1:] for p in name.split("-"))
            return name
        if name in f.generated:
            return name
        for k in ((f.module, name), (f.crate, name), name):
            if k in TABLE:
                return TABLE[k]
        if f.path.endswith("/Proof.antt") and re.search(r"[-_]spec$", name):
            fn = f.path.split("/")[-2]
            if re.sub(r"-", "_", name) == fn + "_spec":
                return fn + "_spec"
        if kind == "con" and name[:1].isupper():
            return lower(name)
        old = self.ported.get((f.crate, name), name)
        if "-" in old:
            return self.dashes(old, f)
        if name[:1].isupper():
            return name
        return snake(old)

    def field(self, f, crate, t):
        """The field t in a file: a step of a proof is named after its Rust function, which has no other name."""
        if f and "tie" in f.aliases and self.plainly(t) in self.rust:
            return self.plainly(t) if t in self.field_new else t
        return self.field_new.get((crate, t), self.field_new.get(t, t))

    def build(self):
        for f in self.files.values():
            for i, ind, kind, name, blocks, rest in f.decls:
                if kind == "field":
                    continue
                self.new[(f.module, name)] = self.spelled(f, kind, name)
        self.field_new = {}  # by (crate, name), and by name for the other crates
        for f in self.files.values():
            for n in f.fields:
                w = self.spelled(f, "field", n)
                self.field_new[(f.crate, n)] = w
                if n not in self.field_new or w == self.plainly(n):
                    self.field_new[n] = w
        self.rust = set()
        for p in self.rts:
            self.rust |= set(re.findall(r"\bfn (\w+)", read(p)))
        self.everywhere = {}
        for (m, n), w in self.new.items():
            self.everywhere.setdefault(n, set()).add(w)

    def export(self, mod, name, seen=()):
        """The file that declares name, when it is imported from own module mod (a module may hand on with pub use)."""
        f = self.by_module.get(mod)
        if not f:
            return None
        if name in f.names:
            return (mod, name)
        if name in f.imports and mod not in seen:
            m, n = f.imports[name]
            return self.export(m, n, seen + (mod,))
        return None

    @staticmethod
    def plainly(name):
        return "_".join(snake(p) for p in name.split("-"))

    def local(self, crate, t, f=None):
        k = (crate, t)
        if k in TABLE:
            return TABLE[k]
        if t in TABLE:
            return TABLE[t]
        if t[:1].isupper() or not re.match(r"[a-z]", t):
            return t
        old = self.ported.get((crate, t), t)
        if "-" in old:
            return self.dashes(old, f) if f else self.plainly(old)
        return snake(t)


class Scope:
    """What the words of one file stand for."""

    def __init__(self, repo, crate, imports, aliases, f=None, clause=False):
        self.repo, self.crate, self.imports, self.aliases, self.f, self.clause = repo, crate, imports, aliases, f, clause

    def word(self, t):
        r = self.repo
        if self.f and t in self.f.generated:
            return t
        if t in self.imports:
            mod, name = self.imports[t]
            s = r.export(mod, name)
            if t == name:
                return r.new[s] if s else t
            return r.local(self.crate, t)
        if self.f and (self.f.module, t) in r.new:
            return r.new[(self.f.module, t)]
        if t in self.aliases:
            return t if self.aliases[t].endswith("." + t) else r.local(self.crate, t)
        if not re.match(r"[a-z]", t):
            return t
        if self.clause or not (CAMEL.search(t) or "-" in t):
            return t
        return r.local(self.crate, t, self.f)

    def line_of_use(self, code):
        m = USE.match(code)
        r = self.repo
        if m.group(4) is not None:
            out = []
            for it in m.group(4).split(","):
                w = it.split()
                if not w:
                    continue
                s = r.export(m.group(3), w[0])
                a = r.new[s] if s else w[0]
                if len(w) == 3:
                    b = r.local(self.crate, w[2])
                    out.append(a if a == b else f"{a} as {b}")
                else:
                    out.append(a)
            return code[: m.start(4)] + ", ".join(out) + code[m.end(4):]
        if m.group(5):
            return code[: m.start(5)] + r.local(self.crate, m.group(5)) + code[m.end(5):]
        return code

    def code(self, text, note=None):
        ts = TOK.findall(text)
        out = []
        base = None  # the word at the front of a chain a.b.c, and how far along it is
        for i, t in enumerate(ts):
            if not re.fullmatch(WORD, t):
                out.append(t)
                continue
            before = ts[i - 1] if i else ""
            if before == "." and i > 1 and not ts[i - 2].isspace() and (i < 3 or ts[i - 3] != "λ") and not (re.fullmatch(WORD, ts[i - 2]) and lambda_before(ts, i - 2)):
                head = ts[i - 2]
                first = re.fullmatch(WORD, head) and not (i > 2 and ts[i - 3] == ".")
                if first and head in self.aliases and head not in self.imports:
                    s = self.repo.export(self.aliases[head], t)
                    n = self.repo.new[s] if s else t
                    role = "member"
                elif first and head[:1].isupper() and self.type_of(head) and (self.type_of(head), t) in self.repo.new:
                    n = self.repo.new[(self.type_of(head), t)]
                    role = "member"
                else:
                    n = GARBLED.get(t) or self.repo.field(self.f, self.crate, t)
                    role = "field"
            elif self.in_record(ts, i) and t in self.repo.field_new:
                n, role = self.repo.field(self.f, self.crate, t), "field"
            else:
                n, role = self.word(t), "word"
            out.append(n)
            if note is not None:
                note.append((role, t, n))
        return "".join(out)

    def type_of(self, head):
        """The module that declares the type head, where it is one of the repository's own."""
        if self.f and head in self.f.types:
            return self.f.module
        if head in self.imports:
            s = self.repo.export(*self.imports[head])
            if s and s[1] in self.repo.by_module[s[0]].types:
                return s[0]
        return None

    def in_record(self, ts, i):
        j = i + 1
        while j < len(ts) and ts[j].isspace():
            j += 1
        if j >= len(ts) or ts[j] != "=":
            return False
        j = i - 1
        while j >= 0 and ts[j].isspace():
            j -= 1
        if j < 0 or ts[j] not in "{;":
            return j < 0 and False
        return True

    def remark(self, text):
        """The backquoted names of a comment."""

        def one(m):
            def w(k):
                t = k.group(0)
                n = self.word(t)
                if n == t and (CAMEL.search(t) or "-" in t) and re.match("[a-z]", t):
                    s = self.repo.everywhere.get(t, set())
                    if len(s) == 1:
                        n = next(iter(s))
                    elif t in self.repo.field_new:
                        n = self.repo.field(self.f, self.crate, t)
                return n

            return "`" + re.sub(WORD, w, m.group(1)) + "`"

        return re.sub(r"`([^`\n]+)`", one, text)


def lambda_before(ts, k):
    """Whether ts[k] is the last variable of `λ x y.`: then the dot after it is the lambda's."""
    j = k
    while j >= 0 and (re.fullmatch(WORD, ts[j]) or ts[j] in ("_",) or (ts[j].isspace() and ts[j] != "\n")):
        j -= 1
    return j >= 0 and ts[j] == "λ"


def clauses(text):
    """The spans of the clauses of a .rt file: between the braces after requires and ensures."""
    out = []
    for m in CLAUSE.finditer(text):
        start = text.rfind("\n", 0, m.start()) + 1
        if "//" in text[start: m.start()] or (out and m.start() < out[-1][1]):
            continue
        depth, k = 1, m.end()
        while k < len(text) and depth:
            depth += {"{": 1, "}": -1}.get(text[k], 0)
            k += 1
        out.append((m.end(), k - 1))
    return out


def parameters(text, at):
    """The parameter names of the fn whose clause starts at `at`."""
    k = text.rfind("fn ", 0, at)
    sig = text[k:at]
    return set(re.findall(r"([a-z_][a-z0-9_]*)\s*:(?!:)", sig)) | {"result"}


def turn_antt(repo, f, note):
    scope = Scope(repo, f.crate, f.imports, f.aliases, f)
    out, run = [], []

    def flush():
        if run:
            out.extend(scope.code("\n".join(run), note).split("\n"))
            run.clear()

    lines = f.text.split("\n")
    fields = {i: n for i, ind, kind, n, b, r in f.decls if kind == "field"}
    records = {i: n for i, ind, kind, n, b, r in f.decls if kind in ("record", "data")}
    tails = {}
    coded = []
    for i, l in enumerate(lines):
        c, rem = comment(l)
        if USE.match(c):
            coded.append(("use", scope.line_of_use(c)))
        else:
            coded.append(("code", c))
        tails[i] = scope.remark(rem)
    # code runs keep their line count, so that a chain or a record literal over several lines is seen whole
    res = [None] * len(lines)
    i = 0
    while i < len(lines):
        if coded[i][0] == "use":
            res[i] = coded[i][1]
            i += 1
            continue
        j = i
        while j < len(lines) and coded[j][0] == "code":
            j += 1
        part = scope.code("\n".join(c for _, c in coded[i:j]), note).split("\n")
        res[i:j] = part
        i = j
    for i, n in fields.items():
        m = DECL.match(comment(lines[i])[0])
        new = repo.field_new[(f.crate, n)]
        if new != n:
            # the word in front of the colon was turned as a word: set it as the field
            res[i] = re.sub(r"^(\s*(?:(?:pub|abbrev|unfoldable)\s+)*)" + WORD, lambda k: k.group(1) + new, res[i], count=1)
    for i, n in records.items():
        new = repo.new[(f.module, n)]
        if new != n:
            res[i] = re.sub(r"(?<![^\s])" + re.escape(n) + r"(?![^\s])", new, res[i], count=1)
    return "\n".join(r + tails[i] for i, r in enumerate(res))


def turn_rt(repo, p, note):
    text = read(p)
    crate = p.split("/")[1]
    imports, aliases = uses(text, True)
    scope = Scope(repo, crate, imports, aliases, None, True)
    spans = clauses(text)
    out, k = [], 0
    for a, b in spans:
        out.append(text[k:a])
        own = []
        out.append(scope.code(text[a:b], own))
        ps = parameters(text, a)
        note.extend(own)
        for role, t, n in own:
            if role == "word" and t != n and n in ps:
                CLASHES.append(f"{p}: {t} -> {n} is a parameter of the function too")
        k = b
    out.append(text[k:])
    lines = "".join(out).split("\n")
    for i, l in enumerate(lines):
        if re.match(r"\s*ghost use ", l) and USE.match(l):
            lines[i] = scope.line_of_use(l)
        elif "//" in l:
            j = l.index("//")
            lines[i] = l[:j] + scope.remark(l[j:])
    return "\n".join(lines)


def turn_edit(repo, p, turned):
    text = read(p)
    crate = p.split("/")[1]
    scope, rt, at, loose = None, False, "", []

    def now_of(at):
        return turned.get(at, "")

    lines = text.split("\n")
    back = {o: n for (c, n), o in repo.ported.items() if c == crate}
    for i, l in enumerate(lines):
        if l.startswith("file: "):
            at = os.path.join("crates", crate, l[6:].strip())
            rt = at.endswith(".rt")
            if at in repo.files:
                f = repo.files[at]
                scope = Scope(repo, f.crate, f.imports, f.aliases, f)
            elif os.path.exists(at):
                im, al = uses(read(at), True)
                scope = Scope(repo, crate, im, al, None, True)
            else:
                scope = None
        elif scope and re.match(r"(old|new): ", l):
            h, c = l[:5], l[5:]
            if rt:
                if not any(x in scope.imports and CAMEL.search(x) for x in re.findall(WORD, c)):
                    continue
                lines[i] = h + re.sub(WORD, lambda m: scope.word(m.group(0)) if CAMEL.search(m.group(0)) and m.group(0) in scope.imports else m.group(0), c)
                continue
            old = {}
            for t in set(re.findall(WORD, c)):
                now = EDIT_WORDS.get(t) or next((n for (cr, n), o in repo.ported.items() if o == t and (n in scope.imports or (cr == crate and n in scope.f.names))), None)
                if now:
                    old[t] = now
            c = re.sub(WORD, lambda m: old.get(m.group(0), m.group(0)), c)
            if USE.match(c):
                lines[i] = h + scope.line_of_use(c)
            else:
                c, rem = comment(c)
                lines[i] = h + scope.code(c) + rem
            # port.py leaves these files alone: a field is written tight now
            if l.startswith("old") or loose:
                for v in (r"\((\w+) \.(\w+)\)", r"(\w+) \.(\w+)"):
                    w = re.sub(v, r"\1.\2", lines[i][5:])
                    if l.startswith("new") and v in loose:
                        lines[i] = h + w
                    elif l.startswith("old") and lines[i][5:] not in now_of(at) and w in now_of(at):
                        lines[i], loose = h + w, [v]
                        break
                else:
                    if l.startswith("old"):
                        loose = []
                if l.startswith("new"):
                    loose = []
        elif not l.startswith(("old", "new")):
            lines[i] = scope.remark(l) if scope else l
    return "\n".join(lines)


CLASHES = []
EDIT_WORDS = {"getD": "get_or", "bitAnd": "bit_and", "bitXor": "bit_xor", "bitOr": "bit_or"}


def check_notes(path, note):
    """Two words of one file that come to one spelling."""
    for roles in (("word",), ("field",)):
        to = {}
        for role, t, n in note:
            if role in roles:
                to.setdefault(n, set()).add(t)
        for n, ts in sorted(to.items()):
            if len(ts) > 1:
                CLASHES.append(f"{path}: {' and '.join(sorted(ts))} both -> {n}")


def main():
    if not os.path.isdir("crates"):
        raise SystemExit("run it at the top of the repository")
    repo = Repo(".")
    repo.build()
    done, changed, local = {}, {}, {}
    for p, f in repo.files.items():
        note = []
        done[p] = turn_antt(repo, f, note)
        check_notes(p, note)
        for role, t, n in note:
            if t != n:
                changed.setdefault(t, {}).setdefault(n, set()).add(f.crate)
                if role == "word" and t not in f.names and t not in f.imports:
                    local.setdefault((t, n), set()).add(p)
    for f in repo.files.values():
        for i, ind, kind, name, b, rest in f.decls:
            n = repo.field_new[(f.crate, name)] if kind == "field" else repo.new[(f.module, name)]
            if n != name:
                changed.setdefault(name, {}).setdefault(n, set()).add(f.crate)
    for p in repo.rts:
        note = []
        done[p] = turn_rt(repo, p, note)
        check_notes(p, note)
    for p in repo.edits:
        done[p] = turn_edit(repo, p, done)
    for f in repo.files.values():
        mods = {}
        for i, ind, kind, name, blocks, rest in f.decls:
            if kind == "field":
                # a field beside a parameter of an enclosing module or of its record
                here = "\n".join(f.text.split("\n")[b[1]] for b in blocks)
                ps = {w for g in re.findall(r"[({]([^(){}:]*) :", here) for w in g.split()}
                n = repo.field_new[(f.crate, name)]
                if n in {repo.local(f.crate, w) for w in ps} and name not in ps:
                    CLASHES.append(f"{f.path}:{i + 1}: field {name} -> {n} beside a parameter")
            key = (blocks, ind, repo.field_new[(f.crate, name)] if kind == "field" else repo.new[(f.module, name)])
            if key in mods and mods[key] != name:
                CLASHES.append(f"{f.path}:{i + 1}: {mods[key]} and {name} at one level -> {key[2]}")
            mods[key] = name
    n = 0
    for p, t in done.items():
        if t != read(p):
            n += 1
            with open(p, "w", encoding="utf-8") as o:
                o.write(t)
    # the map, with the names from before port.py
    for (crate, now), old in repo.ported.items():
        new = next(iter(changed[now])) if now in changed and len(changed[now]) == 1 else now
        for w, cs in changed.get(now, {}).items():
            if crate in cs:
                new = w
        if new != old:
            changed.setdefault(old, {}).setdefault(new, set()).add(crate)
    where = os.path.join("tools", "spelling.map")
    lines = set()
    for t, ns in changed.items():
        for w, cs in ns.items():
            lines.add(f"{t} -> {w}" + (f"  ({' '.join(sorted(cs))})" if len(ns) > 1 else ""))
    if n:
        with open(where, "w", encoding="utf-8") as o:
            o.write("\n".join(sorted(lines)) + "\n")
    for c in sorted(set(CLASHES)):
        print("clash: " + c)
    for k, w in TABLE.items() if n else ():
        print("decided: " + (f"{k[0]}: {k[1]}" if isinstance(k, tuple) else k) + f" -> {w}")
    if "--locals" in sys.argv:
        for (t, w), ps in sorted(local.items()):
            print(f"local: {t} -> {w} {len(ps)} {sorted(ps)[0]}")
    print(f"spelling: {n} files written, {len(lines) if n else 0} names renamed, {len(set(CLASHES))} clashes" + ("" if n else ": nothing was left to turn"))


if __name__ == "__main__":
    main()
