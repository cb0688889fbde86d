#!/usr/bin/env python3
"""Counts the places of each point of docs/DESIGN-PASS.md in crates/*/src, by their text: places.py [POINT] [FOLDER]."""
import collections
import pathlib
import re
import sys

NOTHING = r"None|Nothing|Refused|Fault|Faulty|Bad|Short|Missing|Outside|IllFormed|NoRecord|Idle"  # a case that holds no value, or refuses
CONVERSIONS = r"number|refusal_number|fault_number|code|command_of|octet_of|kind_of|known|wide|equal|alike|same|copy\w*|eq|cmp"


def sources(top):
    """Each file of src/, with comments as spaces."""
    for file in sorted(pathlib.Path(top).glob("crates/*/src/*.rt")):
        text = re.sub(r"//[^\n]*", lambda comment: " " * len(comment[0]), file.read_text())
        yield str(file.relative_to(top)), text


def line_of(text, at):
    return text.count("\n", 0, at) + 1


def functions(text):
    """Name, parameters, clauses and body of each function, and where it starts."""
    for head in re.finditer(r"\bfn (\w+)(?:<[^>]*>)?\(", text):
        depth, end = 1, head.end()
        while depth:
            depth += {"(": 1, ")": -1}.get(text[end], 0)
            end += 1
        body = re.compile(r"^ *\{$|\) *(?:-> [^{};]*)?\{$|-> [^{};\n]*\{$", re.M).search(text, end - 1)
        if not body:
            continue
        depth, stop = 1, body.end()
        while depth:
            depth += {"{": 1, "}": -1}.get(text[stop], 0)
            stop += 1
        yield head[1], text[head.end() : end - 1], text[end : body.start()], text[body.end() : stop - 1], head.start()


def shapes(top):
    """Own enums of the shape of Option or Result, flags beside values, and numbers for kinds or refusals."""
    for file, text in sources(top):
        for enum in re.finditer(r"enum (\w+) \{(.*?)\n\}", text, re.S):
            cases = re.findall(r"^    (\w+)([({]?)", enum[2], re.M)
            two = len(cases) == 2 and any(value for _, value in cases)
            named = any(re.fullmatch(NOTHING, name) for name, _ in cases)
            if enum[1] != "Refusal" and (two or named):
                yield file, line_of(text, enum.start()), "enum " + enum[1]
        for struct in re.finditer(r"struct (\w+)[^{;]*\{(.*?)\n\}", text, re.S):
            if re.search(r": bool,", struct[2]) and struct[2].count(": ") > 1:
                yield file, line_of(text, struct.start()), "flag in struct " + struct[1]
        for name, parameters, _, _, at in functions(text):
            if re.search(r"\b(kind|refusal|answer|fault): (u8|u32|usize)\b", parameters):
                yield file, line_of(text, at), "number for a kind in " + name


def twins(top):
    """Functions whose bodies differ in numerals, texts and names of constants, types and cases alone."""
    found = collections.defaultdict(list)
    for file, text in sources(top):
        for name, _, _, body, at in functions(text):
            plain = re.sub(r"\b0x[0-9A-Fa-f]+\b|\b\d+(?:[a-z]\w*)?\b|\b[A-Z]\w*\b|b?\"[^\"]*\"", "#", body)
            plain = re.sub(r"(#::)+|\s+", "", plain)
            if len(plain) >= 20 and plain.strip("{}"):
                found[plain].append((file, line_of(text, at), name))
    for group in found.values():
        if len(group) > 1:
            for file, line, name in group:
                yield file, line, f"{name}, one of {len(group)}: " + ", ".join(other[2] for other in group)


def loops(top):
    """Loops that go by hand: `while` and `loop`, but for `while let`."""
    for file, text in sources(top):
        for word in re.finditer(r"^ *(while (?!let ).*|loop \{)", text, re.M):
            yield file, line_of(text, word.start(1)), word[1]


def conversions(top):
    """Equality, order, copies and conversions written by hand, and the calls of octets::equal and octets::wide."""
    for file, text in sources(top):
        for name, _, _, _, at in functions(text):
            if re.fullmatch(CONVERSIONS, name):
                yield file, line_of(text, at), "fn " + name
        for call in re.finditer(r"octets::equal\(|\bwide\(", text):
            if "fn wide" not in text[call.start() - 3 : call.end()]:
                yield file, line_of(text, call.start()), call[0] + ")"


def facts(top):
    """Facts in the requires of three functions of a crate or more, and parameters that travel together in three or more."""
    held, groups = collections.defaultdict(list), collections.defaultdict(list)
    for file, text in sources(top):
        crate = file.split("/")[1]
        for name, parameters, clauses, _, at in functions(text):
            for clause in re.findall(r"requires(?: \w+)? \{ (.*) \}", clauses):
                for fact in clause.split(" × "):
                    held[crate, fact.strip("() ")].append((file, line_of(text, at), name))
            listed = re.findall(r"(\w+): ([^,]+)", parameters)
            words = tuple(sorted(f"{word}: {kind.strip()}" for word, kind in listed))
            for first in range(len(words)):
                for second in range(first + 1, len(words)):
                    for third in range(second + 1, len(words)):
                        groups[crate, words[first], words[second], words[third]].append((file, line_of(text, at), name))
    for (crate, fact), places in held.items():
        if len(places) > 2:
            yield places[0][0], places[0][1], f"{fact}: " + ", ".join(place[2] for place in places)
    whole = collections.defaultdict(set)
    for key, places in groups.items():
        if len(places) > 2:
            whole[key[0], tuple(places)].update(key[1:])
    for (_, places), words in whole.items():
        yield places[0][0], places[0][1], "; ".join(sorted(words)) + " in " + ", ".join(place[2] for place in places)


def buffers(top):
    """Structs that hold an array and a length beside it, and functions that take the arrays of heads and contents."""
    for file, text in sources(top):
        for struct in re.finditer(r"struct (\w+)[^{;]*\{(.*?)\n\}", text, re.S):
            if re.search(r": \[", struct[2]) and re.search(r": (Octets|usize|Phase|RecordCount),", struct[2]):
                yield file, line_of(text, struct.start()), "struct " + struct[1]
        for name, parameters, _, _, at in functions(text):
            if re.search(r"heads: .*contents: ", parameters, re.S):
                yield file, line_of(text, at), "heads and contents in " + name


def switches(top):
    """Matches of which three arms or more each run a function of their own."""
    for file, text in sources(top):
        for match in re.finditer(r"^( *)(?:let \w+ = )?match [^\n]*\{\n(.*?)^\1\}", text, re.M | re.S):
            runs = re.findall(r"=> (?:\{\s*)?(?:let \w+ = )?([\w.:]+)\([^\n]*", match[2])
            called = {word for word in runs if not re.search(r"(^|::)[A-Z]\w*$", word)}
            if len(called) > 2:
                yield file, line_of(text, match.start()), ", ".join(sorted(called))


def proofs(top):
    """Files and lines of proofs, a crate a line."""
    for folder in sorted(pathlib.Path(top).glob("crates/*/proofs")):
        files = [file for file in folder.rglob("*.antt")]
        yield str(folder.relative_to(top)), len(files), f"{sum(file.read_text().count(chr(10)) for file in files)} lines"


POINTS = [shapes, twins, loops, conversions, facts, buffers, switches, proofs]

if __name__ == "__main__":
    wanted = [word for word in sys.argv[1:] if word.isdigit()]
    top = ([word for word in sys.argv[1:] if not word.isdigit()] or ["."])[0]
    for number, point in enumerate(POINTS, 1):
        places = list(point(top))
        if not wanted:
            print(f"{number}. {len(places)}: {point.__doc__}")
        elif str(number) in wanted:
            for file, line, what in places:
                print(f"{file}:{line}: {what}")
