//! Characters: RFC 3629 sections 3 and 4, and 02, E1. Fitting a label: 01, Labels.

use std::ops::RangeInclusive;

/// A count or limit of octets; 00-request: it never stands in for one of characters.
#[derive(Clone, Copy, PartialEq, Eq, PartialOrd, Ord, Debug)]
pub struct Octets(pub usize);

/// A count or limit of characters.
#[derive(Clone, Copy, PartialEq, Eq, PartialOrd, Ord, Debug)]
pub struct Characters(pub usize);

const TAIL: (u8, u8) = (0x80, 0xBF);

/// RFC 3629 section 4, UTF8-char: each row is one form, each pair the least and greatest value of one octet.
const FORMS: [&[(u8, u8)]; 9] = [
    &[(0x00, 0x7F)],
    &[(0xC2, 0xDF), TAIL],
    &[(0xE0, 0xE0), (0xA0, 0xBF), TAIL],
    &[(0xE1, 0xEC), TAIL, TAIL],
    &[(0xED, 0xED), (0x80, 0x9F), TAIL],
    &[(0xEE, 0xEF), TAIL, TAIL],
    &[(0xF0, 0xF0), (0x90, 0xBF), TAIL, TAIL],
    &[(0xF1, 0xF3), TAIL, TAIL, TAIL],
    &[(0xF4, 0xF4), (0x80, 0x8F), TAIL, TAIL],
];

/// 02, E1: the code points of the combining marks, which belong to the character before them.
const COMBINING_MARKS: RangeInclusive<u32> = 0x0300..=0x036F;

/// RFC 3629 section 3: the bits of the first octet that are the code point's, in sequences of one to four.
const FIRST_BITS: [u8; 4] = [0x7F, 0x1F, 0x0F, 0x07];

fn starts_with(text: &[u8], form: &[(u8, u8)]) -> bool {
    let mut within =
        form.iter().zip(text).map(|((least, greatest), octet)| least <= octet && octet <= greatest);
    text.len() >= form.len() && within.all(|octet_is_within| octet_is_within)
}

/// The well-formed sequence at the start of a text.
/// At most one form fits at a place, because no first octet belongs to two forms.
fn first_sequence(text: &[u8]) -> Option<&[u8]> {
    let form = FORMS.iter().find(|form| starts_with(text, form))?;
    Some(&text[..form.len()])
}

/// RFC 3629 section 3: the octets of a well-formed sequence carry the code point's bits, the highest first,
/// each octet after the first one six.
fn code_point(sequence: &[u8]) -> u32 {
    let first = sequence[0] & FIRST_BITS[sequence.len() - 1];
    sequence[1..].iter().fold(first.into(), |bits, octet| bits << 6 | u32::from(octet & 0x3F))
}

fn is_combining_mark(sequence: &[u8]) -> bool {
    COMBINING_MARKS.contains(&code_point(sequence))
}

/// The number of characters of a text, or none where it isn't a run of well-formed sequences.
/// 02, E1: a combining mark starts a character only where it starts the text; any other sequence starts one.
pub fn characters(text: &[u8]) -> Option<Characters> {
    let mut rest = text;
    let mut count = 0;
    while !rest.is_empty() {
        let sequence = first_sequence(rest)?;
        if rest.len() == text.len() || !is_combining_mark(sequence) {
            count += 1;
        }
        rest = &rest[sequence.len()..];
    }
    Some(Characters(count))
}

/// 01, Labels: the offset at which the longest well-formed front part ends.
pub fn longest_well_formed_front(text: &[u8]) -> Octets {
    let mut longest = Octets(0);
    for end in 0..=text.len() {
        if characters(&text[..end]).is_some() {
            longest = Octets(end);
        }
    }
    longest
}

/// 01, Labels: what fitting hands back.
#[derive(Clone, Copy, PartialEq, Eq, Debug)]
pub enum Fit {
    Kept(Octets, Characters),
    /// Number 8, with the offset.
    IllFormed(Octets),
}

/// 01, Labels, and 00-request demand 2: the longest run of whole characters from
/// the start within both limits. Every front part is tried. 02, E1: where a combining
/// mark follows a front part, its last character is not whole.
pub fn fit(label: &[u8], octet_limit: Octets, character_limit: Characters) -> Fit {
    if characters(label).is_none() {
        return Fit::IllFormed(longest_well_formed_front(label));
    }
    let mut kept = Fit::Kept(Octets(0), Characters(0));
    for end in 1..=label.len() {
        let (front, rest) = label.split_at(end);
        if Octets(end) > octet_limit || first_sequence(rest).is_some_and(is_combining_mark) {
            continue;
        }
        if let Some(count) = characters(front).filter(|count| *count <= character_limit) {
            kept = Fit::Kept(Octets(end), count);
        }
    }
    kept
}
