//! Random texts, well-formed and damaged. Well-formed ones are made by Rust's own `char`, not by utf8.rs.

use crate::rng::Rng;
use std::ops::RangeInclusive;

/// 02, E1: these belong to the character before them.
pub const COMBINING_MARKS: RangeInclusive<char> = '\u{300}'..='\u{36F}';

/// The first and last combining mark of each of their two first octets.
pub const COMBINING_EDGES: [char; 4] = ['\u{300}', '\u{33F}', '\u{340}', '\u{36F}'];

/// The neighbours of the combining marks; and the first marks of other ranges, a joiner and a variation
/// selector, which E1 does not name.
pub const NOT_COMBINING: [char; 7] =
    ['\u{2FF}', '\u{370}', '\u{1AB0}', '\u{20D0}', '\u{FE20}', '\u{200D}', '\u{FE0F}'];

/// The most combining marks that follow a sequence here.
const LONGEST_RUN: usize = 4;

/// The most octets that a character has here.
pub const LONGEST_CHARACTER: usize = 4 + 2 * LONGEST_RUN;

/// The first and last code points of each length and each form of RFC 3629.
const EDGES: [char; 14] = [
    '\0',
    '\u{7F}',
    '\u{80}',
    '\u{7FF}',
    '\u{800}',
    '\u{FFF}',
    '\u{1000}',
    '\u{D7FF}',
    '\u{E000}',
    '\u{FFFF}',
    '\u{10000}',
    '\u{3FFFF}',
    '\u{40000}',
    '\u{10FFFF}',
];

/// Overlong forms, surrogates, values over 10FFFF, octets that never occur, tails alone, sequences cut short;
/// at the end, combining marks cut short and in overlong forms.
pub const ILL_FORMED: [&[u8]; 33] = [
    &[0xC0, 0x80],
    &[0xC1, 0xBF],
    &[0xE0, 0x80, 0x80],
    &[0xE0, 0x9F, 0xBF],
    &[0xF0, 0x80, 0x80, 0x80],
    &[0xF0, 0x8F, 0xBF, 0xBF],
    &[0xED, 0xA0, 0x80],
    &[0xED, 0xBF, 0xBF],
    &[0xED, 0xA0, 0x80, 0xED, 0xB0, 0x80],
    &[0xF4, 0x90, 0x80, 0x80],
    &[0xF4, 0xBF, 0xBF, 0xBF],
    &[0xF5, 0x80, 0x80, 0x80],
    &[0xF7, 0xBF, 0xBF, 0xBF],
    &[0xF8, 0x88, 0x80, 0x80, 0x80],
    &[0xFC, 0x84, 0x80, 0x80, 0x80, 0x80],
    &[0xFE],
    &[0xFF],
    &[0x80],
    &[0xBF],
    &[0xC2],
    &[0xC2, 0x41],
    &[0xC2, 0xC0],
    &[0xE2, 0x82],
    &[0xE2, 0x82, 0x41],
    &[0xE2, 0x41, 0xAC],
    &[0xF0, 0x9F, 0x98],
    &[0xF0, 0x9F, 0x98, 0xC0],
    &[0xF0, 0x9F, 0x41, 0x80],
    &[0xCC],
    &[0xCC, 0x7F],
    &[0xCD, 0xC0],
    &[0xE0, 0x8C, 0x81],
    &[0xF0, 0x80, 0x8C, 0x81],
];

/// A sequence that is no combining mark.
fn base(rng: &mut Rng) -> char {
    let value = match rng.below(7) {
        0 => return rng.pick(&EDGES),
        1 => return rng.pick(&NOT_COMBINING),
        2 | 3 => rng.below(0x80),
        4 => 0x80 + rng.below(0x780),
        5 => 0x800 + rng.below(0xF800),
        _ => 0x1_0000 + rng.below(0x10_0000),
    };
    char::from_u32(value as u32).filter(|base| !COMBINING_MARKS.contains(base)).unwrap_or('é')
}

fn combining_mark(rng: &mut Rng) -> char {
    if rng.once_in(2) {
        return rng.pick(&COMBINING_EDGES);
    }
    let (first, last) = (*COMBINING_MARKS.start() as usize, *COMBINING_MARKS.end() as usize);
    char::from_u32((first + rng.below(last - first + 1)) as u32).expect("a combining mark")
}

/// How many combining marks follow a sequence: none, one or a run, on average one to every two sequences.
fn run(rng: &mut Rng) -> usize {
    match rng.below(12) {
        0 => 2 + rng.below(LONGEST_RUN - 1),
        1..=3 => 1,
        _ => 0,
    }
}

/// A text of so many characters, as 02, E1 counts them. Of its sequences about one in three is a combining
/// mark, and of the texts about one in four starts with one.
pub fn well_formed(rng: &mut Rng, characters: usize) -> Vec<u8> {
    let mut text = String::new();
    for place in 0..characters {
        text.push(if place == 0 && rng.once_in(4) { combining_mark(rng) } else { base(rng) });
        for _ in 0..run(rng) {
            text.push(combining_mark(rng));
        }
    }
    text.into_bytes()
}

/// Any place of a text, its end included; in half of the cases it stands right before, inside or right after
/// a combining mark, if there is one.
fn any_place(rng: &mut Rng, text: &[u8]) -> usize {
    let is_combining_mark = |at: &usize| {
        let octets = text.get(*at..at + 2).and_then(|octets| std::str::from_utf8(octets).ok());
        octets.is_some_and(|sequence| sequence.starts_with(|first| COMBINING_MARKS.contains(&first)))
    };
    let combining_marks: Vec<usize> = (0..text.len()).filter(is_combining_mark).collect();
    if combining_marks.is_empty() || rng.once_in(2) {
        return rng.below(text.len() + 1);
    }
    rng.pick(&combining_marks) + rng.below(3)
}

/// A text with one fault, which may by chance leave it well-formed.
pub fn damaged(rng: &mut Rng, mut text: Vec<u8>) -> Vec<u8> {
    let place = any_place(rng, &text);
    match rng.below(5) {
        0 => text.truncate(place),
        1 => drop(text.splice(place..place, rng.pick(&ILL_FORMED).iter().copied())),
        2 => text.insert(place, rng.octet()),
        3 if place < text.len() => text[place] ^= 1 << rng.below(8),
        _ if place < text.len() => drop(text.remove(place)),
        _ => text.push(0x80 | rng.octet()),
    }
    text
}
