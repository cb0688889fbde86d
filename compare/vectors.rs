//! Self-tests on published data: the check key, DES and its weak keys, UTF-8 beside
//! Rust's own, and the frames worked out in docs/.

use crate::crc;
use crate::des;
use crate::frame::{self, Body, Frame, Number, BROADCAST};
use crate::hex::{self, Hex};
use crate::keys;
use crate::random_frames;
use crate::random_keys;
use crate::random_text;
use crate::report::{same, Case, Disagreement};
use crate::rng::Rng;
use crate::utf8::{self, Characters, Fit, Octets};

/// Keys and plaintexts of NIST SP 800-17's known-answer sets, with their ciphertexts.
const DES_VECTORS: &str = include_str!("../crates/des_vectors/stdin");

/// The stored vectors of our program `des_vectors`: key, plaintext, ciphertext.
pub fn des_rows() -> Vec<[[u8; 8]; 3]> {
    let rows = DES_VECTORS.lines().filter(|line| !line.starts_with('#') && *line != "boxes");
    rows.map(|row| {
        let mut fields = row.split_whitespace().skip(1).map(hex::field);
        std::array::from_fn(|_| fields.next().expect("three fields after the set's name"))
    })
    .collect()
}

/// The check value by which this CRC is known, and Annex E.3's law on random octets.
pub fn crc(rng: &mut Rng) -> Result<usize, Disagreement> {
    same(Hex(&crc::key(b"123456789")), Hex(&[0x3D, 0xBB]), || "the digits 1 to 9".into())?;
    for count in 0..=300 {
        let octets = rng.octets(count);
        let whole = [&octets[..], &crc::key(&octets)].concat();
        same(crc::divisible(&whole), true, || hex::text(&whole))?;
    }
    Ok(302)
}

pub fn des() -> Result<usize, Disagreement> {
    let rows = des_rows();
    for [key, plain, cipher] in &rows {
        let input = || format!("key {} block {}", hex::text(key), hex::text(plain));
        same(Hex(&des::encipher(*key, *plain)), Hex(cipher), input)?;
        same(Hex(&des::decipher(*key, *cipher)), Hex(plain), input)?;
    }
    fips_81()?;
    rivest()?;
    Ok(2 * rows.len() + 4)
}

/// FIPS 81, Table B1: "Now is the time for all ".
fn fips_81() -> Result<(), Disagreement> {
    let key = hex::field("0123456789ABCDEF");
    let ciphers = ["3FA40E8A984D4815", "6A271787AB8883F9", "893D51EC4B563B53"];
    for (plain, cipher) in b"Now is the time for all ".chunks(8).zip(ciphers) {
        let gave = des::encipher(key, plain.try_into().expect("eight octets"));
        same(Hex(&gave), Hex(&hex::octets(cipher)), || hex::text(plain))?;
    }
    Ok(())
}

/// Rivest's test: each value is both key and block, enciphered and deciphered by turns.
fn rivest() -> Result<(), Disagreement> {
    let mut value: [u8; 8] = hex::field("9474B8E8C73BCA7D");
    for step in 0..16 {
        value = if step % 2 == 0 { des::encipher(value, value) } else { des::decipher(value, value) };
    }
    same(Hex(&value), Hex(&hex::octets("1B1A2DDB4C642438")), || "9474B8E8C73BCA7D".into())
}

/// Whether a key is weak, by our test and by its sixteen round keys.
fn weak_or_not(key: [u8; 8], expected: bool) -> Case {
    let round_keys = des::round_keys(key);
    let all_equal = round_keys.iter().all(|round_key| *round_key == round_keys[0]);
    same((keys::weak(key), all_equal), (expected, expected), || format!("key {}", hex::text(&key)))
}

/// A block enciphered under one key and then under another comes back.
fn undone(rng: &mut Rng, key: [u8; 8], other: [u8; 8]) -> Case {
    let block = rng.field();
    let twice = des::encipher(other, des::encipher(key, block));
    same(Hex(&twice), Hex(&block), || format!("keys {} and {}", hex::text(&key), hex::text(&other)))
}

/// 02, E5: the four keys are weak, with every parity, and none is that is nearly so. Of all keys of two
/// octets, four times each, these alone are weak.
pub fn weak_keys(rng: &mut Rng) -> Result<usize, Disagreement> {
    let about = keys::about_the_rule();
    for (key, weak) in &about {
        weak_or_not(*key, *weak)?;
    }
    for [key, other] in keys::WEAK.map(|key| [key, key]).into_iter().chain(keys::SEMI_WEAK) {
        undone(rng, key, other)?;
    }
    for _ in 0..5_000 {
        weak_or_not(random_keys::nearly_weak(rng), false)?;
        weak_or_not(rng.field(), false)?;
    }
    for (front, back) in (0..=255).flat_map(|front| (0..=255).map(move |back| (front, back))) {
        let key = [front, front, front, front, back, back, back, back];
        let named = keys::WEAK.iter().any(|weak| [front | 1, back | 1] == [weak[0] | 1, weak[7] | 1]);
        weak_or_not(key, named)?;
    }
    Ok(about.len() + 10 + 2 * 5_000 + 256 * 256)
}

/// Fitting by the `char`s of Rust's library (02, E1): a text may be cut at its start, at its end and before
/// each `char` that is no combining mark.
pub fn library_fit(text: &str, octet_limit: Octets, character_limit: Characters) -> (Octets, Characters) {
    let starts = |(place, next): &(usize, char)| *place == 0 || !random_text::COMBINING_MARKS.contains(next);
    let cuts = text.char_indices().filter(starts).map(|(place, _)| place).chain([text.len()]);
    let kept = cuts.enumerate().map(|(count, cut)| (Octets(cut), Characters(count)));
    let within = kept.take_while(|(octets, count)| *octets <= octet_limit && *count <= character_limit);
    within.last().expect("a cut at the start")
}

/// Our reading of RFC 3629's table beside the one in Rust's library, and our characters beside those that
/// a text was made of.
pub fn utf8(rng: &mut Rng) -> Result<usize, Disagreement> {
    let cases = 20_000;
    for _ in 0..cases {
        let characters = rng.below(12);
        let mut text = random_text::well_formed(rng, characters);
        same(utf8::characters(&text), Some(Characters(characters)), || hex::text(&text))?;
        for _ in 0..rng.below(3) {
            text = random_text::damaged(rng, text);
        }
        let limits = (Octets(rng.below(text.len() + 2)), Characters(rng.below(characters + 2)));
        let (count, front, fit) = match std::str::from_utf8(&text) {
            Ok(whole) => {
                let (octets, count) = library_fit(whole, Octets(usize::MAX), Characters(usize::MAX));
                let kept = library_fit(whole, limits.0, limits.1);
                (Some(count), octets, Fit::Kept(kept.0, kept.1))
            }
            Err(fault) => {
                let front = Octets(fault.valid_up_to());
                (None, front, Fit::IllFormed(front))
            }
        };
        same(utf8::characters(&text), count, || hex::text(&text))?;
        same(utf8::longest_well_formed_front(&text), front, || hex::text(&text))?;
        same(utf8::fit(&text, limits.0, limits.1), fit, || format!("{} {limits:?}", hex::text(&text)))?;
    }
    Ok(cases)
}

/// 02, E1 over every code point: it is one character with an e before it exactly if it is a combining mark,
/// and with U+0301 after it whatever it is.
pub fn combining_marks() -> Result<usize, Disagreement> {
    let mut cases = 0;
    for code_point in '\0'..=char::MAX {
        let after_e = if random_text::COMBINING_MARKS.contains(&code_point) { 1 } else { 2 };
        for (text, count) in [(format!("e{code_point}"), after_e), (format!("{code_point}\u{301}"), 1)] {
            let input = || hex::text(text.as_bytes());
            same(utf8::characters(text.as_bytes()), Some(Characters(count)), input)?;
            cases += 1;
        }
    }
    Ok(cases)
}

/// One worked frame of each command; spaces and the bar are only for the eye.
pub fn worked_frames() -> Vec<(Body, &'static str)> {
    let (na1, na2) = (hex::field("0123456789ABCDEF"), hex::field("FEDCBA9876543210"));
    let (na1k, na2k) = (hex::field("85E813540F0AB405"), hex::field("4AB65B3D4B061518"));
    let (tab, data) = (0x0A, "Zoé".as_bytes().to_vec());
    let transferred = vec![0x00, 0xFF];
    let ads = hex::field("112233445566");
    vec![
        (Body::Ib, "0B 000000000000 01 09 | B2 A6"),
        (Body::Enq { tab }, "0C 665544332211 01 01 0A | AA 35"),
        (Body::Dat { tab, data: data.clone() }, "10 665544332211 01 02 0A 5A6FC3A9 | 9E 72"),
        (Body::Drj, "0B 665544332211 01 0A | 20 9D"),
        (
            Body::Rec { na1, tab, data: data.clone() },
            "20 665544332211 01 03 EFCDAB8967452301 0000000000000000 0A 5A6FC3A9 | 51 61",
        ),
        (
            Body::Ech { na1k, na2, tab, data },
            "20 665544332211 01 04 05B40A0F5413E885 1032547698BADCFE 0A 5A6FC3A9 | 97 1A",
        ),
        (Body::Aut { na2k }, "1B 665544332211 01 05 0000000000000000 1815064B3D5BB64A | 4E 3C"),
        (Body::Eos, "1B 665544332211 01 06 0000000000000000 0000000000000000 | D5 27"),
        (Body::Arj, "0B 665544332211 01 0B | E1 5D"),
        (Body::Trf { tab: 0x0B, data: transferred.clone() }, "0E 665544332211 01 0C 0B 00FF | 54 5C"),
        (Body::Tra, "0B 665544332211 01 0E | 21 5E"),
        (Body::Trb { tab: 0x0B, data: transferred }, "0E 000000000000 01 0D 0B 00FF | E7 39"),
        (Body::Aso { tabs: vec![0x0A, 0x0B] }, "0D 000000000000 01 07 0A 0B | CC F6"),
        (Body::Rso { tab, ads }, "12 665544332211 01 08 0A 665544332211 | E4 55"),
        (Body::Pre, "0B 665544332211 01 10 | A1 56"),
        (Body::Sel, "0B 665544332211 01 11 | 60 96"),
    ]
}

pub fn frames() -> Result<usize, Disagreement> {
    let worked = worked_frames();
    for (body, octets) in &worked {
        let to_broadcast = matches!(body, Body::Ib | Body::Trb { .. } | Body::Aso { .. });
        let ads = if to_broadcast { BROADCAST } else { hex::field("112233445566") };
        let frame = Frame { ads, adp: 0x01, body: body.clone() };
        same(frame.octets(), Ok(hex::octets(octets)), || octets.to_string())?;
        same(frame::read(&hex::octets(octets)), Ok(frame), || octets.to_string())?;
    }
    let na1k = des::encipher(hex::field("133457799BBCDFF1"), hex::field("0123456789ABCDEF"));
    same(Hex(&na1k), Hex(&hex::octets("85E813540F0AB405")), || "NA1 of the worked REC".into())?;
    let na2k = des::encipher(hex::field("133457799BBCDFF1"), hex::field("FEDCBA9876543210"));
    same(Hex(&na2k), Hex(&hex::octets("4AB65B3D4B061518")), || "NA2 of the worked ECH".into())?;
    Ok(2 * worked.len() + 2)
}

/// The sixteen codes with the least and greatest whole length: 11 and the widths drawn in 001 2.4.1 to 2.4.9.
const LENGTHS: [(u8, usize, usize); 16] = [
    (0x01, 11 + 1, 11 + 1),
    (0x02, 11 + 1, 11 + 1 + 116),
    (0x03, 11 + 8 + 8 + 1, 11 + 8 + 8 + 1 + 100),
    (0x04, 11 + 8 + 8 + 1, 11 + 8 + 8 + 1 + 100),
    (0x05, 11 + 8 + 8, 11 + 8 + 8),
    (0x06, 11 + 8 + 8, 11 + 8 + 8),
    (0x07, 11 + 1, 11 + 40),
    (0x08, 11 + 1 + 6, 11 + 1 + 6),
    (0x09, 11, 11),
    (0x0A, 11, 11),
    (0x0B, 11, 11),
    (0x0C, 11 + 1, 11 + 1 + 116),
    (0x0D, 11 + 1, 11 + 1 + 116),
    (0x0E, 11, 11),
    (0x10, 11, 11),
    (0x11, 11, 11),
];

/// No N; N of 10 and of 129; too few and too many octets; a wrong CRC
/// beside an unknown code and a wrong length.
const REFUSED: [(&str, Number); 7] = [
    ("", 3),
    ("0A 665544332211 01 01 AA", 1),
    ("81 665544332211 01 01 0A AA 35", 1),
    ("0C 665544332211 01 01 0A AA", 3),
    ("0C 665544332211 01 01 0A AA 35 00", 3),
    ("0B 665544332211 01 0F 00 00", 2),
    ("0B 665544332211 01 06 00 00", 2),
];

/// The order of the checks over every code and whole length: known
/// command (4), its length (5); and 1 and 3 before 2.
pub fn frame_refusals(rng: &mut Rng) -> Result<usize, Disagreement> {
    let mut cases = 0;
    for code in 0..=255 {
        for fields in 0..=117 {
            let octets = frame::enclose(rng.field(), rng.octet(), code, &rng.octets(fields));
            let number = match LENGTHS.iter().find(|(known, _, _)| *known == code) {
                None => Some(4),
                Some((_, least, greatest)) if octets.len() < *least || octets.len() > *greatest => Some(5),
                Some(_) => None,
            };
            same(frame::read(&octets).err(), number, || hex::text(&octets))?;
            cases += 1;
        }
    }
    for (octets, number) in REFUSED {
        same(frame::read(&hex::octets(octets)).err(), Some(number), || octets.into())?;
    }
    Ok(cases + REFUSED.len())
}

/// 01, Frames: built and read again, read and built again, and zero fields that hold something else.
pub fn frame_laws(rng: &mut Rng) -> Result<usize, Disagreement> {
    let cases = 5_000;
    for _ in 0..cases {
        let ads = rng.field();
        let frame = random_frames::frame(rng, ads);
        let mut buffer = rng.octets(130);
        let before = buffer.clone();
        let length = frame.build(&mut buffer).expect("DATA within its limit");
        let input = || hex::text(&before);
        same(frame::read(&buffer[..length]), Ok(frame.clone()), input)?;
        same(Hex(&buffer[length..]), Hex(&before[length..]), input)?;
        let zero_fields = match frame.body {
            Body::Rec { .. } => 17..25,
            Body::Aut { .. } => 9..17,
            Body::Eos => 9..25,
            _ => 9..9,
        };
        buffer[zero_fields.clone()].copy_from_slice(&before[zero_fields]);
        let key = crc::key(&buffer[..length - 2]);
        buffer[length - 2..length].copy_from_slice(&key);
        same(frame::read(&buffer[..length]), Ok(frame), input)?;
    }
    Ok(cases)
}
