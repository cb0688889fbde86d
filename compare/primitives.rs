//! CRC, DES and labels of our library beside the model, over structured, random and damaged input.

use crate::bench;
use crate::crc;
use crate::des;
use crate::ffi::primitives as ours;
use crate::ffi::Lent;
use crate::frame::Block;
use crate::hex::{self, Hex};
use crate::random_frames;
use crate::random_keys;
use crate::random_text;
use crate::report::{same, Case, Disagreement};
use crate::rng::Rng;
use crate::utf8::{self, Characters, Fit, Octets};
use crate::vectors;

#[derive(PartialEq, Debug)]
struct CrcAnswer<'a> {
    key: Hex<'a>,
    divisible: u8,
    octets_kept: bool,
}

fn crc_case(octets: &[u8]) -> Case {
    let mut lent = Lent::new(octets);
    let (key, divisible) = (ours::crc_key(&mut lent).to_le_bytes(), ours::crc_divisible(&mut lent));
    let gave = CrcAnswer { key: Hex(&key), divisible, octets_kept: lent.still_holds(octets) };
    let (key, divisible) = (crc::key(octets), crc::divisible(octets) as u8);
    same(gave, CrcAnswer { key: Hex(&key), divisible, octets_kept: true }, || hex::text(octets))
}

pub fn crc(rng: &mut Rng, random_cases: usize) -> Result<usize, Disagreement> {
    let structured = crc_structured(rng);
    for octets in &structured {
        crc_case(octets)?;
    }
    for _ in 0..random_cases {
        crc_case(&crc_random(rng))?;
    }
    Ok(structured.len() + random_cases)
}

/// All octets alone, every length to 300, the worked frames, and a good frame with each of its bits turned.
fn crc_structured(rng: &mut Rng) -> Vec<Vec<u8>> {
    let alone = (0..=255).map(|octet| vec![octet]);
    let mut cases: Vec<Vec<u8>> = alone.chain((0..=300).map(|count| vec![0xFF; count])).collect();
    cases.extend((0..=300).map(|count| rng.octets(count)));
    cases.extend(vectors::worked_frames().iter().map(|(_, octets)| hex::octets(octets)));
    let ads = rng.field();
    let good = random_frames::frame(rng, ads).octets().expect("DATA within its limit");
    for bit in 0..8 * good.len() {
        let mut damaged = good.clone();
        damaged[bit / 8] ^= 1 << (bit % 8);
        cases.push(damaged);
    }
    cases
}

/// Random octets, a single bit, a good frame, a damaged one, or any octets closed by their key.
fn crc_random(rng: &mut Rng) -> Vec<u8> {
    let (ads, count) = (rng.field(), rng.below(301));
    match rng.below(5) {
        0 => rng.octets(count),
        1 => {
            let mut octets = vec![0; count];
            if count > 0 {
                octets[rng.below(count)] = 1 << rng.below(8);
            }
            octets
        }
        2 => random_frames::frame(rng, ads).octets().expect("DATA within its limit"),
        3 => random_frames::damaged(rng, ads),
        _ => {
            let octets = rng.octets(count);
            [&octets[..], &crc::key(&octets)].concat()
        }
    }
}

#[derive(PartialEq, Debug)]
struct DesAnswer<'a> {
    block: Hex<'a>,
    key_and_guards_kept: bool,
}

/// One way, our call beside the model's function.
fn des_one_way(
    key: Block,
    block: Block,
    call: fn(&mut Lent, &mut Lent),
    model: fn(Block, Block) -> Block,
) -> Case {
    let (mut lent_key, mut lent_block) = (Lent::new(&key), Lent::new(&block));
    call(&mut lent_key, &mut lent_block);
    let kept = lent_key.still_holds(&key) && lent_block.guards_kept();
    let gave = DesAnswer { block: Hex(lent_block.octets()), key_and_guards_kept: kept };
    let expected = model(key, block);
    let expected = DesAnswer { block: Hex(&expected), key_and_guards_kept: true };
    same(gave, expected, || format!("key {} block {}", hex::text(&key), hex::text(&block)))
}

fn des_case(key: Block, block: Block) -> Case {
    des_one_way(key, block, ours::des_encipher, des::encipher)?;
    des_one_way(key, block, ours::des_decipher, des::decipher)
}

/// Each case goes both ways.
pub fn des(rng: &mut Rng, random_cases: usize) -> Result<usize, Disagreement> {
    let structured = des_structured();
    for (key, block) in &structured {
        des_case(*key, *block)?;
    }
    for _ in 0..random_cases {
        let (key, block) = des_random(rng);
        des_case(key, block)?;
    }
    Ok(structured.len() + random_cases)
}

fn one_bit(bit: usize) -> Block {
    (1u64 << bit).to_be_bytes()
}

/// Every key of one bit with every block of one bit; and the stored vectors, each row from both its ends.
fn des_structured() -> Vec<(Block, Block)> {
    let mut cases = vec![];
    for key_bit in 0..64 {
        cases.extend((0..64).map(|block_bit| (one_bit(key_bit), one_bit(block_bit))));
    }
    for [key, plain, cipher] in vectors::des_rows() {
        cases.extend([(key, plain), (key, cipher)]);
    }
    cases
}

/// Random keys and blocks, those of one bit or one octet, weak keys with any parity, and nearly weak ones.
/// DES takes all of them.
fn des_random(rng: &mut Rng) -> (Block, Block) {
    let (key, block): (Block, Block) = (rng.field(), rng.field());
    match rng.below(6) {
        0 => (one_bit(rng.below(64)), block),
        1 => (key, one_bit(rng.below(64))),
        2 => ([key[0]; 8], [block[0]; 8]),
        3 => (random_keys::weak(rng), block),
        4 => (random_keys::nearly_weak(rng), block),
        _ => (key, block),
    }
}

#[derive(PartialEq, Debug)]
struct LabelAnswer {
    number: u8,
    octets: usize,
    characters: usize,
    label_kept: bool,
}

fn label_case(rng: &mut Rng, label: &[u8], limits: (usize, usize)) -> Case {
    let preset = (rng.below(1000), rng.below(1000));
    let (mut lent, mut counts) = (Lent::new(label), preset);
    let number = ours::label_fit(&mut lent, limits, &mut counts);
    let gave =
        LabelAnswer { number, octets: counts.0, characters: counts.1, label_kept: lent.still_holds(label) };
    let (number, octets, characters) = match utf8::fit(label, Octets(limits.0), Characters(limits.1)) {
        Fit::Kept(octets, characters) => (0, octets.0, characters.0),
        Fit::IllFormed(offset) => (8, offset.0, preset.1),
    };
    let expected = LabelAnswer { number, octets, characters, label_kept: true };
    let input = || format!("label {} limits {} octets, {} characters", hex::text(label), limits.0, limits.1);
    same(gave, expected, input)
}

pub fn labels(rng: &mut Rng, random_cases: usize) -> Result<usize, Disagreement> {
    let structured = labels_structured(rng);
    for label in &structured {
        let limits = label_limits(rng, label);
        label_case(rng, label, limits)?;
    }
    let mut cases = structured.len() + random_cases;
    for label in labels_with_combining_marks() {
        cases += label_at_every_limit(rng, &label)?;
    }
    cases += every_code_point(rng)?;
    for _ in 0..random_cases {
        let label = label_random(rng);
        let limits = label_limits(rng, &label);
        label_case(rng, &label, limits)?;
    }
    Ok(cases)
}

/// 02, E1: some words, and every label of at most three pieces. A piece is a sequence of each length, a
/// combining mark at an edge of their range, what is none though near to it or like it, one cut short, or an
/// octet that never occurs.
fn labels_with_combining_marks() -> Vec<Vec<u8>> {
    let edges = random_text::COMBINING_EDGES.into_iter().chain(random_text::NOT_COMBINING);
    let sequences =
        ['e', 'é', '€', '𝄞'].into_iter().chain(edges).map(|sequence| sequence.to_string().into_bytes());
    let pieces: Vec<Vec<u8>> = sequences.chain([vec![], vec![0xCC], vec![0xFF]]).collect();
    let mut labels = vec![bench::full_character(), "\u{301}".repeat(58).into_bytes()];
    let words = [
        "Zoe\u{301}",
        "Re\u{301}sidence",
        "1\u{301}\n\u{301} \u{301}\u{301}\0\u{301}",
        "\u{301}\u{301}\u{301}Zo",
    ];
    labels.extend(words.map(|word| word.as_bytes().to_vec()));
    for first in &pieces {
        for second in &pieces {
            labels.extend(pieces.iter().map(|third| [&first[..], second, third].concat()));
        }
    }
    labels
}

/// 02, E1: each after an e, which the limits part from it unless it is a combining mark, and each before one.
fn every_code_point(rng: &mut Rng) -> Result<usize, Disagreement> {
    let mut cases = 0;
    for code_point in '\0'..=char::MAX {
        label_case(rng, format!("e{code_point}").as_bytes(), (1, 1))?;
        label_case(rng, format!("{code_point}\u{301}").as_bytes(), (usize::MAX, usize::MAX))?;
        cases += 2;
    }
    Ok(cases)
}

/// Every pair of limits from 0 to one over the counts of the label.
fn label_at_every_limit(rng: &mut Rng, label: &[u8]) -> Result<usize, Disagreement> {
    let mut cases = 0;
    for octets in 0..=label.len() + 1 {
        for characters in 0..=label_characters(label) + 1 {
            label_case(rng, label, (octets, characters))?;
            cases += 1;
        }
    }
    Ok(cases)
}

/// All labels of at most two octets, those of three and four at the edges of each form, every cut of some
/// texts, every ill-formed sequence at every place of a text, and a few long labels.
fn labels_structured(rng: &mut Rng) -> Vec<Vec<u8>> {
    let mut cases = vec![vec![]];
    for first in 0..=255 {
        cases.push(vec![first]);
        for second in 0..=255 {
            cases.push(vec![first, second]);
            let edges = [0x7F, 0x80, 0xBF, 0xC0].into_iter();
            match first {
                0xE0..=0xEF => cases.extend(edges.map(|third| vec![first, second, third])),
                0xF0..=0xF5 => {
                    cases.extend(edges.flat_map(|third| {
                        [vec![first, second, third, 0x80], vec![first, second, 0xBF, third]]
                    }))
                }
                _ => {}
            }
        }
    }
    for _ in 0..20 {
        let text = random_text::well_formed(rng, 12);
        cases.extend((0..=text.len()).map(|cut| text[..cut].to_vec()));
        for ill_formed in random_text::ILL_FORMED {
            cases.extend((0..=text.len()).map(|place| [&text[..place], ill_formed, &text[place..]].concat()));
        }
    }
    cases.extend((1..=20).map(|hundreds| random_text::well_formed(rng, 100 * hundreds)));
    cases
}

fn label_random(rng: &mut Rng) -> Vec<u8> {
    let length = rng.pick(&[0, 3, 10, 40, 116]);
    let characters = rng.below(length + 1);
    let text = random_text::well_formed(rng, characters);
    match rng.below(6) {
        0 => random_text::damaged(rng, text),
        1 => {
            let once = random_text::damaged(rng, text);
            random_text::damaged(rng, once)
        }
        2 => rng.octets(characters),
        _ => text,
    }
}

/// The characters of a label; where it is ill-formed and has none, its octets.
fn label_characters(label: &[u8]) -> usize {
    utf8::characters(label).map_or(label.len(), |count| count.0)
}

/// Limits about the counts of the label, none, as large as can be, or at random.
fn label_limits(rng: &mut Rng, label: &[u8]) -> (usize, usize) {
    (limit_about(rng, label.len()), limit_about(rng, label_characters(label)))
}

fn limit_about(rng: &mut Rng, count: usize) -> usize {
    match rng.below(8) {
        0 => 0,
        1 => usize::MAX,
        2 => count,
        3 => count.saturating_sub(1),
        4 => count + 1,
        _ => rng.below(count + 2),
    }
}
