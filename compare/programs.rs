//! Our programs, run on random and damaged input, beside what they should print.

use crate::bench;
use crate::des;
use crate::frame::{self, Block};
use crate::hex;
use crate::listing;
use crate::long_records;
use crate::random_frames;
use crate::record::RAW;
use crate::report::{same, Case, Disagreement};
use crate::rng::Rng;
use crate::swap;
use std::io::Write;
use std::process::{Command, Stdio};

/// What a program of `target/bin/` prints for an input.
fn printed(program: &str, input: &[u8]) -> std::io::Result<Vec<u8>> {
    let path = format!("target/bin/{program}");
    let mut child = Command::new(path).stdin(Stdio::piped()).stdout(Stdio::piped()).spawn()?;
    let mut pipe = child.stdin.take().expect("a pipe to the program");
    let input = input.to_vec();
    // A program may end before it has read all of a long input.
    let writer = std::thread::spawn(move || pipe.write_all(&input).ok());
    let output = child.wait_with_output()?;
    writer.join().expect("the writer ends");
    Ok(output.stdout)
}

pub fn case(program: &str, input: &[u8]) -> Case {
    // Each octet is shown as one character, as in the listing.
    let gave =
        printed(program, input).map(|text| text.iter().map(|octet| *octet as char).collect::<String>());
    let expected = listing::of(program, input).expect("a program with a listing");
    same(gave.map_err(|error| error.to_string()), Ok(expected), || hex::text(input))
}

/// One stream between two gaps: frames, damaged frames and noise, often cut at the end.
fn stream(rng: &mut Rng) -> (Vec<u8>, usize) {
    let (mut octets, mut frames) = (vec![], 0);
    for _ in 0..rng.below(60) {
        let ads = rng.field();
        let count = rng.below(20);
        octets.extend(match rng.below(12) {
            0 if rng.once_in(4) => rng.octets(count),
            0..=3 => random_frames::damaged(rng, ads),
            _ => random_frames::frame(rng, ads).octets().expect("DATA within its limit"),
        });
        frames += 1;
    }
    if rng.once_in(3) {
        octets.truncate(rng.below(octets.len() + 1));
    }
    (octets, frames)
}

/// Streams with so many frames in all; a gap ends each stream, and the receiver starts anew after it. Then a stream of
/// every length from 0 to 130 that starts with each N about the bounds.
pub fn framelist(rng: &mut Rng, cases: usize) -> Result<usize, Disagreement> {
    let mut tried = 0;
    while tried < cases {
        let (octets, frames) = stream(rng);
        case("framelist", &octets)?;
        tried += frames;
    }
    for count in 0..=130 {
        let n = rng.pick(&[0, 10, 11, 12, 27, 128, 129, 255]);
        let mut octets = rng.octets(count);
        if let Some(first) = octets.first_mut() {
            *first = n;
        }
        case("framelist", &octets)?;
        let good = frame::enclose(rng.field(), rng.octet(), 0x0C, &rng.octets(count.clamp(1, 117)));
        case("framelist", &[good, octets].concat())?;
        tried += 2;
    }
    Ok(tried)
}

/// A line of vectors: right, with a wrong digit, cut, with a stray octet, in lower case, a comment, or empty; or
/// one that asks for the S-boxes, well or badly.
fn vector_line(rng: &mut Rng) -> Vec<u8> {
    let (key, plain): (Block, Block) = (rng.field(), rng.field());
    let cipher = des::encipher(key, plain);
    let set = rng.pick(&["first", "second", "x"]);
    let mut line =
        format!("{set} {} {} {}", hex::text(&key), hex::text(&plain), hex::text(&cipher)).into_bytes();
    let place = rng.below(line.len());
    match rng.below(10) {
        0 => line[place] = rng.pick(b"0123456789ABCDEF"),
        1 => line[place] = rng.octet(),
        2 => line.truncate(place),
        3 => line.push(b' '),
        4 => line.make_ascii_lowercase(),
        5 => line.insert(0, b'#'),
        6 if rng.once_in(3) => line.clear(),
        7 if rng.once_in(5) => line = rng.pick(&["boxes", "boxes ", "Boxes", "boxe"]).into(),
        _ => {}
    }
    line
}

/// Reports on files of vectors, with or without a last line feed, and on inputs about the longest that is taken.
pub fn des_vectors(rng: &mut Rng, cases: usize) -> Result<usize, Disagreement> {
    let mut tried = 0;
    while tried < cases {
        let lines: Vec<Vec<u8>> = (0..1 + rng.below(900)).map(|_| vector_line(rng)).collect();
        let mut input = lines.join(&b'\n');
        if rng.once_in(2) {
            input.push(b'\n');
        }
        case("des_vectors", &input)?;
        tried += lines.len();
    }
    for count in [0, 65_534, 65_535, 65_536, 65_537, 70_000] {
        case("des_vectors", &vec![b'#'; count])?;
        tried += 1;
    }
    Ok(tried)
}

/// 01's file, files with E1's labels and E10's long records, a faulty file of each item, 4,096 records, files
/// about the longest that is taken, then random files: good, with a bit turned, cut, lengthened, or with two
/// records exchanged.
pub fn swaplist(rng: &mut Rng, cases: usize) -> Result<usize, Disagreement> {
    let mut files: Vec<Vec<u8>> = bench::FAULTY_FILES.iter().map(|(file, _, _)| hex::octets(file)).collect();
    files.extend([bench::SAMPLE, bench::COMBINING_SAMPLE, bench::LONG_SAMPLE].map(hex::octets));
    files.extend(long_records::edges().iter().map(|edge| swap::encode(&edge.records)));
    for (count, length) in [(4_096, 0), (4_096, 6), (4_097, 0), (520, 116), (521, 116)] {
        files.push(swap::encode(&rising(count, length)));
    }
    files.push(swap::encode(&full()));
    files.extend([65_535, 65_536, 65_537, 70_000].map(|count| vec![0; count]));
    for file in &files {
        case("swaplist", file)?;
    }
    for _ in 0..cases {
        let file = random_file(rng);
        case("swaplist", &file)?;
    }
    Ok(files.len() + cases)
}

/// So many raw records of one length.
pub fn rising(count: usize, length: usize) -> Vec<swap::Record> {
    let ads = |i: usize| [0, 0, 0, 0, (i / 256) as u8, (i % 256) as u8];
    (0..count).map(|i| swap::Record { ads: ads(i), tab: 0, kind: RAW, data: vec![0x80; length] }).collect()
}

/// Records whose file has 65,536 octets.
pub fn full() -> Vec<swap::Record> {
    let mut records = rising(524, 116);
    let left = 65_536 - swap::encode(&records).len();
    records.push(swap::Record { ads: [1; 6], tab: 0, kind: RAW, data: vec![0; left - 9] });
    records
}

/// A file, damaged once in most of the cases.
pub fn random_file(rng: &mut Rng) -> Vec<u8> {
    let mut records = bench::random_records(rng);
    if records.len() > 1 && rng.once_in(8) {
        records.swap(0, 1);
    }
    let mut file = swap::encode(&records);
    let place = rng.below(file.len());
    match rng.below(6) {
        0 => rng.turn_bit(&mut file),
        1 => file[place] = rng.octet(),
        2 => file.truncate(place),
        3 => file.insert(place, rng.octet()),
        _ => {}
    }
    file
}
