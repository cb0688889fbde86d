//! How fast one DES block and one check key are, of every program: one run, the same input, each in turn.

use crate::des;
use crate::figures::{best_times, keep, Runner, TURNS};
use crate::figures_programs::{check_key, check_keys, encipher, enciphers, zlib_key, BIT_BY_BIT};
use crate::frame::{Block, LONGEST};
use crate::rng::Rng;

/// How many inputs there are.
const INPUTS: usize = 200;

/// Octets of the longest frame, its check field left out.
const CHECKED: usize = LONGEST - 2;

/// Prints a row for each runner: calls a second, and how often the bit-by-bit program's speed that is.
fn rows(what: &str, mut runners: Vec<Runner>) {
    let best = best_times(TURNS, &mut runners);
    let base = runners.iter().position(|(name, _)| *name == BIT_BY_BIT).expect("the bit-by-bit program");
    for (time, (name, _)) in best.iter().zip(&runners) {
        println!("| {what} | {name} | {:.0} | {:.2} |", INPUTS as f64 / time, best[base] / time);
    }
}

/// One DES block under a key of its own, as an exchange has it.
fn blocks(rng: &mut Rng) {
    let pairs: Vec<(Block, Block)> = (0..INPUTS).map(|_| (rng.field(), rng.field())).collect();
    let mut runners: Vec<Runner> = vec![];
    for (name, call) in enciphers() {
        for (key, block) in &pairs {
            assert_eq!(encipher(call, key, *block), des::encipher(*key, *block), "{name}");
        }
        let pairs = &pairs;
        let run = move || pairs.iter().for_each(|(key, block)| keep(encipher(call, key, *block)));
        runners.push((name, Box::new(run)));
    }
    rows("DES, one block and its key", runners);
}

/// Every program gives the same key of random octets, of each length up to a longest frame's.
fn agreeing(rng: &mut Rng) {
    let programs = check_keys();
    for octets in (0..=LONGEST).map(|count| rng.octets(count)) {
        for (name, call) in &programs {
            assert_eq!(check_key(*call, &octets), check_key(programs[0].1, &octets), "{name}");
        }
    }
}

/// The check key of the longest frame.
fn keys(rng: &mut Rng) {
    let frames: Vec<Vec<u8>> = (0..INPUTS).map(|_| rng.octets(CHECKED)).collect();
    let mut runners: Vec<Runner> = vec![];
    for (name, call) in check_keys() {
        let frames = &frames;
        let run = move || frames.iter().for_each(|frame| keep(check_key(call, frame)));
        runners.push((name, Box::new(run)));
    }
    let library = || frames.iter().for_each(|frame| keep(zlib_key(frame)));
    runners.push(("zlib, its CRC of 32 bits", Box::new(library)));
    rows(&format!("CRC, {CHECKED} octets"), runners);
}

pub fn print(rng: &mut Rng) {
    agreeing(rng);
    println!("| what | program | calls a second | times the speed of the bit-by-bit program |");
    println!("|---|---|---|---|");
    blocks(rng);
    keys(rng);
}
