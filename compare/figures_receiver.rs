//! How fast the receiver is: our program `framelist` beside this program's list, each a process that reads one recording from a file.

use crate::figures::{table, Runner};
use crate::frame;
use crate::random_frames;
use crate::rng::Rng;
use std::fs::{self, File};
use std::process::Command;

const OCTETS: usize = 10_000_000;
const TURNS: usize = 10;

const RECORDING: &str = "target/compare/recording";
const OUR_LIST: &str = "target/compare/our_list";
const PLAIN_LIST: &str = "target/compare/plain_list";

/// Frames of which about one in four is damaged. Every N is right: a recording has no gaps, so that a wrong N could skip the rest of it.
fn mixed(rng: &mut Rng) -> Vec<u8> {
    let ads = rng.field();
    let mut octets = match rng.below(4) {
        0 => random_frames::damaged(rng, ads),
        _ => random_frames::frame(rng, ads).octets().expect("DATA within its limit"),
    };
    octets[0] = octets.len() as u8;
    octets
}

/// A longest frame with a wrong CRC, for which one short line is listed.
fn broken(rng: &mut Rng) -> Vec<u8> {
    let mut octets = frame::enclose(rng.field(), rng.octet(), 0x02, &rng.octets(117));
    octets[127] ^= 1;
    octets
}

/// Lists the recording into a file, by a process.
fn list(mut program: Command, file: &str) {
    let input = File::open(RECORDING).expect("the recording");
    let output = File::create(file).expect("a file for the list");
    let status = program.stdin(input).stdout(output).status().expect("the program runs");
    assert!(status.success());
}

fn ours() {
    list(Command::new("target/bin/framelist"), OUR_LIST);
}

fn plain() {
    let mut program = Command::new(std::env::current_exe().expect("this program"));
    program.args(["print", "framelist"]);
    list(program, PLAIN_LIST);
}

fn recording(what: &str, frame: impl Fn(&mut Rng) -> Vec<u8>, rng: &mut Rng) {
    let mut octets = vec![];
    let mut frames = 0;
    while octets.len() < OCTETS {
        octets.extend(frame(rng));
        frames += 1;
    }
    fs::write(RECORDING, &octets).expect("a file for the recording");
    let runners: Vec<Runner> = vec![
        ("ours (`framelist`)", Box::new(ours)),
        ("bit by bit, Rust (`compare print framelist`)", Box::new(plain)),
    ];
    table(what, octets.len(), TURNS, runners);
    let [our_list, plain_list] = [OUR_LIST, PLAIN_LIST].map(|file| fs::read(file).expect("a list"));
    assert!(our_list == plain_list);
    assert_eq!(our_list.iter().filter(|&&octet| octet == b'\n').count(), frames, "a line for each frame");
}

pub fn print(rng: &mut Rng) {
    recording("receiver, an octet of good and damaged frames, all listed", mixed, rng);
    recording("receiver, an octet of long frames with a wrong CRC", broken, rng);
}
