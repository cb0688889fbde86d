//! The independent program: the papers' rules written a second time, bit by bit, from the papers alone,
//! and compared with our libraries. Its DES and CRC stand in docs/bit_by_bit/, a program of its own as well (02, E13).
//!
//! `compare PART.. [--cases N] [--seed S]`, with N at least 1; the parts are `vectors` (the program against published data
//! and itself), our programs by their names and, where compiled in, `primitives`, `frames`, `card`, `swap` and `tool`. `compare print
//! PROGRAM` prints what a program should print for standard input, and `compare write PROGRAM` its stored
//! input, or what a C example should print, where that is made here.

mod bench;
mod bench_card;
mod bench_tool;
mod book;
mod card;
mod card_host;
mod cardlog;
#[path = "../docs/bit_by_bit/crc.rs"]
mod crc;
mod day;
#[path = "../docs/bit_by_bit/des.rs"]
mod des;
mod encoding;
mod frame;
mod hex;
mod histories;
mod keys;
mod listing;
mod long_records;
mod number;
mod programs;
mod random_frames;
mod random_history;
mod random_keys;
mod random_setup;
mod random_text;
mod receiver;
mod record;
mod recordings;
mod replays;
mod report;
mod rng;
mod swap;
mod tool;
mod tool_host;
mod utf8;
mod vectors;
mod wire;

/// The calls of an earlier revision, made by `compare/figures REVISION`.
#[cfg(part_before)]
#[allow(dead_code, unused_doc_comments)]
#[path = "../target/before/ffi.rs"]
mod before;
#[cfg(part_before)]
#[allow(dead_code)]
#[path = "../target/before/ffi_swap.rs"]
mod before_swap;
#[cfg(part_card)]
mod card_calls;
#[cfg(part_card)]
mod card_memory;
#[cfg(part_card)]
mod card_runs;
#[cfg(part_figures)]
#[path = "../docs/bit_by_bit/crc_by_octets.rs"]
mod crc_by_octets;
#[cfg(any(part_primitives, part_frames, part_card, part_swap, part_tool))]
mod ffi;
#[cfg(part_swap)]
mod ffi_swap;
#[cfg(part_tool)]
mod ffi_tool;
#[cfg(part_figures)]
mod figures;
#[cfg(part_figures)]
mod figures_block;
#[cfg(part_figures)]
mod figures_card;
#[cfg(part_figures)]
mod figures_primitives;
#[cfg(part_figures)]
mod figures_programs;
#[cfg(part_figures)]
mod figures_receiver;
#[cfg(part_figures)]
mod figures_stack;
#[cfg(part_figures)]
mod figures_swap;
#[cfg(part_frames)]
mod frames;
#[cfg(part_primitives)]
mod primitives;
#[cfg(part_card)]
mod random_damage;
#[cfg(part_swap)]
mod swap_calls;
#[cfg(part_tool)]
mod tool_calls;

use report::{tell, Disagreement};
use rng::Rng;
use std::io::{Read, Write};
use std::num::NonZeroUsize;
use std::process::ExitCode;

struct Options {
    parts: Vec<String>,
    /// Random cases for each comparison.
    cases: Option<usize>,
    seed: u64,
}

fn options() -> Option<Options> {
    let mut options = Options { parts: vec![], cases: None, seed: 1 };
    let mut words = std::env::args().skip(1);
    while let Some(word) = words.next() {
        match &word[..] {
            "--cases" => options.cases = Some(words.next()?.parse::<NonZeroUsize>().ok()?.get()),
            "--seed" => options.seed = words.next()?.parse().ok()?,
            _ => options.parts.push(word),
        }
    }
    (!options.parts.is_empty()).then_some(options)
}

/// What one of our programs should print for standard input.
fn print_expected(program: &str) -> ExitCode {
    let mut input = Vec::new();
    if std::io::stdin().read_to_end(&mut input).is_err() {
        eprintln!("standard input cannot be read");
        return ExitCode::from(2);
    }
    // A set's name may hold any octet, so each character stands for one octet.
    let octets = |text: String| text.chars().map(|character| character as u8).collect();
    write_out(program, listing::of(program, &input).map(octets))
}

/// Octets of a program to standard output, if there is such a program.
fn write_out(program: &str, octets: Option<Vec<u8>>) -> ExitCode {
    let Some(octets) = octets else {
        eprintln!("{program}: no such program");
        return ExitCode::from(2);
    };
    std::io::stdout().write_all(&octets).map_or(ExitCode::from(2), |()| ExitCode::SUCCESS)
}

fn main() -> ExitCode {
    if let [word, program] = &std::env::args().skip(1).collect::<Vec<_>>()[..] {
        match &word[..] {
            "print" => return print_expected(program),
            "write" => return write_out(program, recordings::of(program)),
            _ => {}
        }
    }
    let Some(options) = options() else {
        eprintln!("usage: compare PART.. [--cases N] [--seed S], with N at least 1 and PART one of vectors, primitives, frames, card, swap, tool, des_vectors, framelist, cardlog, swaplist; or compare print PROGRAM, compare write PROGRAM");
        return ExitCode::from(2);
    };
    println!("seed {}", options.seed);
    for part in &options.parts {
        let mut rng = Rng::new(options.seed);
        let agrees = match &part[..] {
            "vectors" => self_tests(&mut rng, options.cases.unwrap_or(2_000)),
            #[cfg(part_primitives)]
            "primitives" => compare_primitives(&mut rng, options.cases.unwrap_or(100_000)),
            #[cfg(part_figures)]
            "figures" => {
                figures::print(&mut rng);
                true
            }
            #[cfg(part_frames)]
            "frames" => compare_frames(&mut rng, options.cases.unwrap_or(100_000)),
            #[cfg(part_card)]
            "card" => card_runs::compare(&mut rng, options.cases.unwrap_or(100_000)),
            #[cfg(part_swap)]
            "swap" => compare_swap(&mut rng, options.cases.unwrap_or(100_000)),
            #[cfg(part_tool)]
            "tool" => compare_tool(&mut rng, options.cases.unwrap_or(100_000)),
            "des_vectors" => {
                tell("des_vectors, lines", programs::des_vectors(&mut rng, options.cases.unwrap_or(20_000)))
            }
            "swaplist" => {
                tell("swaplist, files", programs::swaplist(&mut rng, options.cases.unwrap_or(3_000)))
            }
            "framelist" => {
                tell("framelist, frames", programs::framelist(&mut rng, options.cases.unwrap_or(100_000)))
            }
            "cardlog" => compare_cardlog(&mut rng, options.cases.unwrap_or(100_000)),
            _ => {
                eprintln!("{part}: no such part in this build");
                return ExitCode::from(2);
            }
        };
        if !agrees {
            return ExitCode::FAILURE;
        }
    }
    ExitCode::SUCCESS
}

/// Tells a count of cases beside how many of them came to something, so that empty runs are seen.
fn tell_with(part: &str, effect: &str, cases: Result<(usize, usize), Disagreement>) -> bool {
    let effects = cases.as_ref().map_or(0, |(_, effects)| *effects);
    tell(&format!("{part} ({effects} {effect})"), cases.map(|(count, _)| count))
}

/// The program against published data, 01's rows, and its own card, book and tool against one another.
fn self_tests(rng: &mut Rng, cases: usize) -> bool {
    println!("the independent program alone, against published data and itself:");
    tell("crc", vectors::crc(rng))
        && tell("des", vectors::des())
        && tell("weak keys", vectors::weak_keys(rng))
        && tell("utf8 beside Rust's library", vectors::utf8(rng))
        && tell("combining marks, every code point", vectors::combining_marks())
        && tell("worked frames", vectors::frames())
        && tell("frame refusals", vectors::frame_refusals(rng))
        && tell("frame laws", vectors::frame_laws(rng))
        && tell("label rows", bench::labels())
        && tell("data limit rows", bench::data_limits())
        && tell("numbers", bench::numbers())
        && tell("numbers about powers of two, every form", bench::number_forms())
        && tell("swap files", bench::swap_files())
        && tell("swap writer rows", bench::swap_writer())
        && tell("swap file laws", bench::swap_laws(rng))
        && tell("swap files, the reader before E10", long_records::old_reader(rng, cases))
        && tell("receiving rows", bench::receiving())
        && tell("card setup rows", bench_card::setups())
        && tell("card setup rows, keys", bench_card::setup_keys())
        && tell("card exchange rows", bench_card::exchanges())
        && tell("card rows, combining marks", bench_card::combining_marks())
        && tell("card soundness rows", bench_card::soundness())
        && tell("tool wake-up rows", bench_tool::wake_ups())
        && tell("tool refusal rows", bench_tool::refusals())
        && tell("tool soundness rows", bench_tool::soundness())
        && tell("tool under a weak key", bench_tool::running_under_a_weak_key())
        && tell("tool replies", bench_tool::replies(rng))
        && tell_with("card and book, events", "writes granted", histories::card_and_book(rng, cases))
        && tell("taking out, frames", histories::taking_out(rng, cases.div_ceil(4)))
        && tell_with("perfect wire, requests", "ended well", wire::tool_and_card(rng, cases, None))
        && tell_with("lossy wire, requests", "ended well", wire::tool_and_card(rng, cases, Some(150)))
}

#[cfg(part_primitives)]
fn compare_primitives(rng: &mut Rng, cases: usize) -> bool {
    tell("primitives crc", primitives::crc(rng, cases))
        && tell("primitives des, both ways", primitives::des(rng, cases))
        && tell("primitives label", primitives::labels(rng, cases))
}

#[cfg(part_frames)]
fn compare_frames(rng: &mut Rng, cases: usize) -> bool {
    tell("frames built", frames::build(rng, cases)) && tell("frames read", frames::read(rng, cases))
}

#[cfg(part_tool)]
fn compare_tool(rng: &mut Rng, cases: usize) -> bool {
    tell("tool, five reads and a sixth", tool_calls::five_reads())
        && tell("tool, every key about E5's rule", tool_calls::every_key(rng))
        && tell("tool, exchanges under a weak key", tool_calls::under_a_weak_key(rng))
        && tool_calls::compare_calls(rng, cases)
        && tell_with("tool, perfect wire", "ended well", tool_calls::on_the_wire(rng, cases.div_ceil(50), None))
        && tell_with("tool, lossy wire", "ended well", tool_calls::on_the_wire(rng, cases.div_ceil(50), Some(150)))
}

#[cfg(part_swap)]
fn compare_swap(rng: &mut Rng, cases: usize) -> bool {
    tell("swap files read, calls", swap_calls::reading(rng, cases))
        && tell("swap files written", swap_calls::writing(rng, cases.div_ceil(2)))
        && tell("swap lists, records", swap_calls::listing(rng, cases.div_ceil(2)))
}

fn compare_cardlog(rng: &mut Rng, cases: usize) -> bool {
    tell_with("cardlog, setups", "accepted", replays::setups(rng, cases.div_ceil(100)))
        && tell_with("cardlog, calls", "writes granted", replays::calls(rng, cases))
}
