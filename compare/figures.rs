//! How fast our exported calls are, beside plain programs and libraries of the field: one run, one machine, the same input.
//! Built and run by `compare/figures`, not by the gate. What is measured is asserted to agree.

#[cfg(part_before)]
use crate::{before, before_swap};
use crate::ffi::{self, Lent};
use crate::ffi_swap;
use crate::figures_block;
use crate::figures_card;
use crate::figures_primitives;
use crate::figures_receiver;
use crate::figures_stack;
use crate::figures_swap;
use crate::rng::Rng;
use crate::utf8::{Characters, Octets};
use crate::vectors::library_fit;
use std::hint::black_box;
use std::time::Instant;

/// How often a short thing is measured.
pub const TURNS: usize = 2_000;

/// Names and programs; each program runs over the whole input.
pub type Runner<'a> = (&'a str, Box<dyn FnMut() + 'a>);

/// The exported calls that are measured, ours or those of an earlier revision.
pub struct Calls {
    pub program: &'static str,
    pub label_fit: fn(&mut Lent, (usize, usize), &mut (usize, usize)) -> u8,
    pub card_setup: fn(&mut Lent, &mut Lent, &mut Lent, u8, &mut Lent) -> u8,
    pub card_step_octet: fn(&mut Lent, u8, &mut Lent, &mut Lent, &mut usize) -> u8,
    pub swap_verdict: fn(&mut Lent, &mut usize, &mut usize) -> u8,
}

/// Ours first; then, where they are built in, those of an earlier revision.
pub const CALLS: &[Calls] = &[
    Calls {
        program: "ours",
        label_fit: ffi::primitives::label_fit,
        card_setup: ffi::card::setup,
        card_step_octet: ffi::card::step_octet,
        swap_verdict: ffi_swap::verdict,
    },
    #[cfg(part_before)]
    Calls {
        program: "ours before",
        label_fit: before::primitives::label_fit,
        card_setup: before::card::setup,
        card_step_octet: before::card::step_octet,
        swap_verdict: before_swap::verdict,
    },
];

/// A result that the compiler may not leave out.
pub fn keep<T>(value: T) {
    black_box(value);
}

/// Measures each runner so many times, in turn with the others, and takes its best time, in seconds.
pub fn best_times(turns: usize, runners: &mut [Runner]) -> Vec<f64> {
    let mut best = vec![f64::MAX; runners.len()];
    for _ in 0..turns {
        for (time, (_, run)) in best.iter_mut().zip(&mut *runners) {
            let start = Instant::now();
            run();
            *time = time.min(start.elapsed().as_secs_f64());
        }
    }
    best
}

/// Prints a row for each runner: calls a second, and how often the first one's speed that is.
pub fn table(what: &str, calls: usize, turns: usize, mut runners: Vec<Runner>) {
    let best = best_times(turns, &mut runners);
    for (time, (name, _)) in best.iter().zip(&runners) {
        println!("| {what} | {name} | {:.0} | {:.2} |", calls as f64 / time, best[0] / time);
    }
}

/// Words of labels, with sequences of one to four octets.
pub const WORDS: &[&str] =
    &["Résidence ", "du ", "Château ", "Pré ", "Fleuri ", "Zoé ", "Inès ", "12 € ", "𝄞 "];

/// The same words as some suppliers send them: accents are combining marks (02, E1).
const DECOMPOSED: &[&str] = &[
    "Re\u{301}sidence ",
    "du ",
    "Cha\u{302}teau ",
    "Pre\u{301} ",
    "Fleuri ",
    "Zoe\u{301} ",
    "Ine\u{300}s ",
    "12 € ",
    "𝄞 ",
];

/// A label of 116 octets at most.
pub fn label(rng: &mut Rng, words: &[&str]) -> String {
    let mut text = String::new();
    loop {
        let word = rng.pick(words);
        if text.len() + word.len() > 116 {
            return text;
        }
        text.push_str(word);
    }
}

/// With Rust's library: its test of the whole text, then its `char`s from the start.
fn library_fits(label: &[u8], (octets, characters): (usize, usize)) -> (usize, usize) {
    let text = std::str::from_utf8(label).expect("a well-formed label");
    let (octets, characters) = library_fit(text, Octets(octets), Characters(characters));
    (octets.0, characters.0)
}

/// Fitting a label to half its octets.
fn fittings(rng: &mut Rng, what: &str, words: &[&str], programs: &'static [Calls]) {
    const LIMITS: (usize, usize) = (58, 40);
    let labels: Vec<Vec<u8>> = (0..200).map(|_| label(rng, words).into_bytes()).collect();
    let mut runners: Vec<Runner> = vec![];
    for calls in programs {
        let mut lent: Vec<Lent> = labels.iter().map(|label| Lent::new(label)).collect();
        for (lent, label) in lent.iter_mut().zip(&labels) {
            let mut counts = (0, 0);
            assert_eq!((calls.label_fit)(lent, LIMITS, &mut counts), 0);
            assert_eq!(counts, library_fits(label, LIMITS));
        }
        let run = move || {
            for label in &mut lent {
                let mut counts = (0, 0);
                keep((calls.label_fit)(label, LIMITS, &mut counts));
                keep(counts);
            }
        };
        runners.push((calls.program, Box::new(run)));
    }
    let library = || labels.iter().for_each(|label| keep(library_fits(label, LIMITS)));
    runners.push(("Rust's library", Box::new(library)));
    table(what, labels.len(), TURNS, runners);
}

pub fn print(rng: &mut Rng) {
    figures_primitives::print(rng);
    figures_block::print(rng);
    figures_stack::print(rng);
    println!("\n| what | program | calls a second | times the speed of ours |");
    println!("|---|---|---|---|");
    fittings(rng, "fitting, 116 octets", WORDS, CALLS);
    fittings(rng, "fitting, 116 octets with combining marks", DECOMPOSED, &CALLS[..1]);
    figures_card::print(rng);
    figures_receiver::print(rng);
    figures_swap::print(rng);
}
