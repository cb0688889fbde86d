//! `cardlog` on random setups and histories, beside the independent card.

use crate::book::Event;
use crate::cardlog;
use crate::encoding::{self, Given};
use crate::programs::case;
use crate::random_history;
use crate::random_setup;
use crate::recordings;
use crate::report::Disagreement;
use crate::rng::Rng;

/// The setup, then the calls; now and then one octet of these is another, or the end is missing.
fn recording(rng: &mut Rng, given: &Given, history: &[Event]) -> Vec<u8> {
    let setup = encoding::setup(given, &mut || rng.octet());
    let mut calls: Vec<u8> =
        history.iter().flat_map(|event| encoding::call(event, &mut || rng.octet())).collect();
    let place = rng.below(calls.len() + 1);
    match rng.below(12) {
        0 => calls.truncate(place),
        1 if place < calls.len() => calls[place] = rng.octet(),
        _ => {}
    }
    [setup, calls].concat()
}

/// Accepted setups with histories of so many calls in all. The calls tried, and the writes that the book granted.
pub fn calls(rng: &mut Rng, cases: usize) -> Result<(usize, usize), Disagreement> {
    let (mut tried, mut grants) = (0, 0);
    while tried < cases {
        let setup = random_history::setup(rng);
        let parts = 1 + rng.below(12);
        let history = random_history::history(rng, &setup, parts);
        let input = recording(rng, &random_setup::given(&setup), &history);
        case("cardlog", &input)?;
        let played = cardlog::played(&input);
        tried += played.calls;
        grants += played.grants;
    }
    Ok((tried, grants))
}

/// Setups about every rule, each with a short history, and those that were accepted. Then inputs that end inside the
/// setup or a call, and inputs about the longest one.
pub fn setups(rng: &mut Rng, cases: usize) -> Result<(usize, usize), Disagreement> {
    let mut accepted = 0;
    for _ in 0..cases {
        let setup = random_history::setup(rng);
        let history = random_history::history(rng, &setup, 1);
        let given = random_setup::faulty(rng, &setup);
        let input = recording(rng, &given, &history);
        case("cardlog", &input)?;
        accepted += cardlog::played(&input).accepted as usize;
    }
    let stored = recordings::of("cardlog").expect("a stored input");
    let ends = (0..300).chain([65_535, 65_536, 70_000]);
    for end in ends.clone() {
        let mut input = stored.clone();
        input.resize(end, 0xFF);
        case("cardlog", &input)?;
    }
    Ok((cases + ends.count(), accepted))
}
