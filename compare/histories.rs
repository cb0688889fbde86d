//! Demand 3 and the taking-out law in the model itself: its card beside its book over random histories.

use crate::book::{Book, Event};
use crate::card::{Answer, Card};
use crate::frame::{Block, BROADCAST};
use crate::hex::{self, Hex};
use crate::random_frames;
use crate::random_history::{self, Setup};
use crate::report::{same, Case, Disagreement};
use crate::rng::Rng;

fn fresh(setup: &Setup) -> Card {
    Card::setup(&setup.address, &setup.key, &setup.records).expect("an acceptable setup")
}

/// Events tried and writes granted.
pub fn card_and_book(rng: &mut Rng, histories: usize) -> Result<(usize, usize), Disagreement> {
    let (mut events, mut grants) = (0, 0);
    for _ in 0..histories {
        let setup = random_history::setup(rng);
        let history = random_history::history(rng, &setup, 12);
        let mut card = fresh(&setup);
        let mut book = Book::fresh(setup.address, setup.key, &setup.records);
        for (place, event) in history.iter().enumerate() {
            step(&mut card, event, || written_out(&setup, &history[..=place]))?;
            book.event(event);
            let records: Vec<&[u8]> = card.records.iter().map(|record| &record.data[..]).collect();
            let notes: Vec<&[u8]> = book.notes().iter().map(|note| &note[..]).collect();
            same(records, notes, || written_out(&setup, &history[..=place]))?;
        }
        events += history.len();
        grants += book.grants;
    }
    Ok((events, grants))
}

/// One call. A card that was given back is never refused with 12; 17
/// leaves all; octets past the reply are kept.
fn step(card: &mut Card, event: &Event, input: impl Fn() -> String) -> Case {
    let before = card.clone();
    let answer = match event {
        Event::Octet { octet, number, room } => {
            let mut buffer = vec![0xEE; *room];
            let answer = card.octet(*octet, number, &mut buffer);
            same(Hex(&buffer[answer.reply..]), Hex(&vec![0xEE; *room - answer.reply]), &input)?;
            answer
        }
        Event::Gap => card.gap(),
        Event::SessionEnd => card.session_end(),
        Event::MeterWrite { tab, data } => card.meter_write(*tab, data),
    };
    same(card.sound(), true, &input)?;
    if answer.number == Some(17) {
        same(&*card, &before, &input)?;
    }
    same(answer.number == Some(12), false, &input)
}

fn written_out(setup: &Setup, history: &[Event]) -> String {
    format!(
        "address {} key {} {:?}, then {history:?}",
        hex::text(&setup.address),
        hex::text(&setup.key),
        setup.records
    )
}

/// 01, The card: taking out all frames that the card doesn't take leaves the same records and replies.
pub fn taking_out(rng: &mut Rng, lists: usize) -> Result<usize, Disagreement> {
    let mut frames = 0;
    for _ in 0..lists {
        let setup = random_history::setup(rng);
        let (mut all, mut taken_only) = (fresh(&setup), fresh(&setup));
        for _ in 0..30 {
            let ads = rng.pick(&[setup.address, setup.address, BROADCAST, [1; 6]]);
            let frame = random_frames::frame(rng, ads);
            let octets = frame.octets().expect("DATA within its limit");
            let lent: Vec<Block> = octets.iter().map(|_| rng.field()).collect();
            let reply = feed(&mut all, &octets, &lent);
            let expected = if all.takes(&frame) { feed(&mut taken_only, &octets, &lent) } else { vec![] };
            same(Hex(&reply), Hex(&expected), || hex::text(&octets))?;
            same(&all, &taken_only, || hex::text(&octets))?;
            frames += 1;
        }
    }
    Ok(frames)
}

/// The reply to a whole frame, with a number of its own lent with each octet.
fn feed(card: &mut Card, octets: &[u8], lent: &[Block]) -> Vec<u8> {
    let mut buffer = [0; 128];
    let mut last = Answer { number: None, reply: 0 };
    for (octet, na2) in octets.iter().zip(lent) {
        last = card.octet(*octet, na2, &mut buffer);
    }
    buffer[..last.reply].to_vec()
}
