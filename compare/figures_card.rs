//! How fast the exported octet call of the card is, beside the independent card: over the same memory, and as a value of its own.

use crate::bench::{ADDRESS, FOREIGN, KEY, NA2};
use crate::card::Card;
use crate::card_memory;
use crate::ffi::Lent;
use crate::figures::{keep, label, table, Calls, Runner, CALLS, WORDS};
use crate::frame::{Address, Body, Frame, LONGEST};
use crate::random_frames;
use crate::record::{Record, LABEL, RAW};
use crate::rng::Rng;
use crate::utf8::{Characters, Octets};

/// Few, so that a turn is short beside what a busy machine interrupts.
const FRAMES: usize = 4;
const TURNS: usize = 2_000;

/// A label of 116 octets.
fn full_label(rng: &mut Rng) -> Vec<u8> {
    let mut text = label(rng, WORDS).into_bytes();
    text.resize(card_memory::STORED, b'a');
    text
}

fn record(tab: u8, kind: u8, data: Vec<u8>) -> Record {
    Record {
        tab,
        kind,
        octet_limit: Octets(116),
        character_limit: Characters(if kind == RAW { 0 } else { 116 }),
        readable: 1,
        open_to_programming: 1,
        open_to_transfer: 1,
        data,
    }
}

/// As many records as a card can have, each a label as long as it can be.
fn full_card(rng: &mut Rng) -> Card {
    let records: Vec<Record> = (0..32).map(|tab| record(tab, LABEL, full_label(rng))).collect();
    Card::setup(&ADDRESS, &KEY, &records).expect("an accepted setup")
}

fn small_card(rng: &mut Rng) -> Card {
    Card::setup(&ADDRESS, &KEY, &[record(1, RAW, rng.octets(4))]).expect("an accepted setup")
}

/// The memory after a setup of the card.
fn memory_of(calls: &Calls, card: &Card) -> Lent {
    let mut entries: Vec<u8> =
        card.records.iter().flat_map(|record| card_memory::entry(record, &mut || 0)).collect();
    entries.resize(card_memory::ENTRIES, 0);
    let mut memory = Lent::new(&[0; card_memory::MEMORY]);
    let (mut address, mut key, mut entries) =
        (Lent::new(&card.address), Lent::new(&card.key), Lent::new(&entries));
    let count = card.records.len() as u8;
    assert_eq!((calls.card_setup)(&mut memory, &mut address, &mut key, count, &mut entries), 0);
    memory
}

fn frames(ads: Address, mut body: impl FnMut(usize) -> Body) -> Vec<u8> {
    let frame = |i| Frame { ads, adp: 1, body: body(i) }.octets().expect("DATA within its limit");
    (0..FRAMES).flat_map(frame).collect()
}

/// Hands the octets to three like cards, which give and hold the same after each octet and refuse none; the count of replies.
fn agreeing(calls: &Calls, card: &Card, octets: &[u8]) -> usize {
    let (mut card, mut lent, mut replies) = (card.clone(), memory_of(calls, card), 0);
    let mut memory = lent.octets().to_vec();
    let (mut number, mut reply) = (Lent::new(&NA2), Lent::new(&[0; LONGEST]));
    let mut buffers = [[0; LONGEST]; 2];
    for octet in octets {
        let (mut length, mut expected) = (0, 0);
        let gave = (calls.card_step_octet)(&mut lent, *octet, &mut number, &mut reply, &mut length);
        let answer = card.octet(*octet, &NA2, &mut buffers[1]);
        assert_eq!(gave, card_memory::octet(&mut memory, *octet, &NA2, &mut buffers[0], &mut expected));
        assert_eq!((gave, length, length), (0, expected, answer.reply));
        assert!(lent.still_holds(&memory) && buffers.iter().all(|buffer| reply.still_holds(buffer)));
        assert!(answer.number.is_none() && card_memory::card(&memory) == Some(card.clone()));
        replies += (length > 0) as usize;
    }
    replies
}

fn octet_calls(what: &str, card: &Card, octets: &[u8], replies: usize) {
    let mut runners: Vec<Runner> = vec![];
    for calls in CALLS {
        assert_eq!(agreeing(calls, card, octets), replies);
        let (mut lent, mut number, mut reply) =
            (memory_of(calls, card), Lent::new(&NA2), Lent::new(&[0; LONGEST]));
        let run = move || {
            for octet in octets {
                let mut length = 0;
                keep((calls.card_step_octet)(&mut lent, *octet, &mut number, &mut reply, &mut length));
                keep(length);
            }
        };
        runners.push((calls.program, Box::new(run)));
    }
    let (mut memory, mut value) = (memory_of(&CALLS[0], card).octets().to_vec(), card.clone());
    let (mut buffer, mut other, mut told) = ([0; LONGEST], [0; LONGEST], 0);
    let plain = move || {
        octets.iter().for_each(|octet| {
            keep(card_memory::octet(&mut memory, *octet, &NA2, &mut buffer, &mut told));
            keep(told);
        })
    };
    let plain_value = move || octets.iter().for_each(|octet| keep(value.octet(*octet, &NA2, &mut other)));
    runners.push(("bit by bit, Rust, same memory", Box::new(plain)));
    runners.push(("bit by bit, Rust, a value", Box::new(plain_value)));
    table(what, octets.len(), TURNS, runners);
}

/// Frames that the card does not take, reads that it answers with DAT, and transfers that it answers with TRA.
pub fn print(rng: &mut Rng) {
    let (full, small) = (full_card(rng), small_card(rng));
    let foreign = frames(FOREIGN, |_| random_frames::frame(rng, FOREIGN).body);
    let reads = frames(ADDRESS, |i| Body::Enq { tab: i as u8 });
    let transfers = frames(ADDRESS, |i| Body::Trf { tab: i as u8, data: full_label(rng) });
    octet_calls("an octet of another card's frames, 1 raw record", &small, &foreign, 0);
    octet_calls("an octet of another card's frames, 32 labels", &full, &foreign, 0);
    octet_calls("an octet of ENQ frames, 32 labels", &full, &reads, FRAMES);
    octet_calls("an octet of TRF frames, 32 labels", &full, &transfers, FRAMES);
}
