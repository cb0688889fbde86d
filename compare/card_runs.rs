//! Runs of our exported calls over card memory: histories from a setup with memory damaged between some of the
//! calls, setups with faults, buffers of every length, and every key about E5's rule.

use crate::book::{Book, Event};
use crate::card_calls::{case, Call, Tally};
use crate::card_memory::{self, COUNT, ENTRIES, KEY, MEMORY, RECORDS, STORED};
use crate::encoding::Given;
use crate::frame::{Block, Body, Frame};
use crate::keys;
use crate::random_damage;
use crate::random_history::{self, Setup};
use crate::random_keys;
use crate::random_setup;
use crate::report::{same, tell, Case, Disagreement};
use crate::rng::Rng;

/// Octets of memory lent past what a card needs, at most.
const PAST: usize = 10;

/// At least as much as a card needs.
fn enough(rng: &mut Rng) -> usize {
    MEMORY + rng.below(PAST + 1)
}

fn call_of(rng: &mut Rng, event: &Event) -> Call {
    match event {
        Event::Octet { octet, number, room } => {
            Call::Octet { octet: *octet, number: number.clone(), reply: rng.octets(*room) }
        }
        Event::Gap => Call::Gap,
        Event::SessionEnd => Call::SessionEnd,
        Event::MeterWrite { tab, data } => Call::MeterWrite { tab: *tab, data: data.clone() },
    }
}

fn setup_call(rng: &mut Rng, given: &Given) -> Call {
    let mut entries: Vec<u8> = given
        .records
        .iter()
        .take(32)
        .flat_map(|record| card_memory::entry(record, &mut || rng.octet()))
        .collect();
    entries.resize_with(ENTRIES, || rng.octet());
    let (address, key) = (given.address.clone(), given.key.clone());
    Call::Setup { address, key, count: given.records.len() as u8, entries }
}

/// Mostly a TAB of the setup.
fn read_call(rng: &mut Rng, setup: &Setup) -> Call {
    let tab =
        if setup.records.is_empty() || rng.once_in(8) { rng.octet() } else { rng.pick(&setup.records).tab };
    Call::Read { tab, data: rng.octets(STORED) }
}

/// The next calls of a history on a copy of the memory that is damaged first. Damage to free octets leaves the same card.
fn damaged_run(rng: &mut Rng, tally: &mut Tally, memory: &[u8], setup: &Setup, next: &[Event]) -> Case {
    let mut memory = memory.to_vec();
    tally.damages += 1;
    if rng.once_in(4) {
        let card = card_memory::card(&memory);
        random_damage::damage_free(rng, &mut memory);
        same(card_memory::card(&memory), card, || "free octets".to_string())?;
    } else {
        random_damage::damage(rng, &mut memory);
    }
    let read = read_call(rng, setup);
    case(tally, &mut memory, MEMORY, &read)?;
    let sound = card_memory::card(&memory).is_some_and(|card| card.sound());
    let count = if sound { 40 } else { 3 };
    for event in next.iter().take(count) {
        let (call, room) = (call_of(rng, event), enough(rng));
        case(tally, &mut memory, room, &call)?;
    }
    Ok(())
}

/// Each call on a copy of the memory that holds another key. A setup does not look at that key.
fn other_key(rng: &mut Rng, tally: &mut Tally, memory: &[u8], octet: u8, given: &Given, key: Block) -> Case {
    let mut memory = memory.to_vec();
    memory[KEY].copy_from_slice(&key);
    let tab = given.records.first().map_or(0, |record| record.tab);
    let (number, reply) = (rng.pick(&[7, 8, 8, 8]), rng.pick(&[127, 128, 128, 128]));
    let calls = [
        Call::Octet { octet, number: rng.octets(number), reply: rng.octets(reply) },
        Call::Gap,
        Call::SessionEnd,
        Call::MeterWrite { tab, data: vec![] },
        Call::Read { tab, data: rng.octets(STORED) },
        setup_call(rng, given),
    ];
    for call in &calls {
        let room = if rng.once_in(20) { rng.below(MEMORY) } else { enough(rng) };
        case(tally, &mut memory.clone(), room, call)?;
    }
    Ok(())
}

/// An accepted setup over memory that holds anything, and a history of calls. Each call in a memory too short is made again.
/// After the history each record has the book's length and octets.
fn history(rng: &mut Rng, tally: &mut Tally) -> Case {
    let setup = random_history::setup(rng);
    let parts = 1 + rng.below(12);
    let events = random_history::history(rng, &setup, parts);
    let mut memory = rng.octets(MEMORY + PAST);
    let (call, room) = (setup_call(rng, &random_setup::given(&setup)), enough(rng));
    case(tally, &mut memory, room, &call)?;
    let mut book = Book::fresh(setup.address, setup.key, &setup.records);
    for (place, event) in events.iter().enumerate() {
        if rng.once_in(60) {
            damaged_run(rng, tally, &memory, &setup, &events[place..])?;
        }
        if rng.once_in(60) {
            let (call, room) = (read_call(rng, &setup), enough(rng));
            case(tally, &mut memory, room, &call)?;
        }
        if rng.once_in(100) {
            let (octet, key) = (rng.octet(), random_keys::about(rng));
            other_key(rng, tally, &memory, octet, &random_setup::given(&setup), key)?;
        }
        let call = call_of(rng, event);
        if rng.once_in(100) {
            let short = rng.below(MEMORY);
            case(tally, &mut memory, short, &call)?;
        }
        let room = enough(rng);
        case(tally, &mut memory, room, &call)?;
        book.event(event);
    }
    tally.grants += book.grants;
    let card = card_memory::card(&memory).expect("marks in use");
    let records: Vec<Vec<u8>> = card.records.into_iter().map(|record| record.data).collect();
    same(&records[..], book.notes(), || format!("{events:?}"))
}

/// A setup with some faults, over memory that holds a card or anything, then a call on what it left.
fn faulty_setup(rng: &mut Rng, tally: &mut Tally, memory: &mut [u8]) -> Case {
    let setup = random_history::setup(rng);
    let given = random_setup::faulty(rng, &setup);
    let mut call = setup_call(rng, &given);
    if let (Call::Setup { entries, .. }, true) = (&mut call, rng.once_in(4)) {
        // The entries stand as the records do in memory, whose damage fits them too.
        let mut damaged = memory.to_vec();
        damaged[RECORDS].copy_from_slice(entries);
        damaged[COUNT] = setup.records.len() as u8;
        random_damage::damage(rng, &mut damaged);
        entries.copy_from_slice(&damaged[RECORDS]);
    }
    let room = if rng.once_in(20) { rng.below(MEMORY) } else { enough(rng) };
    case(tally, memory, room, &call)?;
    let (read, room) = (read_call(rng, &setup), enough(rng));
    case(tally, memory, room, &read)
}

/// Memory with a card that has received all of an ENQ but its last octet, that octet, and what the setup was given.
fn before_a_reply(rng: &mut Rng, tally: &mut Tally) -> Result<(Vec<u8>, u8, Given), Disagreement> {
    let mut setup = random_history::setup(rng);
    while setup.records.is_empty() {
        setup = random_history::setup(rng);
    }
    let given = random_setup::given(&setup);
    let mut memory = rng.octets(MEMORY + PAST);
    let call = setup_call(rng, &given);
    case(tally, &mut memory, MEMORY, &call)?;
    let enq = Frame { ads: setup.address, adp: 1, body: Body::Enq { tab: setup.records[0].tab } };
    let octets = enq.octets().expect("a frame");
    let (last, before) = octets.split_last().expect("a frame has octets");
    for octet in before {
        let call = Call::Octet { octet: *octet, number: rng.octets(8), reply: rng.octets(128) };
        case(tally, &mut memory, MEMORY, &call)?;
    }
    Ok((memory, *last, given))
}

/// Every length from 0 to 130 of each buffer that has one, in every call; the octet completes an ENQ.
fn every_buffer_length(rng: &mut Rng, tally: &mut Tally) -> Case {
    let (memory, octet, given) = before_a_reply(rng, tally)?;
    let tab = given.records[0].tab;
    for length in 0..=130 {
        let other_address = Given { address: rng.octets(length), ..given.clone() };
        let other_key = Given { key: rng.octets(length), ..given.clone() };
        let calls = [
            Call::Octet { octet, number: rng.octets(length), reply: rng.octets(128) },
            Call::Octet { octet, number: rng.octets(8), reply: rng.octets(length) },
            Call::MeterWrite { tab, data: rng.octets(length) },
            Call::MeterWrite { tab, data: vec![b'e'; length] },
            setup_call(rng, &other_address),
            setup_call(rng, &other_key),
        ];
        for call in &calls {
            case(tally, &mut memory.clone(), MEMORY, call)?;
        }
    }
    Ok(())
}

/// Every length of memory from 0 to some past what a card needs, in every call.
fn every_memory_length(rng: &mut Rng, tally: &mut Tally) -> Case {
    let (memory, octet, given) = before_a_reply(rng, tally)?;
    let tab = given.records[0].tab;
    let calls = [
        Call::Octet { octet, number: rng.octets(8), reply: rng.octets(128) },
        Call::MeterWrite { tab, data: given.records[0].data.clone() },
        Call::Gap,
        Call::SessionEnd,
        Call::Read { tab, data: rng.octets(STORED) },
        setup_call(rng, &given),
    ];
    for room in 0..=MEMORY + PAST {
        for call in &calls {
            case(tally, &mut memory.clone(), room, call)?;
        }
    }
    Ok(())
}

/// Every key about E5's rule: given to a setup alone and with faults beside, and standing in memory.
fn every_key(rng: &mut Rng, tally: &mut Tally) -> Case {
    let (memory, octet, given) = before_a_reply(rng, tally)?;
    for (key, _) in keys::about_the_rule() {
        let other = random_history::setup(rng);
        let faulty = Given { key: key.to_vec(), ..random_setup::faulty(rng, &other) };
        for given in [&Given { key: key.to_vec(), ..given.clone() }, &faulty] {
            let setup = setup_call(rng, given);
            case(tally, &mut memory.clone(), MEMORY, &setup)?;
        }
        other_key(rng, tally, &memory, octet, &given, key)?;
    }
    Ok(())
}

fn all(rng: &mut Rng, cases: usize, tally: &mut Tally) -> Case {
    every_buffer_length(rng, tally)?;
    every_memory_length(rng, tally)?;
    every_key(rng, tally)?;
    let mut memory = rng.octets(MEMORY + PAST);
    let start = tally.calls;
    while tally.calls < start + cases {
        history(rng, tally)?;
        for _ in 0..4 {
            faulty_setup(rng, tally, &mut memory)?;
        }
    }
    Ok(())
}

/// At least so many random calls, after those with every length.
pub fn compare(rng: &mut Rng, cases: usize) -> bool {
    let mut tally = Tally::default();
    let agrees: Result<usize, Disagreement> = all(rng, cases, &mut tally).map(|()| tally.calls);
    tell(&tally.line(), agrees)
}
