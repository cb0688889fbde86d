//! Card memory for C programs: the layout of docs/MEMORY.md, and what each call gives and leaves in it, from
//! the card of card.rs. A number of 0 is no refusal.

use crate::card::{Card, Wait};
use crate::frame::{Number, LONGEST};
use crate::receiver::Receiver;
use crate::record::{Record, RAW};
use crate::utf8::{Characters, Octets};
use std::ops::Range;

/// A record in memory, and an entry of setup: its head of six octets, then what is stored.
pub const ENTRY: usize = 6 + STORED;
pub const ENTRIES: usize = 32 * ENTRY;
/// Stored octets of a record, of which its length says how many are in use.
pub const STORED: usize = 116;

const ADDRESS: Range<usize> = 0..6;
pub const KEY: Range<usize> = 6..14;
pub const WAIT_MARK: usize = 14;
const WAIT_ADP: usize = 15;
const WAIT_TAB: usize = 16;
pub const WAIT_LENGTH: usize = 17;
const WAIT_DATA: Range<usize> = 18..118;
const WAIT_NA2: Range<usize> = 118..126;
pub const COUNT: usize = 126;
pub const RECORDS: Range<usize> = 127..127 + ENTRIES;
pub const RECEIVER_MARK: usize = RECORDS.end;
pub const RECEIVER_COUNT: usize = RECEIVER_MARK + 1;
pub const RECEIVER_OCTETS: Range<usize> = RECEIVER_COUNT + 1..RECEIVER_COUNT + 128;
pub const MEMORY: usize = RECEIVER_OCTETS.end;

/// As many octets as a length says. A length over what is stored is over every limit, whatever the octets are.
fn stated(length: u8, octets: &[u8]) -> Vec<u8> {
    let mut data = octets.to_vec();
    data.resize(length as usize, 0);
    data
}

/// Of the marks the lowest three bits are read, and no others. A raw record has no character limit, so that octet is not read.
fn record(entry: &[u8]) -> Record {
    Record {
        tab: entry[0],
        kind: entry[1],
        octet_limit: Octets(entry[2] as usize),
        character_limit: Characters(if entry[1] == RAW { 0 } else { entry[3] as usize }),
        readable: entry[4] & 1,
        open_to_programming: entry[4] >> 1 & 1,
        open_to_transfer: entry[4] >> 2 & 1,
        data: stated(entry[5], &entry[6..]),
    }
}

/// Records that are counted and have no place are too many, whatever they hold.
fn records(count: u8, entries: &[u8]) -> Vec<Record> {
    let mut records: Vec<Record> = entries.chunks(ENTRY).take(count as usize).map(record).collect();
    records.resize(count as usize, record(&[0; ENTRY]));
    records
}

/// An entry; octets past the contents, a raw record's character limit and the marks' other bits are the filler's.
pub fn entry(record: &Record, filler: &mut impl FnMut() -> u8) -> Vec<u8> {
    let marks = record.readable + 2 * record.open_to_programming + 4 * record.open_to_transfer;
    let marks = marks | filler() << 3;
    let character_limit = if record.kind == RAW { filler() } else { record.character_limit.0 as u8 };
    let length = record.data.len() as u8;
    let mut octets =
        vec![record.tab, record.kind, record.octet_limit.0 as u8, character_limit, marks, length];
    octets.extend(record.data.iter().take(STORED));
    octets.resize_with(ENTRY, filler);
    octets
}

/// The card that a memory of full length holds, if the marks of wait and receiver are in use.
pub fn card(memory: &[u8]) -> Option<Card> {
    let field = |place: Range<usize>| &memory[place];
    let wait = match memory[WAIT_MARK] {
        0 => None,
        1 => Some(Wait {
            adp: memory[WAIT_ADP],
            tab: memory[WAIT_TAB],
            data: stated(memory[WAIT_LENGTH], field(WAIT_DATA)),
            na2: field(WAIT_NA2).try_into().expect("8 octets"),
        }),
        _ => return None,
    };
    let receiver = match (memory[RECEIVER_MARK], memory[RECEIVER_COUNT]) {
        (0, 0) => Receiver::Empty,
        (0, count) => Receiver::Partial(stated(count, field(RECEIVER_OCTETS))),
        (1, _) => Receiver::Skipping,
        _ => return None,
    };
    Some(Card {
        address: field(ADDRESS).try_into().expect("6 octets"),
        key: field(KEY).try_into().expect("8 octets"),
        records: records(memory[COUNT], field(RECORDS)),
        wait,
        receiver,
    })
}

fn put(memory: &mut [u8], place: Range<usize>, octets: &[u8]) {
    memory[place][..octets.len()].copy_from_slice(octets);
}

/// What a step gave back, over the memory that it was given; free octets stay.
fn leave(memory: &mut [u8], card: &Card) {
    memory[WAIT_MARK] = card.wait.is_some() as u8;
    if let Some(wait) = &card.wait {
        memory[WAIT_ADP] = wait.adp;
        memory[WAIT_TAB] = wait.tab;
        memory[WAIT_LENGTH] = wait.data.len() as u8;
        put(memory, WAIT_DATA, &wait.data);
        put(memory, WAIT_NA2, &wait.na2);
    }
    memory[RECEIVER_MARK] = (card.receiver == Receiver::Skipping) as u8;
    match &card.receiver {
        Receiver::Skipping => {}
        Receiver::Empty => memory[RECEIVER_COUNT] = 0,
        Receiver::Partial(held) => {
            memory[RECEIVER_COUNT] = held.len() as u8;
            put(memory, RECEIVER_OCTETS, held);
        }
    }
    for (entry, record) in memory[RECORDS].chunks_mut(ENTRY).zip(&card.records) {
        entry[5] = record.data.len() as u8;
        put(entry, 6..ENTRY, &record.data);
    }
}

/// The places in a sound memory whose octets nothing reads, each with the bits that are free (docs/MEMORY.md, Free octets).
pub fn free(memory: &[u8]) -> Vec<(usize, u8)> {
    let card = card(memory).expect("marks in use");
    let mut places: Vec<usize> = match &card.wait {
        None => (WAIT_ADP..WAIT_NA2.end).collect(),
        Some(wait) => (WAIT_DATA.start + wait.data.len()..WAIT_DATA.end).collect(),
    };
    places.extend(match &card.receiver {
        Receiver::Empty => RECEIVER_OCTETS,
        Receiver::Skipping => RECEIVER_COUNT..RECEIVER_OCTETS.end,
        Receiver::Partial(held) => RECEIVER_OCTETS.start + held.len()..RECEIVER_OCTETS.end,
    });
    for (start, record) in RECORDS.step_by(ENTRY).zip(&card.records) {
        places.extend((record.kind == RAW).then_some(start + 3));
        places.extend(start + 6 + record.data.len()..start + ENTRY);
    }
    places.extend(RECORDS.start + card.records.len() * ENTRY..RECORDS.end);
    let marks = RECORDS.step_by(ENTRY).take(card.records.len()).map(|start| (start + 4, !7));
    places.into_iter().map(|place| (place, !0)).chain(marks).collect()
}

/// 17, then 12 (01, The card).
fn sound_card(memory: &[u8]) -> Result<Card, Number> {
    if memory.len() < MEMORY {
        return Err(17);
    }
    card(memory).filter(Card::sound).ok_or(12)
}

/// A step on the card of a memory; 17 and 12 leave the memory.
fn step(memory: &mut [u8], event: impl FnOnce(&mut Card) -> Option<Number>) -> Number {
    match sound_card(memory) {
        Err(number) => number,
        Ok(mut card) => {
            let number = event(&mut card).unwrap_or(0);
            leave(memory, &card);
            number
        }
    }
}

pub fn setup(memory: &mut [u8], address: &[u8], key: &[u8], count: u8, entries: &[u8]) -> Number {
    if memory.len() < MEMORY {
        return 17;
    }
    match Card::setup(address, key, &records(count, entries)) {
        Err(number) => number,
        Ok(card) => {
            put(memory, ADDRESS, &card.address);
            put(memory, KEY, &card.key);
            memory[COUNT] = count;
            memory[WAIT_MARK] = 0;
            memory[RECEIVER_MARK] = 0;
            memory[RECEIVER_COUNT] = 0;
            put(memory, RECORDS, &entries[..card.records.len() * ENTRY]);
            0
        }
    }
}

/// The length becomes that of the reply, 0 where there is none; 17 and 12 leave it.
pub fn octet(memory: &mut [u8], octet: u8, number: &[u8], reply: &mut [u8], length: &mut usize) -> Number {
    if number.len() != 8 || reply.len() < LONGEST {
        return 17;
    }
    step(memory, |card| {
        let answer = card.octet(octet, number, reply);
        *length = answer.reply;
        answer.number
    })
}

pub fn gap(memory: &mut [u8]) -> Number {
    step(memory, |card| card.gap().number)
}

pub fn session_end(memory: &mut [u8]) -> Number {
    step(memory, |card| card.session_end().number)
}

pub fn meter_write(memory: &mut [u8], tab: u8, data: &[u8]) -> Number {
    step(memory, |card| card.meter_write(tab, data).number)
}

/// The length becomes that of the record in the first octets of `data`, 0 where there is none; 17 and 12 leave it.
pub fn read(memory: &[u8], tab: u8, data: &mut [u8], length: &mut usize) -> Number {
    let card = match sound_card(memory) {
        Ok(card) => card,
        Err(number) => return number,
    };
    let found = card.records.iter().find(|record| record.tab == tab);
    *length = found.map_or(0, |record| record.data.len());
    match found {
        None => 10,
        Some(record) => {
            put(data, 0..STORED, &record.data);
            0
        }
    }
}
