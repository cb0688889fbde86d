//! The input of `cardlog` (docs/PROGRAMS.md): a setup, then calls, octet by octet.

use crate::book::Event;
use crate::record::Record;

/// What a setup is given, whether or not it can be accepted.
#[derive(Clone)]
pub struct Given {
    pub address: Vec<u8>,
    pub key: Vec<u8>,
    pub records: Vec<Record>,
}

/// Stored octets of a record, of which its length says how many are in use.
pub const STORED: usize = 116;
/// Records that the input has at most, whatever their count.
pub const WRITTEN: usize = 32;

/// Octets that nothing reads are the filler's.
pub fn setup(given: &Given, filler: &mut impl FnMut() -> u8) -> Vec<u8> {
    let mut octets = vec![given.address.len() as u8];
    octets.extend(&given.address);
    octets.push(given.key.len() as u8);
    octets.extend(&given.key);
    octets.push(given.records.len() as u8);
    for each in given.records.iter().take(WRITTEN) {
        octets.extend(record(each, filler));
    }
    octets
}

fn record(record: &Record, filler: &mut impl FnMut() -> u8) -> Vec<u8> {
    let marks = record.readable + 2 * record.open_to_programming + 4 * record.open_to_transfer;
    let (octet_limit, character_limit) = (record.octet_limit.0 as u8, record.character_limit.0 as u8);
    let unused_marks = filler() / 8 * 8;
    let length = record.data.len() as u8;
    let mut octets =
        vec![record.tab, record.kind, octet_limit, character_limit, unused_marks + marks, length];
    octets.extend(record.data.iter().take(STORED));
    octets.resize_with(6 + STORED, filler);
    octets
}

/// Kind, octet or TAB, length of the reply buffer, length of the text, text.
pub fn call(event: &Event, filler: &mut impl FnMut() -> u8) -> Vec<u8> {
    let (head, text) = match event {
        Event::Octet { octet, number, room } => ([0, *octet, *room as u8], number.clone()),
        Event::MeterWrite { tab, data } => ([1, *tab, filler()], data.clone()),
        Event::SessionEnd => ([2, filler(), filler()], unused_text(filler)),
        Event::Gap => ([filler().max(3), filler(), filler()], unused_text(filler)),
    };
    [&head[..], &[text.len() as u8], &text].concat()
}

fn unused_text(filler: &mut impl FnMut() -> u8) -> Vec<u8> {
    (0..filler() % 4).map(|_| filler()).collect()
}
