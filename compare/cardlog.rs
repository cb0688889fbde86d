//! What `cardlog` prints (docs/PROGRAMS.md), from the card of card.rs.

use crate::book::{Book, Event};
use crate::card::{Answer, Card};
use crate::encoding::{Given, STORED, WRITTEN};
use crate::hex;
use crate::record::Record;
use crate::utf8::{Characters, Octets};

/// In the lent buffer before each octet.
const UNTOUCHED: u8 = 0xA5;

/// What is printed for an input, with counts that show whether it came to something.
pub struct Played {
    pub text: String,
    pub accepted: bool,
    pub calls: usize,
    pub grants: usize,
}

impl Played {
    fn line(text: String) -> Played {
        Played { text: text + "\n", accepted: false, calls: 0, grants: 0 }
    }
}

/// The octets not read yet.
struct Rest<'a>(&'a [u8]);

impl<'a> Rest<'a> {
    fn octets(&mut self, count: usize) -> Option<&'a [u8]> {
        let (front, rest) = self.0.split_at_checked(count)?;
        self.0 = rest;
        Some(front)
    }

    fn octet(&mut self) -> Option<u8> {
        Some(self.octets(1)?[0])
    }

    /// As many octets as the first one says.
    fn counted(&mut self) -> Option<&'a [u8]> {
        let count = self.octet()?;
        self.octets(count as usize)
    }

    fn setup(&mut self) -> Option<Given> {
        let address = self.counted()?.to_vec();
        let key = self.counted()?.to_vec();
        let count = self.octet()? as usize;
        let mut records = vec![];
        for _ in 0..count.min(WRITTEN) {
            records.push(record(self.octets(6 + STORED)?));
        }
        // Records that are counted and not written are too many, whatever they hold.
        records.resize(count, record(&[0; 6 + STORED]));
        Some(Given { address, key, records })
    }

    /// Nothing at the end; a call that the end cuts is a gap.
    fn call(&mut self) -> Option<Event> {
        if self.0.is_empty() {
            return None;
        }
        Some(self.whole_call().unwrap_or_else(|| {
            self.0 = &[];
            Event::Gap
        }))
    }

    fn whole_call(&mut self) -> Option<Event> {
        let head = self.octets(3)?;
        let text = self.counted()?.to_vec();
        Some(match head[0] {
            0 => Event::Octet { octet: head[1], number: text, room: head[2] as usize },
            1 => Event::MeterWrite { tab: head[1], data: text },
            2 => Event::SessionEnd,
            _ => Event::Gap,
        })
    }
}

/// A length over what is stored is over every octet limit that a setup may give.
fn record(octets: &[u8]) -> Record {
    let mark = |bit: u8| octets[4] >> bit & 1;
    let mut data = octets[6..].to_vec();
    data.resize(octets[5] as usize, 0);
    Record {
        tab: octets[0],
        kind: octets[1],
        octet_limit: Octets(octets[2] as usize),
        character_limit: Characters(octets[3] as usize),
        readable: mark(0),
        open_to_programming: mark(1),
        open_to_transfer: mark(2),
        data,
    }
}

/// A word with a space before it, if it has characters.
fn word(text: &str) -> String {
    if text.is_empty() {
        String::new()
    } else {
        format!(" {text}")
    }
}

/// The line of a call, if it gave a number or a reply or wrote elsewhere.
fn call_line(index: usize, answer: Answer, buffer: &[u8]) -> Option<String> {
    let (reply, past) = buffer.split_at(answer.reply);
    let kept = past.iter().all(|octet| *octet == UNTOUCHED);
    let number = answer.number.unwrap_or(0);
    let silent = number == 0 && reply.is_empty() && kept;
    let written = if kept { "" } else { " past" };
    (!silent).then(|| format!("{index} {number}{}{written}\n", word(&hex::text(reply))))
}

fn record_line(record: &Record) -> String {
    format!("record {:02X} {}{}\n", record.tab, record.data.len(), word(&hex::text(&record.data)))
}

fn step(card: &mut Card, event: &Event) -> (Answer, Vec<u8>) {
    match event {
        Event::Octet { octet, number, room } => {
            let mut buffer = vec![UNTOUCHED; *room];
            let answer = card.octet(*octet, number, &mut buffer);
            (answer, buffer)
        }
        Event::Gap => (card.gap(), vec![]),
        Event::SessionEnd => (card.session_end(), vec![]),
        Event::MeterWrite { tab, data } => (card.meter_write(*tab, data), vec![]),
    }
}

pub fn played(input: &[u8]) -> Played {
    if input.len() > 65_535 {
        return Played::line("the input is over 65535 octets".to_string());
    }
    let mut rest = Rest(input);
    let Some(given) = rest.setup() else {
        return Played::line("the input ends inside the setup".to_string());
    };
    match Card::setup(&given.address, &given.key, &given.records) {
        Err(number) => Played::line(format!("setup {number}")),
        Ok(card) => calls_played(card, &mut rest),
    }
}

/// The book beside the card counts the writes that are granted.
fn calls_played(mut card: Card, rest: &mut Rest) -> Played {
    let mut book = Book::fresh(card.address, card.key, &card.records);
    let mut text = "setup 0\n".to_string();
    let mut calls = 0;
    while let Some(event) = rest.call() {
        calls += 1;
        let (answer, buffer) = step(&mut card, &event);
        book.event(&event);
        text.extend(call_line(calls, answer, &buffer));
    }
    text.extend(card.records.iter().map(record_line));
    Played { text, accepted: true, calls, grants: book.grants }
}
