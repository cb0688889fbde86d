//! What examples/tool_host.c prints: the same requests, played with the tool, the cards and the swap file of this program.

use crate::bench::{ADDRESS, KEY};
use crate::card::Card;
use crate::card_host::fresh_number;
use crate::day;
use crate::frame::{Block, Number};
use crate::hex;
use crate::record::{Record, LABEL, RAW};
use crate::swap::{self, Written, LONG};
use crate::tool::{Outcome, Request, Tool};
use crate::utf8::{self, Characters, Fit, Octets};

/// The TAB of the logger's curve in the swap file; the cards have no such record.
const CURVE: u8 = 0x05;
const HOLDER: u8 = 0x0A;
const INDEX: u8 = 0x0B;
const UNKNOWN: u8 = 0x0C;
/// One of E5's keys, FE eight times, with a parity bit turned.
const WEAK_KEY: Block = [0xFE, 0xFE, 0xFE, 0xFF, 0xFE, 0xFE, 0xFE, 0xFE];
const OLD_LIMITS: (Octets, Characters) = (Octets(40), Characters(40));
const NEW_LIMITS: (Octets, Characters) = (Octets(14), Characters(20));

/// A request that nobody answered is made again so often: 004, 5.2.4.
const MAX_RETRY: usize = 2;
/// Which replies the wire spoils, counted from 1: a bit of one is bent, and all of the other is lost.
const BENT_REPLY: usize = 1;
const LOST_REPLY: usize = 6;

struct Host {
    tool: Tool,
    card: Card,
    /// How many random numbers were drawn.
    drawn: u64,
    /// How many replies the wire has carried or lost.
    replies: usize,
    text: String,
}

/// How a request ended: with the DATA of a reading, which is empty for others, or with a number.
type Ending = Result<Vec<u8>, Number>;

fn card(limits: (Octets, Characters), holder: &str, index: &str) -> Card {
    let holder = Record {
        tab: HOLDER,
        kind: LABEL,
        octet_limit: limits.0,
        character_limit: limits.1,
        readable: 1,
        open_to_programming: 1,
        open_to_transfer: 0,
        data: holder.as_bytes().to_vec(),
    };
    let index = Record {
        tab: INDEX,
        kind: RAW,
        octet_limit: Octets(9),
        data: index.as_bytes().to_vec(),
        ..holder.clone()
    };
    Card::setup(&ADDRESS, &KEY, &[holder, index]).expect("an acceptable setup")
}

impl Host {
    fn say(&mut self, line: &str) {
        self.text += line;
        self.text += "\n";
    }

    /// The card's reply to a frame, after which comes a gap.
    fn card_hears(&mut self, frame: &[u8]) -> Vec<u8> {
        let (mut buffer, mut length) = ([0; 128], 0);
        for octet in frame {
            let number = fresh_number(&mut self.drawn);
            length = self.card.octet(*octet, &number, &mut buffer).reply;
        }
        self.card.gap();
        buffer[..length].to_vec()
    }

    /// What arrives of a reply.
    fn carried(&mut self, mut reply: Vec<u8>) -> Vec<u8> {
        self.replies += 1;
        if self.replies == LOST_REPLY {
            self.say("  gets  nothing");
            return vec![];
        }
        if self.replies == BENT_REPLY {
            let middle = reply.len() / 2;
            reply[middle] ^= 4;
        }
        self.say(&format!("  gets  {}", hex::text(&reply)));
        reply
    }

    /// The frame that the tool then has to send, none where there is none, and how the request ended, if it has.
    fn tool_hears(&mut self, reply: &[u8]) -> (Vec<u8>, Option<Ending>) {
        let (mut buffer, mut frame, mut ending) = ([0; 128], vec![], None);
        for octet in reply {
            match self.tool.octet(*octet, &mut buffer) {
                Outcome::Nothing => {}
                Outcome::Dropped(number) => self.dropped(number),
                Outcome::Authenticate(length) => frame = buffer[..length].to_vec(),
                Outcome::Done(data) => ending = Some(Ok(data.unwrap_or_default())),
                Outcome::Failed(number) => ending = Some(Err(number)),
                Outcome::Refused(number) => {
                    unreachable!("a sound tool and a long buffer are not refused {number}")
                }
            }
        }
        if let Outcome::Dropped(number) = self.tool.gap() {
            self.dropped(number);
        }
        (frame, ending)
    }

    fn dropped(&mut self, number: Number) {
        self.say(&format!("  drops a bad frame: {number}"));
    }

    /// Nothing more comes: both hosts report a session end.
    fn end_session(&mut self) -> Ending {
        self.say("  session end");
        self.card.session_end();
        match self.tool.session_end() {
            Outcome::Failed(number) => Err(number),
            other => unreachable!("a running request fails, and not with {other:?}"),
        }
    }

    fn play(&mut self, request: &Request) -> Ending {
        let mut buffer = [0; 128];
        let begun = match self.tool.request(&ADDRESS, 1, request, &mut buffer) {
            Ok(begun) => begun,
            Err(number) => {
                self.say(&format!("  refused {number}"));
                return Err(number);
            }
        };
        if begun.wake_up {
            self.say("  wake-up call");
        }
        let (mut frame, mut ending) = (buffer[..begun.length].to_vec(), None);
        while !frame.is_empty() {
            self.say(&format!("  sends {}", hex::text(&frame)));
            let reply = self.card_hears(&frame);
            let arrived = self.carried(reply);
            (frame, ending) = self.tool_hears(&arrived);
        }
        let ending = ending.unwrap_or_else(|| self.end_session());
        self.say(&format!("  ends with {}", ending.as_ref().err().unwrap_or(&0)));
        ending
    }

    /// Makes a request, and again where it ended with 15.
    fn ask(&mut self, once: impl Fn(&mut Host) -> Ending) -> Ending {
        let mut ending = once(self);
        for _ in 0..MAX_RETRY {
            if ending == Err(15) {
                ending = once(self);
            }
        }
        ending
    }

    fn read_once(&mut self, tab: u8) -> Ending {
        self.say(&format!("reading TAB {tab:02X}"));
        self.play(&Request::Read { tab })
    }

    fn program_once(&mut self, tab: u8, data: &[u8], key: Block) -> Ending {
        self.say(&format!("programming TAB {tab:02X} with {} octets", data.len()));
        let na1 = fresh_number(&mut self.drawn).to_vec();
        self.play(&Request::Program { tab, data: data.to_vec(), key: key.to_vec(), na1 })
    }

    fn try_weak_key(&mut self) {
        self.say(&format!("the key on the list: {}", hex::text(&WEAK_KEY)));
        self.program_once(HOLDER, "Zoé".as_bytes(), WEAK_KEY).expect_err("a weak key");
        self.say(&format!("the key on the card: {}", hex::text(&KEY)));
    }

    fn collect(&mut self, list: &mut Vec<swap::Record>, tab: u8, kind: u8) {
        match self.ask(|host| host.read_once(tab)) {
            Ok(data) => self.keep(list, swap::Record { ads: ADDRESS, tab, kind, data }),
            Err(_) => self.say(&format!("  TAB {tab:02X} is NOT in the list")),
        }
    }

    fn keep(&mut self, list: &mut Vec<swap::Record>, record: swap::Record) {
        self.say(&format!("  TAB {:02X} is in the list", record.tab));
        list.push(record);
        list.sort_by_key(|record| (record.ads, record.tab));
    }

    /// The logger beside the meter hands over its curve, which no card could hold.
    fn take_curve(&mut self, list: &mut Vec<swap::Record>) {
        let data = day::curve();
        self.say(&format!("the logger's curve of {} octets", data.len()));
        self.keep(list, swap::Record { ads: ADDRESS, tab: CURVE, kind: LONG, data });
    }

    fn verdict(&mut self, file: &[u8]) {
        let said = match swap::read(file) {
            Ok(records) => format!("{} records", records.len()),
            Err(fault) => format!("refused 18 at {}", fault.offset),
        };
        self.say(&format!("its first {} octets: {said}", file.len()));
    }

    fn program(&mut self, record: &swap::Record) {
        let mut data = record.data.clone();
        if record.kind == LABEL {
            let Fit::Kept(Octets(kept), _) = utf8::fit(&data, NEW_LIMITS.0, NEW_LIMITS.1) else {
                unreachable!("a label of an accepted file is well-formed")
            };
            data.truncate(kept);
        }
        let programmed = self.ask(|host| host.program_once(record.tab, &data, KEY));
        let word = if programmed.is_ok() { "on" } else { "NOT on" };
        self.say(&format!("  TAB {:02X} is {word} the new card", record.tab));
    }

    fn display(&mut self, tab: u8) {
        let record =
            self.card.records.iter().find(|record| record.tab == tab).expect("a record of the setup");
        let held = String::from_utf8_lossy(&record.data).into_owned();
        self.say(&format!("the new meter's display, TAB {tab:02X}: 0 \"{held}\""));
    }
}

pub fn printed() -> String {
    let card_at_first = card(OLD_LIMITS, "Résidence Pré Fleuri", "000000042");
    let mut host =
        Host { tool: Tool::fresh(), card: card_at_first, drawn: 0, replies: 0, text: String::new() };
    let mut list = vec![];
    host.say("the old card: setup 0");
    host.collect(&mut list, INDEX, RAW);
    host.collect(&mut list, HOLDER, LABEL);
    host.collect(&mut list, UNKNOWN, RAW);
    host.take_curve(&mut list);

    let mut buffer = [0; 256];
    let Written::File(length) = swap::write(&list, &mut buffer) else { unreachable!("a good swap file") };
    let file = &buffer[..length];
    host.say(&format!("swap file {}", hex::text(file)));
    host.verdict(file);
    host.verdict(&file[..length - 1]);
    let records = swap::read(file).expect("a good swap file");
    for swap::Record { tab, kind, data, .. } in &records {
        host.say(&format!("  TAB {tab:02X} kind {kind} with {} octets", data.len()));
    }

    host.card = card(NEW_LIMITS, "", "");
    host.say("the new card: setup 0");
    host.try_weak_key();
    for record in records.iter().filter(|record| record.kind != LONG) {
        host.program(record);
    }
    host.display(HOLDER);
    host.display(INDEX);
    host.text
}
