//! What examples/card_host.c prints: the same exchanges, played with the card of card.rs.

use crate::bench::{ADDRESS, KEY, NA1};
use crate::card::Card;
use crate::des;
use crate::frame::{self, Block, Body, Frame, Number};
use crate::hex;
use crate::record::{Record, LABEL, RAW};
use crate::utf8::{Characters, Octets};

const HOLDER: u8 = 0x0A;
const INDEX: u8 = 0x0B;
/// The examples' numbers are a count, enciphered under this key.
const SECRET: Block = [0x5A, 0x6F, 0xC3, 0xA9, 0x10, 0x32, 0x54, 0x76];
const WRONG_KEY: Block = [0x0E, 0x32, 0x92, 0x32, 0xEA, 0x6D, 0x0D, 0x73];
const WEAK_KEY: Block = [0x01; 8];

struct Host {
    card: Card,
    octets_heard: u64,
    text: String,
}

fn line_of(frame: &Frame) -> String {
    let octets = frame.octets().expect("DATA within its limit");
    format!("{} {}\n", format!("{:?}", frame.body.command()).to_uppercase(), hex::text(&octets))
}

/// The next random number of an example, given how many were drawn before.
pub fn fresh_number(drawn: &mut u64) -> Block {
    *drawn += 1;
    des::encipher(SECRET, drawn.to_be_bytes())
}

impl Host {
    /// The reply to a frame, after which comes a gap.
    fn send(&mut self, body: Body) -> Option<Frame> {
        let frame = Frame { ads: ADDRESS, adp: 1, body };
        self.text += &format!("  sends {}", line_of(&frame));
        let (mut buffer, mut last) = ([0; 128], None);
        for octet in frame.octets().expect("DATA within its limit") {
            let number = fresh_number(&mut self.octets_heard);
            last = Some(self.card.octet(octet, &number, &mut buffer));
        }
        self.card.gap();
        let answer = last.expect("a frame has octets");
        let reply = frame::read(&buffer[..answer.reply]).ok();
        self.text += &reply
            .as_ref()
            .map_or("  gets  no reply\n".to_string(), |reply| format!("  gets  {}", line_of(reply)));
        self.text += &answer.number.map_or(String::new(), |number| format!("  the board gets {number}\n"));
        reply
    }

    fn read_over_bus(&mut self, tab: u8) {
        self.text += &format!("reading TAB {tab:02X}\n");
        self.send(Body::Enq { tab });
    }

    fn program(&mut self, what: &str, tab: u8, data: &str, key: Block) {
        self.text += &format!("programming TAB {tab:02X}{what}\n");
        let reply = self.send(Body::Rec { na1: NA1, tab, data: data.as_bytes().to_vec() });
        if let Some(Frame { body: Body::Ech { na2, .. }, .. }) = reply {
            self.send(Body::Aut { na2k: des::encipher(key, na2) });
        }
    }

    fn meter_write(&mut self, tab: u8, data: &str) {
        let number = self.card.meter_write(tab, data.as_bytes()).number.unwrap_or(0);
        self.text += &format!("the meter writes \"{data}\" to TAB {tab:02X}: {number}\n");
    }

    fn display(&mut self, tab: u8) {
        let record =
            self.card.records.iter().find(|record| record.tab == tab).expect("a record of the setup");
        let contents = String::from_utf8_lossy(&record.data);
        self.text += &format!("the meter's display, TAB {tab:02X}: 0 \"{contents}\"\n");
    }
}

fn set_up(key: Block) -> Result<Card, Number> {
    let holder = Record {
        tab: HOLDER,
        kind: LABEL,
        octet_limit: Octets(10),
        character_limit: Characters(3),
        readable: 1,
        open_to_programming: 1,
        open_to_transfer: 0,
        data: b"old".to_vec(),
    };
    let index = Record {
        tab: INDEX,
        kind: RAW,
        octet_limit: Octets(9),
        open_to_programming: 0,
        data: b"000000000".to_vec(),
        ..holder.clone()
    };
    Card::setup(&ADDRESS, &key, &[holder, index])
}

pub fn printed() -> String {
    let refused = set_up(WEAK_KEY).expect_err("a weak key");
    let text = format!("setup with the key {}: {refused}\nsetup: 0\n", hex::text(&WEAK_KEY));
    let mut host = Host { card: set_up(KEY).expect("an acceptable setup"), octets_heard: 0, text };
    host.read_over_bus(HOLDER);
    host.program(" with a wrong key", HOLDER, "Zoé", WRONG_KEY);
    host.read_over_bus(HOLDER);
    host.program(" with the right key", HOLDER, "Zoé", KEY);
    host.read_over_bus(HOLDER);
    host.program(", which is not open to it", INDEX, "000000001", KEY);
    host.meter_write(INDEX, "000000042");
    host.read_over_bus(INDEX);
    host.meter_write(HOLDER, "four");
    host.display(HOLDER);
    let number = host.card.session_end().number.unwrap_or(0);
    host.text + &format!("session end: {number}\n")
}
