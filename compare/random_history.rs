//! Random accepted setups, and histories in which exchanges succeed, fail and are broken into.

use crate::book::Event;
use crate::des;
use crate::frame::{Address, Block, Body, Frame, BROADCAST};
use crate::random_frames;
use crate::random_keys;
use crate::random_text;
use crate::record::{Record, LABEL, RAW};
use crate::rng::Rng;
use crate::utf8::{self, Characters, Fit, Octets};

pub struct Setup {
    pub address: Address,
    pub key: Block,
    pub records: Vec<Record>,
}

/// A setup that is accepted; its limits are often the least, the greatest or small.
pub fn setup(rng: &mut Rng) -> Setup {
    let mut address = rng.field();
    address[5] |= 1;
    let count = rng.pick(&[0, 1, 2, 3, 4, 8, 32]);
    let first_tab = rng.octet();
    let records = (0..count).map(|i| record(rng, first_tab.wrapping_add(i))).collect();
    Setup { address, key: random_keys::acceptable(rng), records }
}

fn limit(rng: &mut Rng) -> usize {
    match rng.below(6) {
        0 => 0,
        1 => 116,
        2 => rng.below(117),
        _ => rng.below(20),
    }
}

/// Half of the labels have room for 116 octets. Where there is less, combining marks (02, E1) often bring a
/// label to its octet limit before the character limit is met.
fn record(rng: &mut Rng, tab: u8) -> Record {
    let kind = rng.pick(&[RAW, LABEL]);
    let roomy = kind == LABEL && rng.once_in(2);
    let mut record = Record {
        tab,
        kind,
        octet_limit: Octets(if roomy { 116 } else { limit(rng) }),
        character_limit: Characters(limit(rng)),
        readable: rng.pick(&[0, 1, 1]),
        open_to_programming: rng.pick(&[0, 1, 1]),
        open_to_transfer: rng.pick(&[0, 1, 1]),
        data: vec![],
    };
    record.data = acceptable_data(rng, &record);
    record
}

fn acceptable_data(rng: &mut Rng, record: &Record) -> Vec<u8> {
    if record.kind == RAW {
        let count = rng.below(record.octet_limit.0 + 1);
        return rng.octets(count);
    }
    let characters = rng.below(record.character_limit.0 + 3);
    let mut label = random_text::well_formed(rng, characters);
    if let Fit::Kept(octets, _) = utf8::fit(&label, record.octet_limit, record.character_limit) {
        label.truncate(octets.0);
    }
    label
}

/// A text at, one below or one above the character limit of a record.
pub fn text_about_the_limit(rng: &mut Rng, record: &Record) -> Vec<u8> {
    let characters = (record.character_limit.0 + rng.below(3)).saturating_sub(1);
    random_text::well_formed(rng, characters)
}

/// Data for a record: acceptable, about its limits, or damaged; never over what a frame can carry.
pub fn data(rng: &mut Rng, record: &Record, longest: usize) -> Vec<u8> {
    let mut data = match rng.below(6) {
        0 => text_about_the_limit(rng, record),
        1 => {
            let count = record.octet_limit.0 + rng.below(2);
            rng.octets(count)
        }
        2 => {
            let text = acceptable_data(rng, record);
            random_text::damaged(rng, text)
        }
        _ => acceptable_data(rng, record),
    };
    data.truncate(longest);
    data
}

/// Makes a history part by part.
struct Maker<'a> {
    rng: &'a mut Rng,
    setup: &'a Setup,
    events: Vec<Event>,
    /// Lent with the last octet.
    number: Block,
}

pub fn history(rng: &mut Rng, setup: &Setup, parts: usize) -> Vec<Event> {
    let mut maker = Maker { rng, setup, events: vec![], number: [0; 8] };
    for _ in 0..parts {
        maker.part();
    }
    maker.events
}

impl Maker<'_> {
    fn part(&mut self) {
        match self.rng.below(16) {
            0..=5 => self.programming(),
            6 => self.enq(),
            7 | 8 => self.trf(),
            9 => self.trb(),
            10 => self.ib(),
            11 | 12 => self.disturbance(),
            13 => self.meter_write(),
            14 => self.events.push(Event::Gap),
            _ => self.events.push(Event::SessionEnd),
        }
    }

    /// Now and then a call is refused with 17 first; the host may forget to make it again.
    fn octet(&mut self, octet: u8) {
        if self.rng.once_in(400) {
            let (number, room) =
                if self.rng.once_in(2) { (self.rng.below(8), 128) } else { (8, self.rng.below(128)) };
            self.events.push(Event::Octet { octet, number: self.rng.octets(number), room });
            if self.rng.once_in(4) {
                return;
            }
        }
        self.number = self.rng.field();
        let room = 128 + self.rng.below(3);
        self.events.push(Event::Octet { octet, number: self.number.to_vec(), room });
    }

    fn octets(&mut self, octets: &[u8]) {
        for octet in octets {
            self.octet(*octet);
        }
        if self.rng.once_in(2) {
            self.events.push(Event::Gap);
        }
    }

    fn send(&mut self, ads: Address, adp: u8, body: Body) {
        let octets = Frame { ads, adp, body }.octets().expect("DATA within its limit");
        self.octets(&octets);
    }

    /// Mostly the address that the frame is meant for.
    fn mostly(&mut self, ads: Address) -> Address {
        if self.rng.once_in(12) {
            let mut near = ads;
            self.rng.turn_bit(&mut near);
            self.rng.pick(&[BROADCAST, self.setup.address, near])
        } else {
            ads
        }
    }

    /// One of few primaries, so that they meet.
    fn adp(&mut self) -> u8 {
        self.rng.below(3) as u8
    }

    /// Mostly a record of the card, with data for it.
    fn write(&mut self, longest: usize) -> (u8, Vec<u8>) {
        if self.setup.records.is_empty() || self.rng.once_in(16) {
            let count = self.rng.below(longest + 1);
            return (self.rng.octet(), self.rng.octets(count));
        }
        let record = self.rng.pick(&self.setup.records);
        (record.tab, data(self.rng, &record, longest))
    }

    fn enq(&mut self) {
        let (ads, adp, (tab, _)) = (self.mostly(self.setup.address), self.adp(), self.write(0));
        self.send(ads, adp, Body::Enq { tab });
    }

    fn trf(&mut self) {
        let (ads, adp, (tab, data)) = (self.mostly(self.setup.address), self.adp(), self.write(116));
        self.send(ads, adp, Body::Trf { tab, data });
    }

    fn trb(&mut self) {
        let (ads, adp, (tab, data)) = (self.mostly(BROADCAST), self.adp(), self.write(116));
        self.send(ads, adp, Body::Trb { tab, data });
    }

    fn ib(&mut self) {
        let (ads, adp) = (self.mostly(BROADCAST), self.adp());
        self.send(ads, adp, Body::Ib);
    }

    fn meter_write(&mut self) {
        let (tab, data) = self.write(130);
        self.events.push(Event::MeterWrite { tab, data });
    }

    /// REC and AUT, mostly right, now and then with something in between or AUT twice.
    fn programming(&mut self) {
        let (ads, adp, (tab, data)) = (self.mostly(self.setup.address), self.adp(), self.write(100));
        let na1 = self.rng.field();
        self.send(ads, adp, Body::Rec { na1, tab, data });
        let na2 = self.number;
        match self.rng.below(10) {
            0 => self.events.push(Event::SessionEnd),
            1 | 2 => self.disturbance(),
            3 => self.meter_write(),
            4 => self.part(),
            _ => {}
        }
        let times = 1 + self.rng.once_in(8) as usize;
        for _ in 0..times {
            self.aut(adp, na2);
        }
    }

    fn aut(&mut self, adp: u8, na2: Block) {
        let ads = self.mostly(self.setup.address);
        let adp = match self.rng.below(16) {
            0 => self.adp(),
            1 => adp ^ (1 << self.rng.below(8)),
            _ => adp,
        };
        let mut na2k = des::encipher(self.setup.key, na2);
        if self.rng.once_in(8) {
            self.rng.turn_bit(&mut na2k);
        }
        self.send(ads, adp, Body::Aut { na2k });
    }

    /// A frame for another card, a good frame not taken, a bad frame, noise, or a frame cut by a gap.
    fn disturbance(&mut self) {
        let own = self.setup.address;
        match self.rng.below(5) {
            0 => {
                let ads = self.rng.field();
                self.frame(ads);
            }
            1 => {
                let ads = self.rng.pick(&[own, BROADCAST]);
                self.frame(ads);
            }
            2 => {
                let octets = random_frames::damaged(self.rng, own);
                self.octets(&octets);
            }
            3 => {
                let count = self.rng.below(40);
                let noise = self.rng.octets(count);
                self.octets(&noise);
                self.events.push(Event::Gap);
            }
            _ => {
                let octets = random_frames::frame(self.rng, own).octets().expect("DATA within its limit");
                let cut = self.rng.below(octets.len());
                self.octets(&octets[..cut]);
                self.events.push(Event::Gap);
            }
        }
    }

    fn frame(&mut self, ads: Address) {
        let octets = random_frames::frame(self.rng, ads).octets().expect("DATA within its limit");
        self.octets(&octets);
    }
}
