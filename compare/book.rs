//! The book of demand 3: 01, The card ("A book for demand 3").
//!
//! It knows no card: it has a receiver and a wait of its own, and decides
//! every grant from setup and the calls' arguments alone.

use crate::des;
use crate::frame::{Address, Block, Body, Frame, BROADCAST, LONGEST};
use crate::receiver::{Heard, Receiver};
use crate::record::Record;

/// 00-request, demand 3: a history is any list of these.
#[derive(Clone, PartialEq, Debug)]
pub enum Event {
    /// An octet with the number lent and the length of the reply buffer lent.
    Octet {
        octet: u8,
        number: Vec<u8>,
        room: usize,
    },
    Gap,
    SessionEnd,
    MeterWrite {
        tab: u8,
        data: Vec<u8>,
    },
}

struct Wait {
    adp: u8,
    tab: u8,
    data: Vec<u8>,
    na2: Block,
}

/// By what a write comes.
#[derive(Clone, Copy)]
enum Cause {
    Meter,
    Programming,
    Transfer,
}

pub struct Book {
    address: Address,
    key: Block,
    /// As setup gave them; their contents are never altered.
    setup: Vec<Record>,
    receiver: Receiver,
    wait: Option<Wait>,
    /// For each record of setup the data last noted.
    notes: Vec<Vec<u8>>,
    /// How many writes it granted.
    pub grants: usize,
}

impl Book {
    /// Fresh: receiver empty, no wait, first contents.
    pub fn fresh(address: Address, key: Block, records: &[Record]) -> Book {
        let notes = records.iter().map(|record| record.data.clone()).collect();
        Book {
            address,
            key,
            setup: records.to_vec(),
            receiver: Receiver::Empty,
            wait: None,
            notes,
            grants: 0,
        }
    }

    pub fn notes(&self) -> &[Vec<u8>] {
        &self.notes
    }

    pub fn event(&mut self, event: &Event) {
        match event {
            Event::Octet { octet, number, room } => self.octet(*octet, number, *room),
            Event::Gap => {
                self.receiver.gap();
            }
            Event::SessionEnd => {
                self.receiver.session_end();
                self.wait = None;
            }
            Event::MeterWrite { tab, data } => self.note(Cause::Meter, *tab, data),
        }
    }

    /// Refused with 17: no step.
    fn octet(&mut self, octet: u8, number: &[u8], room: usize) {
        let Ok(number) = Block::try_from(number) else { return };
        if room < LONGEST {
            return;
        }
        if let Heard::Good(frame) = self.receiver.octet(octet) {
            self.frame(frame, number);
        }
    }

    /// All frames taken but REC leave no wait; those not taken do nothing.
    fn frame(&mut self, frame: Frame, number: Block) {
        let to_this_card = frame.ads == self.address;
        let to_broadcast = frame.ads == BROADCAST;
        match frame.body {
            Body::Enq { .. } if to_this_card => self.wait = None,
            Body::Rec { tab, data, .. } if to_this_card => {
                self.wait = Some(Wait { adp: frame.adp, tab, data, na2: number });
            }
            Body::Aut { na2k } if to_this_card => self.aut(frame.adp, na2k),
            Body::Trf { tab, data } if to_this_card => {
                self.wait = None;
                self.note(Cause::Transfer, tab, &data);
            }
            Body::Trb { tab, data } if to_broadcast => {
                self.wait = None;
                self.note(Cause::Transfer, tab, &data);
            }
            Body::Ib if to_broadcast => self.wait = None,
            _ => {}
        }
    }

    /// If ADP is the wait's and ZA2 = DES(Ki, NA2), the wait's DATA is noted.
    fn aut(&mut self, adp: u8, na2k: Block) {
        if let Some(wait) = self.wait.take() {
            if adp == wait.adp && na2k == des::encipher(self.key, wait.na2) {
                self.note(Cause::Programming, wait.tab, &wait.data);
            }
        }
    }

    /// Noted unless 10, 11, 7, 8 or 9 applies; a meter write knows no 11.
    fn note(&mut self, cause: Cause, tab: u8, data: &[u8]) {
        let Some(place) = self.setup.iter().position(|record| record.tab == tab) else { return };
        let record = &self.setup[place];
        let open = match cause {
            Cause::Meter => true,
            Cause::Programming => record.open_to_programming == 1,
            Cause::Transfer => record.open_to_transfer == 1,
        };
        if open && record.accepts(data).is_ok() {
            self.notes[place] = data.to_vec();
            self.grants += 1;
        }
    }
}
