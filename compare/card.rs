//! The secondary station: 01, The card and Numbers handed back; 02, E5.

use crate::des;
use crate::frame::{Address, Block, Body, Frame, Number, BROADCAST, LONGEST};
use crate::keys;
use crate::receiver::{Heard, Receiver};
use crate::record::{self, Record};

/// A programming exchange that waits for its AUT.
#[derive(Clone, PartialEq, Debug)]
pub struct Wait {
    pub adp: u8,
    pub tab: u8,
    pub data: Vec<u8>,
    pub na2: Block,
}

#[derive(Clone, PartialEq, Debug)]
pub struct Card {
    pub address: Address,
    pub key: Block,
    pub records: Vec<Record>,
    pub wait: Option<Wait>,
    pub receiver: Receiver,
}

/// The number for the host, and the whole length of the reply in the lent buffer, 0 where there is none.
#[derive(Clone, Copy, PartialEq, Debug)]
pub struct Answer {
    pub number: Option<Number>,
    pub reply: usize,
}

impl Answer {
    const NOTHING: Answer = Answer { number: None, reply: 0 };

    fn refused(number: Number) -> Answer {
        Answer { number: Some(number), reply: 0 }
    }
}

/// What a frame that the card takes brings: the number for the host and the body of the reply.
type Taken = (Option<Number>, Option<Body>);

impl Card {
    /// 01, The card, and 02, E5: 17, 6, 12 over all records, 21 for a weak key, then each content in turn
    /// (7, 8, 9).
    pub fn setup(address: &[u8], key: &[u8], records: &[Record]) -> Result<Card, Number> {
        let address = Address::try_from(address).map_err(|_| 17)?;
        let key = Block::try_from(key).map_err(|_| 17)?;
        if address == BROADCAST {
            return Err(6);
        }
        if !record::keep_setup_rules(records) {
            return Err(12);
        }
        if keys::weak(key) {
            return Err(21);
        }
        for record in records {
            record.accepts(&record.data)?;
        }
        Ok(Card { address, key, records: records.to_vec(), wait: None, receiver: Receiver::Empty })
    }

    /// 01, The card (12): setup rules, E5's and contents included, lengths within
    /// their limits, a partly received frame that can be.
    pub fn sound(&self) -> bool {
        self.address != BROADCAST
            && !keys::weak(self.key)
            && record::keep_setup_rules(&self.records)
            && self.records.iter().all(|record| record.accepts(&record.data).is_ok())
            && self.wait.as_ref().map_or(true, |wait| wait.data.len() <= 100)
            && self.receiver.sound()
    }

    /// An octet from the bus, with the number and the reply buffer that the host lends for it.
    pub fn octet(&mut self, octet: u8, number: &[u8], buffer: &mut [u8]) -> Answer {
        let Ok(number) = Block::try_from(number) else { return Answer::refused(17) };
        if buffer.len() < LONGEST {
            return Answer::refused(17);
        }
        if !self.sound() {
            return Answer::refused(12);
        }
        match self.receiver.octet(octet) {
            Heard::Nothing => Answer::NOTHING,
            Heard::Bad(number) => Answer::refused(number),
            Heard::Good(frame) => self.good_frame(&frame, number, buffer),
        }
    }

    pub fn gap(&mut self) -> Answer {
        if !self.sound() {
            return Answer::refused(12);
        }
        Answer { number: self.receiver.gap(), reply: 0 }
    }

    /// 01, The card: a session end ends a waiting exchange and empties the receiver.
    pub fn session_end(&mut self) -> Answer {
        if !self.sound() {
            return Answer::refused(12);
        }
        self.receiver.session_end();
        self.wait = None;
        Answer::NOTHING
    }

    /// 01, The card: a meter write tests 10 and then the data; it doesn't end a waiting exchange.
    pub fn meter_write(&mut self, tab: u8, data: &[u8]) -> Answer {
        if !self.sound() {
            return Answer::refused(12);
        }
        Answer { number: self.write(tab, |_| true, data).err(), reply: 0 }
    }

    /// 01, The card: ENQ, REC, AUT and TRF with its own address, TRB and IB with a broadcast address.
    pub fn takes(&self, frame: &Frame) -> bool {
        match frame.body {
            Body::Enq { .. } | Body::Rec { .. } | Body::Aut { .. } | Body::Trf { .. } => {
                frame.ads == self.address
            }
            Body::Trb { .. } | Body::Ib => frame.ads == BROADCAST,
            _ => false,
        }
    }

    /// 01, The card: a reply carries the ADS and ADP of the frame it answers.
    fn good_frame(&mut self, frame: &Frame, number: Block, buffer: &mut [u8]) -> Answer {
        if !self.takes(frame) {
            return Answer::NOTHING;
        }
        let (number, reply) = self.take(frame, number);
        let Some(body) = reply else { return Answer { number, reply: 0 } };
        let reply = Frame { ads: frame.ads, adp: frame.adp, body };
        Answer { number, reply: reply.build(buffer).expect("a reply's DATA is within its command's limit") }
    }

    /// 01, The card, the list of commands. Each of them ends a waiting exchange; REC starts one.
    fn take(&mut self, frame: &Frame, number: Block) -> Taken {
        let wait = self.wait.take();
        match &frame.body {
            Body::Enq { tab } => self.enq(*tab),
            Body::Rec { na1, tab, data } => {
                self.wait = Some(Wait { adp: frame.adp, tab: *tab, data: data.clone(), na2: number });
                let na1k = des::encipher(self.key, *na1);
                (None, Some(Body::Ech { na1k, na2: number, tab: *tab, data: data.clone() }))
            }
            Body::Aut { na2k } => wait.map_or((None, None), |wait| self.aut(frame.adp, *na2k, wait)),
            Body::Trf { tab, data } => match self.transfer(*tab, data) {
                Ok(()) => (None, Some(Body::Tra)),
                Err(number) => (Some(number), Some(Body::Drj)),
            },
            Body::Trb { tab, data } => (self.transfer(*tab, data).err(), None),
            _ => (None, None),
        }
    }

    /// DAT with the record, or the negative answer of 004 4.4.2, which is DRJ (001 2.4.1).
    fn enq(&self, tab: u8) -> Taken {
        match self.records.iter().find(|record| record.tab == tab) {
            None => (Some(10), Some(Body::Drj)),
            Some(record) if record.readable == 0 => (Some(11), Some(Body::Drj)),
            Some(record) => (None, Some(Body::Dat { tab, data: record.data.clone() })),
        }
    }

    /// AUT with an exchange waiting: ARJ goes before DRJ.
    fn aut(&mut self, adp: u8, na2k: Block, wait: Wait) -> Taken {
        if adp != wait.adp || na2k != des::encipher(self.key, wait.na2) {
            return (Some(13), Some(Body::Arj));
        }
        match self.write(wait.tab, |record| record.open_to_programming == 1, &wait.data) {
            Ok(()) => (None, Some(Body::Eos)),
            Err(number) => (Some(number), Some(Body::Drj)),
        }
    }

    fn transfer(&mut self, tab: u8, data: &[u8]) -> Result<(), Number> {
        self.write(tab, |record| record.open_to_transfer == 1, data)
    }

    /// 01, The card: the record exists (10) and is open to that command (11); then the data (7, 8, 9).
    fn write(&mut self, tab: u8, open: fn(&Record) -> bool, data: &[u8]) -> Result<(), Number> {
        let record = self.records.iter_mut().find(|record| record.tab == tab).ok_or(10)?;
        if !open(record) {
            return Err(11);
        }
        record.accepts(data)?;
        record.data = data.to_vec();
        Ok(())
    }
}
