//! The primary station: 01, The tool; 02, E5; the wake-up call also 001 2.4.8.

use crate::des;
use crate::frame::{Address, Block, Body, Frame, Number, BROADCAST, LONGEST};
use crate::keys;
use crate::receiver::{Heard, Receiver};

/// 01, The tool: read, program, transfer, broadcast, initialise; key and number as lent, of any length.
#[derive(Clone, PartialEq, Debug)]
pub enum Request {
    Read { tab: u8 },
    Program { tab: u8, data: Vec<u8>, key: Vec<u8>, na1: Vec<u8> },
    Transfer { tab: u8, data: Vec<u8> },
    Broadcast { tab: u8, data: Vec<u8> },
    Initialise,
}

/// The frame after which the tool waits, with what it needs to judge the reply.
#[derive(Clone, PartialEq, Debug)]
pub enum After {
    Enq { tab: u8 },
    Trf,
    Rec { tab: u8, data: Vec<u8>, key: Block, na1: Block },
    Aut,
}

#[derive(Clone, PartialEq, Debug)]
pub struct Running {
    pub ads: Address,
    pub adp: u8,
    pub after: After,
}

/// What the wake-up rule asks of a request: an ENQ or TRF, or a REC, TRB or IB.
#[derive(Clone, Copy, PartialEq, Debug)]
pub enum Sort {
    EnqOrTrf,
    RecTrbOrIb,
}

/// One request that was sent; the wake-up rule is read off the whole list of them.
#[derive(Clone, PartialEq, Debug)]
pub struct Sent {
    pub sort: Sort,
    pub ads: Address,
    pub woken: bool,
    pub succeeded: bool,
}

#[derive(Clone, PartialEq, Debug)]
pub struct Tool {
    pub receiver: Receiver,
    pub running: Option<Running>,
    pub sent: Vec<Sent>,
}

/// A request that was accepted: whether AGN comes before, and the
/// whole length of the frame in the lent buffer.
#[derive(Clone, Copy, PartialEq, Debug)]
pub struct Begun {
    pub wake_up: bool,
    pub length: usize,
}

/// What an event brings.
#[derive(Clone, PartialEq, Debug)]
pub enum Outcome {
    Nothing,
    /// 12 or 17: the event has not happened.
    Refused(Number),
    /// A bad frame, 1 to 5; the wait goes on.
    Dropped(Number),
    /// AUT of this whole length stands in the lent buffer.
    Authenticate(usize),
    /// The request ended without a number; of a reading, its DATA.
    Done(Option<Vec<u8>>),
    /// The request ended with a number.
    Failed(Number),
}

impl Request {
    /// The frame that opens the request, and what is awaited after it;
    /// 17 for a key or number not of 8 octets.
    fn opening(&self) -> Result<(Body, Option<After>), Number> {
        Ok(match self.clone() {
            Request::Read { tab } => (Body::Enq { tab }, Some(After::Enq { tab })),
            Request::Program { tab, data, key, na1 } => {
                let key = Block::try_from(key).map_err(|_| 17)?;
                let na1 = Block::try_from(na1).map_err(|_| 17)?;
                (Body::Rec { na1, tab, data: data.clone() }, Some(After::Rec { tab, data, key, na1 }))
            }
            Request::Transfer { tab, data } => (Body::Trf { tab, data }, Some(After::Trf)),
            Request::Broadcast { tab, data } => (Body::Trb { tab, data }, None),
            Request::Initialise => (Body::Ib, None),
        })
    }

    fn to_broadcast(&self) -> bool {
        matches!(self, Request::Broadcast { .. } | Request::Initialise)
    }

    fn sort(&self) -> Sort {
        match self {
            Request::Read { .. } | Request::Transfer { .. } => Sort::EnqOrTrf,
            Request::Program { .. } | Request::Broadcast { .. } | Request::Initialise => Sort::RecTrbOrIb,
        }
    }
}

/// 01, The tool, wake-up, clause by clause over the list of all requests sent before.
fn wake_up_due(before: &[Sent], sort: Sort, ads: Address) -> bool {
    if sort == Sort::RecTrbOrIb {
        return true; // any REC, TRB or IB
    }
    let Some(last) = before.iter().rev().find(|sent| sent.sort == Sort::EnqOrTrf) else {
        return true; // the first ENQ or TRF
    };
    if last.ads != ads {
        return true; // to another station than the last ENQ or TRF
    }
    if before.last().is_some_and(|sent| sent.sort == Sort::RecTrbOrIb) {
        return true; // after a REC, TRB or IB
    }
    let last_wake_up = before.iter().rposition(|sent| sent.woken).expect("the first ENQ or TRF had one");
    let since = before[last_wake_up..].iter();
    let succeeded =
        since.filter(|sent| sent.sort == Sort::EnqOrTrf && sent.ads == ads && sent.succeeded).count();
    succeeded >= 5 // five to this station have succeeded since the last wake-up
}

impl Tool {
    pub fn fresh() -> Tool {
        Tool { receiver: Receiver::Empty, running: None, sent: vec![] }
    }

    /// 01, The tool, and 02, E5: 17, 12, 16, 6, 21 for a weak key to program with, 7; then the frame stands
    /// in the lent buffer.
    pub fn request(
        &mut self,
        ads: &[u8],
        adp: u8,
        request: &Request,
        buffer: &mut [u8],
    ) -> Result<Begun, Number> {
        let ads = Address::try_from(ads).map_err(|_| 17)?;
        let (body, after) = request.opening()?;
        if buffer.len() < LONGEST {
            return Err(17);
        }
        if !self.sound() {
            return Err(12);
        }
        if self.running.is_some() {
            return Err(16);
        }
        if request.to_broadcast() != (ads == BROADCAST) {
            return Err(6);
        }
        if matches!(&after, Some(After::Rec { key, .. }) if keys::weak(*key)) {
            return Err(21);
        }
        let length = Frame { ads, adp, body }.build(buffer)?;
        let wake_up = wake_up_due(&self.sent, request.sort(), ads);
        // Broadcast and initialise are done once sent: nothing is awaited.
        self.sent.push(Sent { sort: request.sort(), ads, woken: wake_up, succeeded: after.is_none() });
        self.running = after.map(|after| Running { ads, adp, after });
        Ok(Begun { wake_up, length })
    }

    /// 01, The card (12), of a tool: no length over its limit, no partly received frame that cannot be. E5
    /// tests the key where a request is made, so one that runs goes on with the key it has.
    fn sound(&self) -> bool {
        let within_limit = match &self.running {
            Some(Running { after: After::Rec { data, .. }, .. }) => data.len() <= 100,
            _ => true,
        };
        within_limit && self.receiver.sound()
    }

    /// An octet from the bus, with the frame buffer that the host lends for AUT.
    pub fn octet(&mut self, octet: u8, buffer: &mut [u8]) -> Outcome {
        if buffer.len() < LONGEST {
            return Outcome::Refused(17);
        }
        if !self.sound() {
            return Outcome::Refused(12);
        }
        match self.receiver.octet(octet) {
            Heard::Nothing => Outcome::Nothing,
            Heard::Bad(number) => Outcome::Dropped(number),
            Heard::Good(frame) => self.good_frame(frame, buffer),
        }
    }

    pub fn gap(&mut self) -> Outcome {
        if !self.sound() {
            return Outcome::Refused(12);
        }
        self.receiver.gap().map_or(Outcome::Nothing, Outcome::Dropped)
    }

    /// 01, The tool: a session end empties the receiver and, while waiting, ends with 15.
    pub fn session_end(&mut self) -> Outcome {
        if !self.sound() {
            return Outcome::Refused(12);
        }
        self.receiver.session_end();
        match self.running.take() {
            Some(_) => Outcome::Failed(15),
            None => Outcome::Nothing,
        }
    }

    /// Frames with another ADS or ADP, and all frames while no request
    /// runs, are dropped and the wait goes on.
    fn good_frame(&mut self, frame: Frame, buffer: &mut [u8]) -> Outcome {
        match self.running.take() {
            Some(running) if running.ads == frame.ads && running.adp == frame.adp => {
                self.reply(running, frame.body, buffer)
            }
            other => {
                self.running = other;
                Outcome::Nothing
            }
        }
    }

    /// 01, The tool: the replies. The request is over, save where AUT goes out.
    fn reply(&mut self, running: Running, reply: Body, buffer: &mut [u8]) -> Outcome {
        match (&running.after, reply) {
            (After::Enq { tab: asked }, Body::Dat { tab, data }) if tab == *asked => self.succeed(Some(data)),
            (After::Enq { .. }, Body::Dat { .. }) => Outcome::Failed(14),
            (After::Trf, Body::Tra) | (After::Aut, Body::Eos) => self.succeed(None),
            (After::Aut, Body::Arj) => Outcome::Failed(13),
            (After::Enq { .. } | After::Trf | After::Aut, Body::Drj) => Outcome::Failed(20),
            (
                After::Rec { tab, data, key, na1 },
                Body::Ech { na1k, na2, tab: echoed_tab, data: echoed_data },
            ) => {
                if na1k != des::encipher(*key, *na1) {
                    return Outcome::Failed(13);
                }
                if echoed_tab != *tab || echoed_data != *data {
                    return Outcome::Failed(14);
                }
                let na2k = des::encipher(*key, na2);
                self.authenticate(running.ads, running.adp, na2k, buffer)
            }
            _ => Outcome::Failed(19),
        }
    }

    fn authenticate(&mut self, ads: Address, adp: u8, na2k: Block, buffer: &mut [u8]) -> Outcome {
        let aut = Frame { ads, adp, body: Body::Aut { na2k } };
        let length = aut.build(buffer).expect("AUT has no DATA");
        self.running = Some(Running { ads, adp, after: After::Aut });
        Outcome::Authenticate(length)
    }

    /// 01, The tool: an exchange succeeds if it ends without a number.
    fn succeed(&mut self, data: Option<Vec<u8>>) -> Outcome {
        self.sent.last_mut().expect("the request that runs was sent").succeeded = true;
        Outcome::Done(data)
    }
}
