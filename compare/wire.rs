//! The model's tool and card joined octet by octet, on a perfect wire and
//! on one that loses, doubles and damages octets.

use crate::book::{Book, Event};
use crate::card::Card;
use crate::des;
use crate::frame::{Address, Frame, Number, BROADCAST};
use crate::hex::{self, Hex};
use crate::random_history::{self, Setup};
use crate::random_keys;
use crate::receiver::{Heard, Receiver};
use crate::record::Record;
use crate::report::{same, Case, Disagreement};
use crate::rng::Rng;
use crate::tool::{Begun, Outcome, Request, Tool};

/// A primary station that can be put on the wire.
pub trait Primary {
    fn request(
        &mut self,
        ads: &[u8],
        adp: u8,
        request: &Request,
        buffer: &mut [u8],
    ) -> Result<Begun, Number>;
    fn octet(&mut self, octet: u8, buffer: &mut [u8]) -> Outcome;
    fn gap(&mut self) -> Outcome;
    fn session_end(&mut self) -> Outcome;
    /// The first disagreement inside the station, where it is two that are compared.
    fn verdict(&mut self) -> Case {
        Ok(())
    }
}

impl Primary for Tool {
    fn request(
        &mut self,
        ads: &[u8],
        adp: u8,
        request: &Request,
        buffer: &mut [u8],
    ) -> Result<Begun, Number> {
        Tool::request(self, ads, adp, request, buffer)
    }
    fn octet(&mut self, octet: u8, buffer: &mut [u8]) -> Outcome {
        Tool::octet(self, octet, buffer)
    }
    fn gap(&mut self) -> Outcome {
        Tool::gap(self)
    }
    fn session_end(&mut self) -> Outcome {
        Tool::session_end(self)
    }
}

/// How a request ended: with a number or none; of a reading, its DATA.
#[derive(Clone, PartialEq, Debug)]
struct Ending {
    number: Option<Number>,
    data: Option<Vec<u8>>,
}

struct Wire<'a> {
    rng: &'a mut Rng,
    /// An octet is lost, doubled or damaged once in so many; none on a perfect wire.
    damage_once_in: Option<usize>,
    /// That befell some octet of the running request.
    damaged: bool,
    /// A good frame came out that was not sent.
    undetected: bool,
}

impl Wire<'_> {
    /// What comes out at the other end.
    fn carry(&mut self, sent: &[u8]) -> Vec<u8> {
        let mut carried = vec![];
        for octet in sent {
            match self.damage_once_in {
                Some(times) if self.rng.once_in(times) => {
                    self.damaged = true;
                    match self.rng.below(3) {
                        0 => {}
                        1 => carried.extend([*octet, *octet]),
                        _ => carried.push(octet ^ (1 << self.rng.below(8))),
                    }
                }
                _ => carried.push(*octet),
            }
        }
        self.undetected |= carries_another_good_frame(sent, &carried);
        carried
    }
}

/// Damage that the CRC doesn't show, so that the claims about endings don't bind.
fn carries_another_good_frame(sent: &[u8], carried: &[u8]) -> bool {
    let good = |octets: &[u8]| -> Vec<Frame> {
        let mut receiver = Receiver::Empty;
        let heard = octets.iter().map(|octet| receiver.octet(*octet));
        heard.filter_map(|heard| if let Heard::Good(frame) = heard { Some(frame) } else { None }).collect()
    };
    let sent = good(sent);
    good(carried).iter().any(|frame| !sent.contains(frame))
}

/// A card with its book, fed the same events.
struct Station {
    setup: Setup,
    card: Card,
    book: Book,
}

impl Station {
    fn new(setup: Setup) -> Station {
        let card = Card::setup(&setup.address, &setup.key, &setup.records).expect("an acceptable setup");
        let book = Book::fresh(setup.address, setup.key, &setup.records);
        Station { setup, card, book }
    }

    /// Takes octets and then a gap; gives all replies.
    fn hear(&mut self, rng: &mut Rng, octets: &[u8]) -> Vec<u8> {
        let mut replies = vec![];
        for octet in octets {
            let (number, mut buffer) = (rng.octets(8), [0; 128]);
            let answer = self.card.octet(*octet, &number, &mut buffer);
            replies.extend(&buffer[..answer.reply]);
            self.book.event(&Event::Octet { octet: *octet, number, room: 128 });
        }
        self.card.gap();
        self.book.event(&Event::Gap);
        replies
    }

    fn session_end(&mut self) {
        self.card.session_end();
        self.book.event(&Event::SessionEnd);
    }

    fn agrees_with_its_book(&self) -> Case {
        for (record, note) in self.card.records.iter().zip(self.book.notes()) {
            same(Hex(&record.data), Hex(note), || format!("TAB {:02X}", record.tab))?;
        }
        Ok(())
    }
}

/// Plays a request to its end. Where nothing more comes, the tool's host reports a session end.
fn play(
    tool: &mut impl Primary,
    station: &mut Station,
    wire: &mut Wire,
    first: &[u8],
    awaited: bool,
) -> Ending {
    let mut frame = first.to_vec();
    loop {
        let heard = wire.carry(&frame);
        let replies = station.hear(wire.rng, &heard);
        if !awaited {
            return Ending { number: None, data: None };
        }
        let carried = wire.carry(&replies);
        match tool_hears(tool, &carried) {
            Step::Ended(ending) => return ending,
            Step::Send(aut) => frame = aut,
            Step::Silence => {
                tool.session_end();
                return Ending { number: Some(15), data: None };
            }
        }
    }
}

enum Step {
    Ended(Ending),
    Send(Vec<u8>),
    Silence,
}

/// Feeds the tool octets and then a gap, and gives what came of them.
fn tool_hears(tool: &mut impl Primary, octets: &[u8]) -> Step {
    let mut buffer = [0; 128];
    let mut step = Step::Silence;
    for octet in octets {
        match tool.octet(*octet, &mut buffer) {
            Outcome::Done(data) => step = Step::Ended(Ending { number: None, data }),
            Outcome::Failed(number) => step = Step::Ended(Ending { number: Some(number), data: None }),
            Outcome::Authenticate(length) => step = Step::Send(buffer[..length].to_vec()),
            Outcome::Nothing | Outcome::Dropped(_) | Outcome::Refused(_) => {}
        }
    }
    tool.gap();
    step
}

/// What the papers say of a request on a perfect wire: its ending, and the data the record has afterwards.
fn on_a_perfect_wire(station: &Station, ads: Address, request: &Request) -> (Ending, Option<(u8, Vec<u8>)>) {
    let ends = |number: Option<Number>| Ending { number, data: None };
    let find = |tab: u8| station.card.records.iter().find(move |record| record.tab == tab);
    let writes = |tab: u8, data: &Vec<u8>, open: fn(&Record) -> u8| {
        let granted = find(tab).is_some_and(|record| open(record) == 1 && record.accepts(data).is_ok());
        granted.then(|| (tab, data.clone()))
    };
    if ads != BROADCAST && ads != station.setup.address {
        return (ends(Some(15)), None);
    }
    match request {
        Request::Read { tab } => match find(*tab) {
            Some(record) if record.readable == 1 => {
                (Ending { number: None, data: Some(record.data.clone()) }, None)
            }
            _ => (ends(Some(20)), None),
        },
        Request::Program { tab, data, key, na1 } => {
            let cipher = |key: &[u8]| {
                des::encipher(key.try_into().expect("eight octets"), na1[..].try_into().expect("eight"))
            };
            if cipher(key) != cipher(&station.setup.key) {
                return (ends(Some(13)), None);
            }
            let written = writes(*tab, data, |record| record.open_to_programming);
            (ends(if written.is_some() { None } else { Some(20) }), written)
        }
        Request::Transfer { tab, data } => {
            let written = writes(*tab, data, |record| record.open_to_transfer);
            (ends(if written.is_some() { None } else { Some(20) }), written)
        }
        Request::Broadcast { tab, data } => {
            (ends(None), writes(*tab, data, |record| record.open_to_transfer))
        }
        Request::Initialise => (ends(None), None),
    }
}

fn random_request(rng: &mut Rng, setup: &Setup) -> (Address, Request) {
    let (tab, data) = match setup.records.is_empty() || rng.once_in(10) {
        true => (rng.octet(), vec![]),
        false => {
            let record = rng.pick(&setup.records);
            (record.tab, random_history::data(rng, &record, 100))
        }
    };
    let ads = if rng.once_in(12) { [1; 6] } else { setup.address };
    match rng.below(8) {
        0..=2 => (ads, Request::Read { tab }),
        3 | 4 => {
            let key = if rng.once_in(8) { random_keys::acceptable(rng) } else { setup.key };
            (ads, Request::Program { tab, data, key: key.to_vec(), na1: rng.octets(8) })
        }
        5 => (ads, Request::Transfer { tab, data }),
        6 => (BROADCAST, Request::Broadcast { tab, data }),
        _ => (BROADCAST, Request::Initialise),
    }
}

/// The model's own tool on the wire.
pub fn tool_and_card(
    rng: &mut Rng,
    requests: usize,
    damage_once_in: Option<usize>,
) -> Result<(usize, usize), Disagreement> {
    primary_and_card(rng, requests, damage_once_in, Tool::fresh)
}

/// Requests played, and how many of them ended without a number.
pub fn primary_and_card<P: Primary>(
    rng: &mut Rng,
    requests: usize,
    damage_once_in: Option<usize>,
    fresh: fn() -> P,
) -> Result<(usize, usize), Disagreement> {
    let (mut played, mut succeeded) = (0, 0);
    while played < requests {
        let mut station = Station::new(random_history::setup(rng));
        let mut tool = fresh();
        for _ in 0..20 {
            let (ads, request) = random_request(rng, &station.setup);
            let mut wire = Wire { rng: &mut *rng, damage_once_in, damaged: false, undetected: false };
            let ending = one_request(&mut tool, &mut station, &mut wire, ads, &request)?;
            tool.verdict()?;
            succeeded += ending.number.is_none() as usize;
            played += 1;
        }
    }
    Ok((played, succeeded))
}

fn one_request(
    tool: &mut impl Primary,
    station: &mut Station,
    wire: &mut Wire,
    ads: Address,
    request: &Request,
) -> Result<Ending, Disagreement> {
    let input = || format!("{request:?} to {} of {:?}", hex::text(&ads), station.setup.records);
    let (expected, written) = on_a_perfect_wire(station, ads, request);
    let mut records = station.card.records.clone();
    let mut buffer = [0; 128];
    let begun = tool.request(&ads, 1, request, &mut buffer);
    same(begun.is_ok(), true, input)?;
    let first = &buffer[..begun.map_or(0, |begun| begun.length)];
    let awaited = !matches!(request, Request::Broadcast { .. } | Request::Initialise);
    let ending = play(tool, station, wire, first, awaited);
    station.agrees_with_its_book()?;
    let input = || format!("{request:?} to {} of {:?}", hex::text(&ads), station.setup.records);
    if let Some((tab, data)) = written {
        records.iter_mut().filter(|record| record.tab == tab).for_each(|record| record.data = data.clone());
    }
    // Damaged on the way and yet ended well: then all is as on a perfect wire.
    let ended_well = awaited && ending.number.is_none() && !wire.undetected;
    if !wire.damaged || ended_well {
        same(&ending, &expected, input)?;
        same(&station.card.records, &records, input)?;
    }
    if wire.damaged {
        station.session_end();
    }
    Ok(ending)
}
