//! Our tool over lent memory beside the model, call by call: requests, octets, gaps, session ends and damaged memory;
//! and on the wire with the model's card.

use crate::bench::{ADDRESS, FOREIGN, KEY};
use crate::des;
use crate::ffi::Lent;
use crate::ffi_tool::{self as ours, Cells};
use crate::frame::{self, Address, Block, Body, Frame, Number, BROADCAST};
use crate::hex;
use crate::keys;
use crate::random_frames;
use crate::random_keys;
use crate::receiver::Receiver;
use crate::report::{same, tell, Case, Disagreement};
use crate::rng::Rng;
use crate::tool::{After, Begun, Outcome, Request, Running, Sort, Tool};
use crate::wire::{self, Primary};

/// docs/TOOL_MEMORY.md: where each field stands.
mod at {
    pub const MARK: usize = 0;
    pub const TAB: usize = 1;
    pub const LENGTH: usize = 2;
    pub const ADS: usize = 3;
    pub const ADP: usize = 9;
    pub const KEY: usize = 10;
    pub const NA1: usize = 18;
    pub const SENT: usize = 26;
    pub const STATION: usize = 142;
    pub const SUCCESSES: usize = 148;
    pub const RECEIVER: usize = 149;
}
const SIZE: usize = 278;

/// docs/TOOL_MEMORY.md: the marks of the request. The last one is in use too, and no other.
mod mark {
    pub const IDLE: u8 = 0;
    pub const AFTER_ENQ: u8 = 1;
    pub const AFTER_TRF: u8 = 2;
    pub const AFTER_REC: u8 = 3;
    pub const AFTER_AUT: u8 = 4;
    pub const CALLED: u8 = 5;
}

/// What every cell and lent octet holds before a call, so that a write is seen.
const CELLS: Cells = Cells { length: 777, wake: 7, ended: 7, count: 777 };

/// 01, The card (12), read off the octets of a tool memory.
fn sound(memory: &[u8]) -> bool {
    let held = memory[at::RECEIVER + 1] as usize;
    let n = memory[at::RECEIVER + 2];
    let partial = memory[at::RECEIVER] == 0 && held > 0;
    let in_use = memory[at::MARK] <= mark::CALLED && memory[at::RECEIVER] <= 1;
    let over_long = memory[at::MARK] == mark::AFTER_REC && memory[at::LENGTH] > 100;
    in_use && !over_long && !(partial && (frame::refused_n(n) || held >= n as usize))
}

/// The octets of the layout that the papers decide for this tool, and the octets that stand there; the others are free.
fn decided(tool: &Tool) -> Vec<(usize, Vec<u8>)> {
    let mut fields = vec![];
    let called = tool.sent.last().is_some_and(|last| last.sort == Sort::EnqOrTrf);
    let mark = match &tool.running {
        None if called => mark::CALLED,
        None => mark::IDLE,
        Some(Running { ads, adp, after }) => {
            fields.extend([(at::ADS, ads.to_vec()), (at::ADP, vec![*adp])]);
            match after {
                After::Enq { tab } => {
                    fields.push((at::TAB, vec![*tab]));
                    mark::AFTER_ENQ
                }
                After::Trf => mark::AFTER_TRF,
                After::Rec { tab, data, key, na1 } => {
                    fields.extend([(at::TAB, vec![*tab]), (at::LENGTH, vec![data.len() as u8])]);
                    fields.extend([(at::KEY, key.to_vec()), (at::NA1, na1.to_vec()), (at::SENT, data.clone())]);
                    mark::AFTER_REC
                }
                After::Aut => mark::AFTER_AUT,
            }
        }
    };
    fields.push((at::MARK, vec![mark]));
    fields.extend(waking(tool));
    fields.extend(match &tool.receiver {
        Receiver::Empty => vec![(at::RECEIVER, vec![0, 0])],
        Receiver::Skipping => vec![(at::RECEIVER, vec![1])],
        Receiver::Partial(held) => vec![(at::RECEIVER, [&[0, held.len() as u8], &held[..]].concat())],
    });
    fields
}

/// What the wake-up rule needs of the requests so far, besides the mark.
fn waking(tool: &Tool) -> Vec<(usize, Vec<u8>)> {
    let Some(last) = tool.sent.last() else { return vec![] };
    if last.sort == Sort::RecTrbOrIb {
        return vec![];
    }
    let woken = tool.sent.iter().rposition(|sent| sent.woken).expect("the first ENQ or TRF had one");
    let succeeded = tool.sent[woken..].iter().filter(|sent| sent.succeeded).count();
    vec![(at::STATION, last.ads.to_vec()), (at::SUCCESSES, vec![succeeded.min(5) as u8])]
}

/// The model and ours, given the same calls.
pub struct Pair {
    model: Tool,
    memory: Lent,
    cells: Cells,
    verdict: Case,
}

impl Pair {
    /// A fresh tool over memory that held anything.
    fn fresh() -> Pair {
        let mut memory = Lent::new(&[0x5A; SIZE]);
        ours::new(&mut memory);
        let pair = Pair { model: Tool::fresh(), memory, cells: CELLS, verdict: Ok(()) };
        Pair { verdict: pair.holds("new", 0, &[0; SIZE]), ..pair }
    }

    /// The key of the programming request that runs, as both keep it until AUT is sent.
    fn kept_key(&mut self) -> Option<&mut Block> {
        match &mut self.model.running {
            Some(Running { after: After::Rec { key, .. }, .. }) => Some(key),
            _ => None,
        }
    }

    /// Another key in the memory: the kept one of a request that runs, or octets that are free.
    fn put_key(&mut self, key: Block) {
        let mut octets = self.memory.octets().to_vec();
        octets[at::KEY..at::NA1].copy_from_slice(&key);
        self.memory = Lent::new(&octets);
        if let Some(kept) = self.kept_key() {
            *kept = key;
        }
    }

    /// The memory holds the model's tool, and a refusal left what 01 says: at 6, 7, 12, 16, 17 and 21
    /// everything, at any other number everything but the mark and the receiver.
    fn holds(&self, call: &str, number: Number, before: &[u8]) -> Case {
        let memory = self.memory.octets();
        let input = || format!("{call} on {}", hex::text(before));
        for (at, octets) in decided(&self.model) {
            same(hex::text(&memory[at..at + octets.len()]), hex::text(&octets), || {
                format!("octet {at} after {}", input())
            })?;
        }
        let kept = match number {
            0 => true,
            6 | 7 | 12 | 16 | 17 | 21 => memory == before,
            1..=5 => memory[..at::RECEIVER] == before[..at::RECEIVER],
            _ => memory[at::TAB..at::RECEIVER] == before[at::TAB..at::RECEIVER],
        };
        same((kept, self.memory.guards_kept(), sound(memory)), (true, true, true), input)
    }

    fn agree(&mut self, call: &str, number: (Number, Number), cells: Cells, lent: [(Lent, &[u8]); 2], before: &[u8]) {
        if self.verdict.is_err() {
            return;
        }
        let input = || format!("{call} on {}", hex::text(before));
        let [(frame, frame_after), (data, data_after)] = &lent;
        let buffers = (frame.still_holds(frame_after), data.still_holds(data_after));
        self.verdict = same((number.0, &self.cells, buffers), (number.1, &cells, (true, true)), input)
            .and_then(|()| self.holds(call, number.0, before));
        self.cells = CELLS;
    }
}

/// The number of an outcome, and the cells where it has none.
fn told(outcome: &Outcome) -> (Number, Cells) {
    let cells = |length, ended, count| Cells { length, wake: CELLS.wake, ended, count };
    match outcome {
        Outcome::Nothing => (0, cells(0, 0, 0)),
        Outcome::Authenticate(length) => (0, cells(*length, 0, 0)),
        Outcome::Done(data) => (0, cells(0, 1, data.as_ref().map_or(0, Vec::len))),
        Outcome::Refused(number) | Outcome::Dropped(number) | Outcome::Failed(number) => (*number, CELLS),
    }
}

impl Primary for Pair {
    fn request(&mut self, ads: &[u8], adp: u8, request: &Request, buffer: &mut [u8]) -> Result<Begun, Number> {
        let before = self.memory.octets().to_vec();
        let mut frame = Lent::new(buffer);
        let number = ours::request(&mut self.memory, ads, adp, request, &mut frame, &mut self.cells);
        let begun = self.model.request(ads, adp, request, buffer);
        let done = matches!(request, Request::Broadcast { .. } | Request::Initialise);
        let cells = begun.map_or(CELLS, |begun| Cells {
            length: begun.length,
            wake: begun.wake_up as u8,
            ended: done as u8,
            ..CELLS
        });
        let data = Lent::new(&[]);
        let call = format!("{request:?} to {} adp {adp} room {}", hex::text(ads), buffer.len());
        self.agree(&call, (number, begun.err().unwrap_or(0)), cells, [(frame, buffer), (data, &[])], &before);
        begun
    }

    fn octet(&mut self, octet: u8, buffer: &mut [u8]) -> Outcome {
        let before = self.memory.octets().to_vec();
        let (mut frame, mut data) = (Lent::new(buffer), Lent::new(&[0x5A; 116]));
        let number = ours::octet(&mut self.memory, octet, &mut frame, &mut self.cells, &mut data);
        let outcome = self.model.octet(octet, buffer);
        let mut content = [0x5A; 116];
        if let Outcome::Done(Some(read)) = &outcome {
            content[..read.len()].copy_from_slice(read);
        }
        let (expected, cells) = told(&outcome);
        let call = format!("octet {octet:02X}");
        self.agree(&call, (number, expected), cells, [(frame, buffer), (data, &content)], &before);
        outcome
    }

    fn gap(&mut self) -> Outcome {
        let before = self.memory.octets().to_vec();
        let number = ours::gap(&mut self.memory);
        let outcome = self.model.gap();
        let none = || (Lent::new(&[]), &[][..]);
        self.agree("gap", (number, told(&outcome).0), CELLS, [none(), none()], &before);
        outcome
    }

    fn session_end(&mut self) -> Outcome {
        let before = self.memory.octets().to_vec();
        let number = ours::session_end(&mut self.memory);
        let outcome = self.model.session_end();
        let none = || (Lent::new(&[]), &[][..]);
        self.agree("session end", (number, told(&outcome).0), CELLS, [none(), none()], &before);
        outcome
    }

    fn verdict(&mut self) -> Case {
        std::mem::replace(&mut self.verdict, Ok(()))
    }
}

/// A buffer that is often just long enough, and sometimes too short.
fn buffer(rng: &mut Rng) -> Vec<u8> {
    let room = match rng.below(24) {
        0 => 127,
        1 => 0,
        2 => 129 + rng.below(100),
        _ => 128,
    };
    rng.octets(room)
}

/// Now and then one octet less or more than the field has.
fn lent(rng: &mut Rng, field: &[u8]) -> Vec<u8> {
    match rng.below(30) {
        0 => field[1..].to_vec(),
        1 => [field, &[1]].concat(),
        _ => field.to_vec(),
    }
}

fn program(rng: &mut Rng, tab: u8, data: Vec<u8>, key: Block) -> Request {
    let na1: Block = rng.field();
    Request::Program { tab, data, key: lent(rng, &key), na1: lent(rng, &na1) }
}

fn request(rng: &mut Rng) -> (Vec<u8>, Request) {
    let tab = rng.octet();
    let count = rng.pick(&[0, 1, 4, 50, 99, 100, 101, 115, 116, 117, 200]);
    let data = rng.octets(count);
    let request = match rng.below(9) {
        0..=3 => Request::Read { tab },
        4 => Request::Transfer { tab, data },
        5 | 6 => {
            let key = if rng.once_in(2) { random_keys::about(rng) } else { KEY };
            program(rng, tab, data, key)
        }
        7 => Request::Broadcast { tab, data },
        _ => Request::Initialise,
    };
    let own = if matches!(request, Request::Broadcast { .. } | Request::Initialise) { BROADCAST } else { ADDRESS };
    let ads = rng.pick(&[own, own, own, own, own, ADDRESS, FOREIGN, BROADCAST]);
    (lent(rng, &ads), request)
}

/// A reply that the running request may expect, right or nearly so; or any frame.
fn reply(rng: &mut Rng, tool: &Tool) -> Vec<u8> {
    let Some(Running { ads, adp, after }) = &tool.running else {
        let adp = rng.octet();
        return Frame { adp, ..random_frames::frame(rng, ADDRESS) }.octets().expect("DATA within its limit");
    };
    let near = |rng: &mut Rng, octet: u8| if rng.once_in(8) { octet ^ (1 << rng.below(8)) } else { octet };
    let rejected = rng.once_in(8);
    let body = match after {
        _ if rng.once_in(10) => {
            let command = rng.pick(&frame::COMMANDS);
            random_frames::body(rng, command)
        }
        After::Enq { .. } | After::Trf | After::Aut if rejected => Body::Drj,
        After::Enq { tab } => {
            let count = rng.pick(&[0, 1, 20, 115, 116]);
            Body::Dat { tab: near(rng, *tab), data: rng.octets(count) }
        }
        After::Trf => Body::Tra,
        After::Aut if rng.once_in(6) => Body::Arj,
        After::Aut => Body::Eos,
        After::Rec { tab, data, key, na1 } => {
            let mut na1k = des::encipher(*key, *na1);
            if rng.once_in(8) {
                rng.turn_bit(&mut na1k);
            }
            let mut data = data.clone();
            match rng.below(12) {
                0 => rng.turn_bit(&mut data),
                1 => drop(data.pop()),
                2 if data.len() < 100 => data.push(0),
                _ => {}
            }
            Body::Ech { na1k, na2: rng.field(), tab: near(rng, *tab), data }
        }
    };
    let mut near_ads = *ads;
    rng.turn_bit(&mut near_ads);
    let (ads, adp): (Address, u8) = match rng.below(12) {
        0 => (near_ads, *adp),
        1 => (*ads, adp ^ (1 << rng.below(8))),
        2 => (BROADCAST, *adp),
        _ => (*ads, *adp),
    };
    Frame { ads, adp, body }.octets().expect("DATA within its limit")
}

/// A memory with some octets damaged is refused with 12 exactly where it is not sound, after 17; then nothing has changed.
/// The key that it keeps plays no part in this. The call is an event or the request.
fn damaged(rng: &mut Rng, pair: &Pair, ads: &[u8], request: &Request) -> Case {
    let mut octets = pair.memory.octets().to_vec();
    if rng.once_in(2) {
        octets[at::KEY..at::NA1].copy_from_slice(&random_keys::about(rng));
    }
    for _ in 0..1 + rng.below(3) {
        let anywhere = rng.below(SIZE);
        let receiver = [at::RECEIVER, at::RECEIVER + 1, at::RECEIVER + 2];
        let place = rng.pick(&[at::MARK, at::TAB, at::LENGTH, receiver[0], receiver[1], receiver[2], anywhere]);
        octets[place] = if rng.once_in(2) { rng.below(7) as u8 } else { rng.octet() };
    }
    let (mut memory, mut cells, room) = (Lent::new(&octets), CELLS, rng.pick(&[127, 128]));
    let (mut frame, mut data) = (Lent::new(&vec![0x5A; room]), Lent::new(&[0x5A; 116]));
    let (number, short) = match rng.below(4) {
        0 => (ours::gap(&mut memory), false),
        1 => (ours::session_end(&mut memory), false),
        2 => (ours::octet(&mut memory, rng.octet(), &mut frame, &mut cells, &mut data), room < 128),
        _ => {
            let six = ads.len() == 6;
            let eight =
                !matches!(request, Request::Program { key, na1, .. } if key.len() != 8 || na1.len() != 8);
            let number = ours::request(&mut memory, ads, 1, request, &mut frame, &mut cells);
            (number, room < 128 || !six || !eight)
        }
    };
    let refusal = if short { Some(17) } else { (!sound(&octets)).then_some(12) };
    let input = || format!("damaged memory {}", hex::text(&octets));
    let given = matches!(number, 12 | 17).then_some(number);
    same(given, refusal, input)?;
    let guarded = memory.guards_kept() && frame.guards_kept() && data.guards_kept();
    let untouched = memory.still_holds(&octets)
        && frame.still_holds(&vec![0x5A; room])
        && data.still_holds(&[0x5A; 116])
        && cells == CELLS;
    same(guarded && (refusal.is_none() || untouched), true, input)
}

/// Calls compared, and what some of them came to, so that empty runs are seen.
#[derive(Default)]
struct Tally {
    calls: usize,
    ended_well: usize,
    refused_21: usize,
    /// ECH answered by AUT under a kept key that is weak.
    went_on: usize,
}

fn calls(rng: &mut Rng, cases: usize, tally: &mut Tally) -> Case {
    while tally.calls < cases {
        let mut pair = Pair::fresh();
        for _ in 0..60 {
            tally.calls += 1;
            one_call(rng, &mut pair, tally)?;
            pair.verdict()?;
        }
    }
    Ok(())
}

fn one_call(rng: &mut Rng, pair: &mut Pair, tally: &mut Tally) -> Case {
    match rng.below(13) {
        0 | 1 if pair.kept_key().is_some() => pair.put_key(random_keys::about(rng)),
        0..=3 => {
            let (ads, request) = request(rng);
            let adp = rng.below(3) as u8;
            let begun = pair.request(&ads, adp, &request, &mut buffer(rng));
            tally.refused_21 += (begun == Err(21)) as usize;
        }
        4 => drop(pair.gap()),
        5 if rng.once_in(3) => drop(pair.session_end()),
        5 => drop(pair.octet(rng.octet(), &mut buffer(rng))),
        6 => {
            let (ads, request) = request(rng);
            damaged(rng, pair, &ads, &request)?;
        }
        7 => pair.put_key(random_keys::about(rng)),
        8 if rng.once_in(2) => {
            let octets = random_frames::damaged(rng, ADDRESS);
            feed(rng, pair, &octets, tally);
        }
        _ => {
            let octets = reply(rng, &pair.model);
            feed(rng, pair, &octets, tally);
        }
    }
    Ok(())
}

/// Hands over octets and perhaps a gap, which may cut them; an octet refused with 17 comes again.
fn feed(rng: &mut Rng, pair: &mut Pair, octets: &[u8], tally: &mut Tally) {
    let cut = if rng.once_in(15) { rng.below(octets.len()) } else { octets.len() };
    for octet in &octets[..cut] {
        loop {
            tally.calls += 1;
            let weak = pair.kept_key().is_some_and(|key| keys::weak(*key));
            let outcome = pair.octet(*octet, &mut buffer(rng));
            tally.ended_well += matches!(outcome, Outcome::Done(_)) as usize;
            tally.went_on += (weak && matches!(outcome, Outcome::Authenticate(_))) as usize;
            if outcome != Outcome::Refused(17) {
                break;
            }
        }
    }
    if cut < octets.len() || rng.once_in(2) {
        pair.gap();
    }
}

/// At least so many random calls.
pub fn compare_calls(rng: &mut Rng, cases: usize) -> bool {
    let mut tally = Tally::default();
    let agrees = calls(rng, cases, &mut tally).map(|()| tally.calls);
    let refused = format!("21 {} times, {} went on under a weak key", tally.refused_21, tally.went_on);
    tell(&format!("tool, calls ({} ended a request well; {refused})", tally.ended_well), agrees)
}

/// Every key about E5's rule in a programming request: alone, then with other faults beside or none, to a
/// tool that is idle or busy, and over damaged memory.
pub fn every_key(rng: &mut Rng) -> Result<usize, Disagreement> {
    let about = keys::about_the_rule();
    for (key, weak) in &about {
        let alone = Request::Program { tab: 10, data: vec![], key: key.to_vec(), na1: rng.octets(8) };
        let mut pair = Pair::fresh();
        let begun = pair.request(&ADDRESS, 1, &alone, &mut [0; 128]);
        pair.verdict()?;
        same(begun.err(), weak.then_some(21), || hex::text(key))?;
        key_with_faults(rng, *key)?;
    }
    Ok(3 * about.len())
}

fn key_with_faults(rng: &mut Rng, key: Block) -> Case {
    let (mut pair, count) = (Pair::fresh(), rng.pick(&[0, 100, 101]));
    let (data, ads) = (rng.octets(count), rng.pick(&[ADDRESS, ADDRESS, BROADCAST]));
    let (request, ads) = (program(rng, 10, data, key), lent(rng, &ads));
    damaged(rng, &pair, &ads, &request)?;
    if rng.once_in(3) {
        let _ = pair.request(&ADDRESS, 1, &Request::Read { tab: 10 }, &mut buffer(rng));
    }
    let _ = pair.request(&ads, 1, &request, &mut buffer(rng));
    pair.verdict()
}

/// A programming request goes on to its end under a weak key that stands in the memory in place of its own.
pub fn under_a_weak_key(rng: &mut Rng) -> Result<usize, Disagreement> {
    let exchanges = 64;
    for _ in 0..exchanges {
        let (mut pair, mut last, mut buffer) = (Pair::fresh(), Outcome::Nothing, [0; 128]);
        let (key, na1, data) = (random_keys::weak(rng), rng.field(), b"data".to_vec());
        let ech = Body::Ech { na1k: des::encipher(key, na1), na2: rng.field(), tab: 10, data: data.clone() };
        let program = Request::Program { tab: 10, data, key: KEY.to_vec(), na1: na1.to_vec() };
        let begun = pair.request(&ADDRESS, 1, &program, &mut buffer);
        same(begun.is_ok(), true, || hex::text(&key))?;
        pair.put_key(key);
        for body in [ech, Body::Eos] {
            let octets = Frame { ads: ADDRESS, adp: 1, body }.octets().expect("DATA within its limit");
            octets.iter().for_each(|octet| last = pair.octet(*octet, &mut buffer));
        }
        pair.verdict()?;
        same(last, Outcome::Done(None), || hex::text(&key))?;
    }
    Ok(exchanges)
}

/// 01's row: five good reads of one station have one wake-up, and the sixth has a second.
pub fn five_reads() -> Result<usize, Disagreement> {
    let mut pair = Pair::fresh();
    for (read, wake_up) in [true, false, false, false, false, true].into_iter().enumerate() {
        let mut buffer = [0; 128];
        let begun = pair.request(&ADDRESS, 1, &Request::Read { tab: 10 }, &mut buffer);
        same(begun.map(|begun| begun.wake_up), Ok(wake_up), || format!("read {read}"))?;
        let dat = Frame { ads: ADDRESS, adp: 1, body: Body::Dat { tab: 10, data: vec![1, 2, 3] } };
        for octet in dat.octets().expect("DATA within its limit") {
            pair.octet(octet, &mut buffer);
        }
        pair.verdict()?;
        same(pair.model.running.is_none(), true, || format!("read {read}"))?;
    }
    Ok(6)
}

/// Our tool with the model's card on a wire.
pub fn on_the_wire(
    rng: &mut Rng,
    requests: usize,
    damage_once_in: Option<usize>,
) -> Result<(usize, usize), Disagreement> {
    wire::primary_and_card(rng, requests, damage_once_in, Pair::fresh)
}
