//! One of our exported calls over card memory beside card_memory.rs: the number, the length told, and every
//! octet lent with the guards about it.

use crate::card_memory;
use crate::ffi::card as ours;
use crate::ffi::Lent;
use crate::hex;
use crate::report::{same, Case};

/// In the cell of the length before each call, since no length is as great; 17 and 12 leave it there.
const UNTOLD: usize = 777;

/// A call with all that it is lent besides the memory.
#[derive(Clone, Debug)]
pub enum Call {
    Setup { address: Vec<u8>, key: Vec<u8>, count: u8, entries: Vec<u8> },
    Octet { octet: u8, number: Vec<u8>, reply: Vec<u8> },
    Gap,
    SessionEnd,
    MeterWrite { tab: u8, data: Vec<u8> },
    Read { tab: u8, data: Vec<u8> },
}

/// What a call gave and left; the buffer is the reply's or the data's.
struct Outcome {
    number: u8,
    length: usize,
    memory: Vec<u8>,
    buffer: Vec<u8>,
    /// Whether all that is lent only to be read, and all guards, are as they were.
    rest_kept: bool,
}

fn ours(memory: &[u8], call: &Call) -> Outcome {
    let (mut lent, mut length, mut buffer, mut rest_kept) = (Lent::new(memory), UNTOLD, vec![], true);
    let number = match call {
        Call::Setup { address, key, count, entries } => {
            let mut read = [address, key, entries].map(|octets| Lent::new(octets));
            let [its_address, its_key, its_entries] = &mut read;
            let number = ours::setup(&mut lent, its_address, its_key, *count, its_entries);
            rest_kept = read.iter().zip([address, key, entries]).all(|(lent, held)| lent.still_holds(held));
            number
        }
        Call::Octet { octet, number, reply } => {
            let (mut its_number, mut its_reply) = (Lent::new(number), Lent::new(reply));
            let answer = ours::step_octet(&mut lent, *octet, &mut its_number, &mut its_reply, &mut length);
            rest_kept = its_number.still_holds(number) && its_reply.guards_kept();
            buffer = its_reply.octets().to_vec();
            answer
        }
        Call::Gap => ours::step_gap(&mut lent),
        Call::SessionEnd => ours::step_session_end(&mut lent),
        Call::MeterWrite { tab, data } => {
            let mut its_data = Lent::new(data);
            let number = ours::meter_write(&mut lent, *tab, &mut its_data);
            rest_kept = its_data.still_holds(data);
            number
        }
        Call::Read { tab, data } => {
            let mut its_data = Lent::new(data);
            let number = ours::read(&mut lent, *tab, &mut its_data, &mut length);
            rest_kept = its_data.guards_kept();
            buffer = its_data.octets().to_vec();
            number
        }
    };
    Outcome {
        number,
        length,
        memory: lent.octets().to_vec(),
        buffer,
        rest_kept: rest_kept && lent.guards_kept(),
    }
}

fn expected(memory: &[u8], call: &Call) -> Outcome {
    let (mut memory, mut length, mut buffer) = (memory.to_vec(), UNTOLD, vec![]);
    let number = match call {
        Call::Setup { address, key, count, entries } => {
            card_memory::setup(&mut memory, address, key, *count, entries)
        }
        Call::Octet { octet, number, reply } => {
            buffer = reply.clone();
            card_memory::octet(&mut memory, *octet, number, &mut buffer, &mut length)
        }
        Call::Gap => card_memory::gap(&mut memory),
        Call::SessionEnd => card_memory::session_end(&mut memory),
        Call::MeterWrite { tab, data } => card_memory::meter_write(&mut memory, *tab, data),
        Call::Read { tab, data } => {
            buffer = data.clone();
            card_memory::read(&memory, *tab, &mut buffer, &mut length)
        }
    };
    Outcome { number, length, memory, buffer, rest_kept: true }
}

/// The places at which two buffers of one length differ, with both octets.
fn differences(gave: &[u8], expected: &[u8]) -> Vec<(usize, u8, u8)> {
    let pairs = gave.iter().zip(expected).enumerate();
    pairs.filter(|(_, (gave, expected))| gave != expected).map(|(place, (a, b))| (place, *a, *b)).collect()
}

/// Calls by their numbers, so that empty runs are seen.
#[derive(Default)]
pub struct Tally {
    pub calls: usize,
    accepted_setups: usize,
    refused_12: usize,
    refused_17: usize,
    refused_21: usize,
    other_numbers: usize,
    replies: usize,
    pub damages: usize,
    pub grants: usize,
}

impl Tally {
    fn count(&mut self, call: &Call, outcome: &Outcome) {
        self.calls += 1;
        match outcome.number {
            0 => self.accepted_setups += matches!(call, Call::Setup { .. }) as usize,
            12 => self.refused_12 += 1,
            17 => self.refused_17 += 1,
            21 => self.refused_21 += 1,
            _ => self.other_numbers += 1,
        }
        self.replies += (matches!(call, Call::Octet { .. }) && (1..UNTOLD).contains(&outcome.length)) as usize;
    }

    pub fn line(&self) -> String {
        let did = format!(
            "{} setups accepted, {} replies, {} writes granted, {} damages",
            self.accepted_setups, self.replies, self.grants, self.damages
        );
        let first = format!("12 {} times, 17 {} times", self.refused_12, self.refused_17);
        let refused =
            format!("{first}, 21 {} times, other numbers {} times", self.refused_21, self.other_numbers);
        format!("card memory, calls ({did}; {refused})")
    }
}

/// One call on the first `room` octets of the memory, which then holds what the call left.
pub fn case(tally: &mut Tally, memory: &mut [u8], room: usize, call: &Call) -> Case {
    let memory = &mut memory[..room];
    let (gave, expected) = (ours(memory, call), expected(memory, call));
    let input = || format!("{call:?} on memory {}", hex::text(memory));
    same(
        (gave.number, gave.length, gave.rest_kept),
        (expected.number, expected.length, expected.rest_kept),
        input,
    )?;
    same(differences(&gave.buffer, &expected.buffer), vec![], input)?;
    same(differences(&gave.memory, &expected.memory), vec![], input)?;
    tally.count(call, &expected);
    memory.copy_from_slice(&expected.memory);
    Ok(())
}
