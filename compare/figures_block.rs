//! How long a tool calls DES and the CRC for a block of cards, each read and then programmed (02, E13).

use crate::des;
use crate::figures::{best_times, keep, Runner, TURNS};
use crate::figures_programs::{check_key, divisible, encipher, Program, BIT_BY_BIT, PROGRAMS};
use crate::frame::{Block, Body, Command, Frame};
use crate::rng::Rng;

const CARDS: usize = 64;

/// One call of the tool: the key of a frame it sends, the test of a frame that it received, a number enciphered.
enum Call {
    Sent { checked: Vec<u8>, key: u16 },
    Received(Vec<u8>),
    Enciphered { key: Block, number: Block },
}

impl Call {
    fn is_des(&self) -> bool {
        matches!(self, Call::Enciphered { .. })
    }

    /// The octets that the CRC goes over.
    fn checked(&self) -> usize {
        match self {
            Call::Sent { checked, .. } => checked.len(),
            Call::Received(octets) => octets.len(),
            Call::Enciphered { .. } => 0,
        }
    }

    fn make(&self, program: &Program) {
        match self {
            Call::Sent { checked, .. } => keep(check_key(program.check_key, checked)),
            Call::Received(octets) => keep(divisible(program.divisible, octets)),
            Call::Enciphered { key, number } => keep(encipher(program.encipher, key, *number)),
        }
    }

    fn agrees(&self, program: &Program) -> bool {
        match self {
            Call::Sent { checked, key } => check_key(program.check_key, checked) == *key,
            Call::Received(octets) => divisible(program.divisible, octets) == 1,
            Call::Enciphered { key, number } => {
                encipher(program.encipher, key, *number) == des::encipher(*key, *number)
            }
        }
    }
}

/// As much DATA as the command can have.
fn most_data(rng: &mut Rng, command: Command) -> Vec<u8> {
    let lengths = command.lengths();
    rng.octets(lengths.end() - lengths.start())
}

/// The tool's calls to read a longest record of one card and to program another, in their order.
fn exchanges(rng: &mut Rng) -> Vec<Call> {
    let (ads, adp, tab) = (rng.field(), rng.octet(), rng.octet());
    let (key, na1, na2) = (rng.field(), rng.field(), rng.field());
    let (reading, data) = (most_data(rng, Command::Dat), most_data(rng, Command::Rec));
    let octets = |body| Frame { ads, adp, body }.octets().expect("DATA within its limit");
    let sent = |body| {
        let mut checked = octets(body);
        let field = checked.split_off(checked.len() - 2);
        Call::Sent { checked, key: u16::from_le_bytes([field[0], field[1]]) }
    };
    let received = |body| Call::Received(octets(body));
    let (na1k, na2k) = (des::encipher(key, na1), des::encipher(key, na2));
    vec![
        sent(Body::Enq { tab }),
        received(Body::Dat { tab, data: reading }),
        sent(Body::Rec { na1, tab, data: data.clone() }),
        received(Body::Ech { na1k, na2, tab, data }),
        Call::Enciphered { key, number: na1 },
        Call::Enciphered { key, number: na2 },
        sent(Body::Aut { na2k }),
        received(Body::Eos),
    ]
}

/// Prints a row for each program: microseconds for all the calls, and how often the bit-by-bit program's speed that is.
fn rows(what: &str, calls: &[&Call]) {
    let mut runners: Vec<Runner> = vec![];
    for program in PROGRAMS {
        assert!(calls.iter().all(|call| call.agrees(program)), "{}", program.name);
        runners.push((program.name, Box::new(move || calls.iter().for_each(|call| call.make(program)))));
    }
    let best = best_times(TURNS, &mut runners);
    let base =
        PROGRAMS.iter().position(|program| program.name == BIT_BY_BIT).expect("the bit-by-bit program");
    for (time, program) in best.iter().zip(PROGRAMS) {
        println!("| {what} | {} | {:.1} | {:.2} |", program.name, time * 1e6, best[base] / time);
    }
}

pub fn print(rng: &mut Rng) {
    let calls: Vec<Call> = (0..CARDS).flat_map(|_| exchanges(rng)).collect();
    let (des, crc): (Vec<&Call>, Vec<&Call>) = calls.iter().partition(|call| call.is_des());
    let octets: usize = crc.iter().map(|call| call.checked()).sum();
    println!("\n| {CARDS} cards read and programmed | program | microseconds | times the speed of the bit-by-bit program |");
    println!("|---|---|---|---|");
    rows(&format!("{} DES blocks", des.len()), &des);
    rows(&format!("{} CRCs over {octets} octets", crc.len()), &crc);
    rows("all of these calls", &calls.iter().collect::<Vec<_>>());
}
