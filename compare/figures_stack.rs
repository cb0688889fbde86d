//! How many octets of stack one DES block and one check key need below their caller, of every program, as `compare/stack.c` measures them.

use crate::figures_programs::{check_keys, enciphers, CheckKey, Encipher};
use crate::frame::{Block, LONGEST};
use crate::rng::Rng;

// `compare/stack.c`.
extern "C" {
    static stack_painted: usize;
    fn stack_of_encipher(call: Encipher, key: *const u8, block: *mut u8, colour: u8) -> usize;
    fn stack_of_check_key(call: CheckKey, octets: *const u8, count: usize, colour: u8) -> usize;
}

/// An octet that is left in the one colour is seen by the other.
const COLOURS: [u8; 2] = [0xA5, 0x5A];

/// How often a call is measured; the first call of a library may do more than the others.
const INPUTS: usize = 100;

/// The return address.
const LEAST: usize = size_of::<usize>();

fn encipher_stack(rng: &mut Rng, call: Encipher) -> usize {
    let mut measure = |colour| {
        let (key, mut block): (Block, Block) = (rng.field(), rng.field());
        unsafe { stack_of_encipher(call, key.as_ptr(), block.as_mut_ptr(), colour) }
    };
    most(&mut measure)
}

fn check_key_stack(rng: &mut Rng, call: CheckKey) -> usize {
    let mut measure = |colour| {
        let octets = rng.octets(LONGEST - 2);
        unsafe { stack_of_check_key(call, octets.as_ptr(), octets.len(), colour) }
    };
    most(&mut measure)
}

/// The most that a call needed, its first run left out.
fn most(measure: &mut dyn FnMut(u8) -> usize) -> usize {
    measure(COLOURS[0]);
    let needed = COLOURS.into_iter().cycle().take(INPUTS).map(measure).max().expect("some inputs");
    assert!(needed < unsafe { stack_painted }, "too deep to be measured");
    needed
}

extern "C" fn no_encipher(_: *const u8, _: *mut u8) {}

extern "C" fn no_key(_: *const u8, _: usize) -> u16 {
    0
}

/// A call that does nothing needs its return address alone.
fn exact(rng: &mut Rng) -> bool {
    encipher_stack(rng, no_encipher) == LEAST && check_key_stack(rng, no_key) == LEAST
}

pub fn print(rng: &mut Rng) {
    assert!(exact(rng));
    println!("\n| what | program | octets of stack |");
    println!("|---|---|---|");
    for (name, call) in enciphers() {
        println!("| DES, one block and its key | {name} | {} |", encipher_stack(rng, call));
    }
    for (name, call) in check_keys() {
        println!("| CRC, {} octets | {name} | {} |", LONGEST - 2, check_key_stack(rng, call));
    }
}
