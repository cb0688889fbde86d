//! Random damage to card memory: any octet, the fields that 12 looks at, and octets that nothing reads.

use crate::card_memory::*;
use crate::random_keys;
use crate::rng::Rng;

/// Values about every bound of the layout.
const EDGES: [u8; 17] = [0, 1, 2, 3, 7, 8, 10, 11, 99, 100, 101, 115, 116, 117, 127, 128, 129];

fn value(rng: &mut Rng) -> u8 {
    if rng.once_in(3) {
        rng.octet()
    } else {
        rng.pick(&EDGES)
    }
}

/// The start of any record, one past the count now and then.
fn any_record(rng: &mut Rng, memory: &[u8]) -> usize {
    let count = (memory[COUNT] as usize).min(31);
    RECORDS.start + ENTRY * rng.below(count + 1)
}

/// Damages a memory that holds a sound card. What comes out may be sound or not.
pub fn damage(rng: &mut Rng, memory: &mut [u8]) {
    match rng.below(9) {
        0 => memory[rng.below(MEMORY)] = rng.octet(),
        1 | 2 => {
            let fields =
                [COUNT, WAIT_MARK, WAIT_LENGTH, RECEIVER_MARK, RECEIVER_COUNT, RECEIVER_OCTETS.start];
            memory[rng.pick(&fields)] = value(rng);
        }
        3 | 4 => {
            let place = any_record(rng, memory) + 1 + rng.below(5);
            memory[place] = value(rng);
        }
        5 => {
            let (from, to) = (any_record(rng, memory), any_record(rng, memory));
            let width = rng.pick(&[1, 6, ENTRY]);
            memory.copy_within(from..from + width, to);
        }
        6 => {
            let place = any_record(rng, memory) + 6 + rng.below(12);
            memory[place] = rng.octet();
        }
        7 => memory[KEY].copy_from_slice(&random_keys::about(rng)),
        _ => {
            let width = rng.pick(&[5, 6, 14]);
            memory[..width].fill(0);
        }
    }
}

/// Fills every free octet, and every free bit of the others, anew.
pub fn damage_free(rng: &mut Rng, memory: &mut [u8]) {
    for (place, bits) in free(memory) {
        memory[place] = memory[place] & !bits | rng.octet() & bits;
    }
}
