//! Random keys about E5's rule: weak ones, and those that are nearly weak and are none of them.

use crate::frame::Block;
use crate::keys::{self, SEMI_WEAK, WEAK};
use crate::rng::Rng;

/// The octets of which weak and semi-weak keys are made, without their parity bits.
const OCTETS: [u8; 6] = [0x00, 0x0E, 0x1E, 0xE0, 0xF0, 0xFE];

fn any_parity(rng: &mut Rng, key: Block) -> Block {
    keys::with_parity(key, rng.octet())
}

pub fn weak(rng: &mut Rng) -> Block {
    let key = rng.pick(&WEAK);
    any_parity(rng, key)
}

/// One or two bits away from a weak key, semi-weak, or of a weak key's octets in another order.
pub fn nearly_weak(rng: &mut Rng) -> Block {
    let key = match rng.below(4) {
        0 => away(rng, 1),
        1 => away(rng, 2),
        2 => rng.pick(SEMI_WEAK.as_flattened()),
        _ => misplaced(rng),
    };
    any_parity(rng, key)
}

/// So many bits away from a weak key, in octets of their own, not counting parity bits.
fn away(rng: &mut Rng, bits: usize) -> Block {
    let (mut key, first) = (rng.pick(&WEAK), rng.below(8));
    for place in first..first + bits {
        key = keys::turned(key, 8 * (place % 8) + 1 + rng.below(7));
    }
    key
}

/// Two octets, four times each, that make no weak key in this order.
fn misplaced(rng: &mut Rng) -> Block {
    let front = rng.pick(&OCTETS);
    let others: Vec<u8> = OCTETS.into_iter().filter(|back| !weak_together(front, *back)).collect();
    let back = rng.pick(&others);
    [front, front, front, front, back, back, back, back]
}

fn weak_together(front: u8, back: u8) -> bool {
    WEAK.iter().any(|key| [key[0] & !1, key[7] & !1] == [front, back])
}

/// About the rule, on either side of it.
pub fn about(rng: &mut Rng) -> Block {
    if rng.once_in(2) {
        weak(rng)
    } else {
        nearly_weak(rng)
    }
}

/// A key that setup and tool accept, now and then nearly weak. Of random keys one in 2^54 is weak.
pub fn acceptable(rng: &mut Rng) -> Block {
    if rng.once_in(6) {
        nearly_weak(rng)
    } else {
        rng.field()
    }
}
