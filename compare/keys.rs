//! DES's weak keys (02, E5), by what makes a key weak: its sixteen round keys are one and the same.

use crate::des;
use crate::frame::Block;

/// A key is weak exactly if C0 and D0 are each all zeros or all ones.
///
/// No shift changes such halves, so all round keys are equal. And where K1 equals K2, K8 equals K9 and K15
/// equals K16, which stand one shift apart, each bit of a half equals its neighbour: PC-2 passes over four
/// places of a half, and no two neighbours meet one of these all three times. The part `vectors` holds this
/// against the round keys themselves.
pub fn weak(key: Block) -> bool {
    let halves = des::key_halves(key);
    let alike = |half: &[u8]| half.iter().all(|bit| *bit == half[0]);
    alike(&halves[..28]) && alike(&halves[28..])
}

/// The four weak keys as E5 writes them. No rule looks at this list; tests draw from it.
pub const WEAK: [Block; 4] = [
    [0x01; 8],
    [0xFE; 8],
    [0xE0, 0xE0, 0xE0, 0xE0, 0xF1, 0xF1, 0xF1, 0xF1],
    [0x1F, 0x1F, 0x1F, 0x1F, 0x0E, 0x0E, 0x0E, 0x0E],
];

/// The semi-weak keys, which E5 does not name: of a pair, each undoes what the other enciphers.
pub const SEMI_WEAK: [[Block; 2]; 6] = [
    by_turns([0x01, 0xFE], [0x01, 0xFE]),
    by_turns([0x1F, 0xE0], [0x0E, 0xF1]),
    by_turns([0x01, 0xE0], [0x01, 0xF1]),
    by_turns([0x1F, 0xFE], [0x0E, 0xFE]),
    by_turns([0x01, 0x1F], [0x01, 0x0E]),
    by_turns([0xE0, 0xFE], [0xF1, 0xFE]),
];

/// Two octets by turns in the front half and two in the back half; and the same, begun with the other octets.
const fn by_turns([a, b]: [u8; 2], [c, d]: [u8; 2]) -> [Block; 2] {
    [[a, b, a, b, c, d, c, d], [b, a, b, a, d, c, d, c]]
}

/// A key with parity bits turned, one for each bit that is set.
pub fn with_parity(key: Block, bits: u8) -> Block {
    std::array::from_fn(|place| key[place] ^ (bits >> place & 1))
}

/// A key with one bit turned; the parity bits are bit 0 and every eighth after it.
pub fn turned(key: Block, bit: usize) -> Block {
    (u64::from_be_bytes(key) ^ 1 << bit).to_be_bytes()
}

/// Each key with whether E5 refuses it: the weak ones with every parity, those one bit away from a weak one,
/// parity bits not counted, and the semi-weak ones.
pub fn about_the_rule() -> Vec<(Block, bool)> {
    let mut all = vec![];
    for key in WEAK {
        all.extend((0..=255).map(|bits| (with_parity(key, bits), true)));
        all.extend((0..64).filter(|bit| bit % 8 != 0).map(|bit| (turned(key, bit), false)));
    }
    all.extend(SEMI_WEAK.into_iter().flatten().map(|key| (key, false)));
    all
}
