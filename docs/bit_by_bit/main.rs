//! The bit-by-bit program of 02, E13: one DES block and the check key, with no table but the standards' own. It checks itself on
//! published data and prints its own speed; README.md says how it is built and what it is measured beside.

mod crc;
mod crc_by_octets;
mod des;

use std::hint::black_box;
use std::time::Instant;

/// How many inputs there are, and how often the calls run over all of them; the best time counts.
const INPUTS: u64 = 200;
const TURNS: usize = 2_000;

/// Octets of the longest frame, its check field left out.
const CHECKED: usize = 126;

/// Key, plaintext and ciphertext: the worked example, and lines of NIST SP 800-17's known-answer sets.
const DES_VECTORS: [[u64; 3]; 8] = [
    [0x133457799BBCDFF1, 0x0123456789ABCDEF, 0x85E813540F0AB405],
    [0x0101010101010101, 0x8000000000000000, 0x95F8A5E5DD31D900],
    [0x0101010101010101, 0x0000200000000000, 0xE19E275D846A1298],
    [0x8001010101010101, 0x0000000000000000, 0x95A8D72813DAA94D],
    [0x4001010101010101, 0x0000000000000000, 0x0EEC1487DD8C26D5],
    [0x0101010101010101, 0x95F8A5E5DD31D900, 0x8000000000000000],
    [0x1046913489980131, 0x0000000000000000, 0x88D55E54F54C97B4],
    [0x7CA110454A1A6E57, 0x01A1D6D039776742, 0x690F5B0D9A26939B],
];

/// Octets and the check field sent after them: the value by which this CRC is known, and worked frames ENQ, DAT and DRJ.
const CRC_VECTORS: [(&[u8], [u8; 2]); 4] = [
    (b"123456789", [0x3D, 0xBB]),
    (b"\x0C\x66\x55\x44\x33\x22\x11\x01\x01\x0A", [0xAA, 0x35]),
    (b"\x10\x66\x55\x44\x33\x22\x11\x01\x02\x0A\x5A\x6F\xC3\xA9", [0x9E, 0x72]),
    (b"\x0B\x66\x55\x44\x33\x22\x11\x01\x0A", [0x20, 0x9D]),
];

fn check_des() {
    for [key, plain, cipher] in DES_VECTORS.map(|vector| vector.map(u64::to_be_bytes)) {
        assert_eq!(des::encipher(key, plain), cipher);
        assert_eq!(des::decipher(key, cipher), plain);
    }
}

fn check_crc() {
    for (octets, key) in CRC_VECTORS {
        assert_eq!(crc::key(octets), key);
        assert_eq!(crc_by_octets::key(octets), key);
        let whole = [octets, &key].concat();
        assert!(crc::divisible(&whole));
        for bit in 0..8 * whole.len() {
            let mut damaged = whole.clone();
            damaged[bit / 8] ^= 1 << (bit % 8);
            assert!(!crc::divisible(&damaged));
        }
    }
}

/// Octets without a pattern, by DES itself: one block for each count.
fn mixed(count: u64) -> [u8; 8] {
    des::encipher(DES_VECTORS[0][0].to_be_bytes(), count.to_be_bytes())
}

/// Runs the call over all inputs, many times, and prints its best.
fn tell<Input, Answer>(what: &str, inputs: &[Input], call: impl Fn(&Input) -> Answer) {
    let mut best = f64::MAX;
    for _ in 0..TURNS {
        let start = Instant::now();
        for input in inputs {
            black_box(call(input));
        }
        best = best.min(start.elapsed().as_secs_f64());
    }
    println!("{what}: {:.0} a second", inputs.len() as f64 / best);
}

fn main() {
    check_des();
    check_crc();
    println!("{} vectors of DES and {} of the CRC agree", DES_VECTORS.len(), CRC_VECTORS.len());
    let blocks: Vec<_> = (0..INPUTS).map(|count| (mixed(2 * count), mixed(2 * count + 1))).collect();
    let frames: Vec<Vec<u8>> =
        (0..INPUTS).map(|count| (0..).flat_map(|i| mixed(count << 32 | i)).take(CHECKED).collect()).collect();
    tell("DES, one block and its key", &blocks, |(key, block)| des::encipher(*key, *block));
    tell(&format!("CRC, {CHECKED} octets"), &frames, |frame| crc::key(frame));
    tell(&format!("CRC, {CHECKED} octets, with a table of the compiler's"), &frames, |frame| {
        crc_by_octets::key(frame)
    });
}
