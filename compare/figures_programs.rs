//! DES and the CRC of every program that is measured, all behind C's calling rule, so that each is called alike: ours, ours of an earlier
//! revision, the bit-by-bit program of docs/bit_by_bit/, and C programs of the field.

use crate::crc;
use crate::crc_by_octets;
use crate::des;
use crate::frame::Block;

/// The block of 8 octets is enciphered where it stands.
pub type Encipher = unsafe extern "C" fn(key: *const u8, block: *mut u8);
pub type CheckKey = unsafe extern "C" fn(octets: *const u8, count: usize) -> u16;
/// C's bool, as an octet.
pub type Divisible = unsafe extern "C" fn(octets: *const u8, count: usize) -> u8;

// The archive is named where `ffi` declares the same calls.
extern "C" {
    fn propolisk_des_encipher(key: *const u8, block: *mut u8);
    fn propolisk_crc_key(octets: *const u8, count: usize) -> u16;
    fn propolisk_crc_divisible(octets: *const u8, count: usize) -> u8;
}

#[cfg(part_before)]
extern "C" {
    fn before_des_encipher(key: *const u8, block: *mut u8);
    fn before_crc_key(octets: *const u8, count: usize) -> u16;
    fn before_crc_divisible(octets: *const u8, count: usize) -> u8;
}

#[link(name = "crypto")]
extern "C" {
    fn DES_set_key_unchecked(key: *const u8, schedule: *mut [u64; 16]);
    fn DES_ecb_encrypt(from: *const u8, to: *mut u8, schedule: *const [u64; 16], encipher: i32);
}

#[link(name = "nettle")]
extern "C" {
    fn nettle_des_set_key(schedule: *mut [u32; 32], key: *const u8) -> i32;
    fn nettle_des_encrypt(schedule: *const [u32; 32], count: usize, to: *mut u8, from: *const u8);
}

#[link(name = "z")]
extern "C" {
    fn crc32(start: u64, octets: *const u8, count: u32) -> u64;
}

// `compare/crc_tables.c`.
extern "C" {
    fn crc_tables_make();
    fn crc_one_table(octets: *const u8, count: usize) -> u16;
    fn crc_eight_tables(octets: *const u8, count: usize) -> u16;
}

unsafe extern "C" fn bit_by_bit_encipher(key: *const u8, block: *mut u8) {
    let (key, block) = (key.cast::<Block>(), block.cast::<Block>());
    *block = des::encipher(*key, *block);
}

unsafe extern "C" fn bit_by_bit_key(octets: *const u8, count: usize) -> u16 {
    u16::from_le_bytes(crc::key(std::slice::from_raw_parts(octets, count)))
}

unsafe extern "C" fn bit_by_bit_divisible(octets: *const u8, count: usize) -> u8 {
    crc::divisible(std::slice::from_raw_parts(octets, count)) as u8
}

unsafe extern "C" fn compilers_table_key(octets: *const u8, count: usize) -> u16 {
    u16::from_le_bytes(crc_by_octets::key(std::slice::from_raw_parts(octets, count)))
}

unsafe extern "C" fn openssl_encipher(key: *const u8, block: *mut u8) {
    let mut schedule = [0; 16];
    DES_set_key_unchecked(key, &mut schedule);
    DES_ecb_encrypt(block, block, &schedule, 1);
}

/// The key's test for weakness is part of setting it.
unsafe extern "C" fn nettle_encipher(key: *const u8, block: *mut u8) {
    let mut schedule = [0; 32];
    nettle_des_set_key(&mut schedule, key);
    nettle_des_encrypt(&schedule, size_of::<Block>(), block, block);
}

/// A program that has all that a tool needs.
pub struct Program {
    pub name: &'static str,
    pub encipher: Encipher,
    pub check_key: CheckKey,
    pub divisible: Divisible,
}

/// The program that the others' speed is told by.
pub const BIT_BY_BIT: &str = "bit by bit, Rust";

pub const PROGRAMS: &[Program] = &[
    Program {
        name: "ours",
        encipher: propolisk_des_encipher,
        check_key: propolisk_crc_key,
        divisible: propolisk_crc_divisible,
    },
    #[cfg(part_before)]
    Program {
        name: "ours before",
        encipher: before_des_encipher,
        check_key: before_crc_key,
        divisible: before_crc_divisible,
    },
    Program {
        name: BIT_BY_BIT,
        encipher: bit_by_bit_encipher,
        check_key: bit_by_bit_key,
        divisible: bit_by_bit_divisible,
    },
];

pub fn enciphers() -> Vec<(&'static str, Encipher)> {
    let libraries: [(&str, Encipher); 2] =
        [("OpenSSL (legacy DES)", openssl_encipher), ("nettle", nettle_encipher)];
    PROGRAMS.iter().map(|program| (program.name, program.encipher)).chain(libraries).collect()
}

/// The tables of the C programs are made first.
pub fn check_keys() -> Vec<(&'static str, CheckKey)> {
    unsafe { crc_tables_make() };
    let others: [(&str, CheckKey); 3] = [
        ("bit by bit, Rust, with a table of the compiler's", compilers_table_key),
        ("C, one table", crc_one_table),
        ("C, eight tables", crc_eight_tables),
    ];
    PROGRAMS.iter().map(|program| (program.name, program.check_key)).chain(others).collect()
}

pub fn encipher(call: Encipher, key: &Block, mut block: Block) -> Block {
    unsafe { call(key.as_ptr(), block.as_mut_ptr()) };
    block
}

pub fn check_key(call: CheckKey, octets: &[u8]) -> u16 {
    unsafe { call(octets.as_ptr(), octets.len()) }
}

pub fn divisible(call: Divisible, octets: &[u8]) -> u8 {
    unsafe { call(octets.as_ptr(), octets.len()) }
}

/// Another CRC, that of 32 bits: there is no library with this one of 16 on the usual systems.
pub fn zlib_key(octets: &[u8]) -> u64 {
    unsafe { crc32(0, octets.as_ptr(), octets.len() as u32) }
}
