//! The archive libswap_exports.a: the swap file's verdict, cursor, writer and list.

use crate::ffi::Lent;
use crate::frame::Address;

/// The cells of a call that asks for a record; `found` is C's bool, taken as an octet, so that a value other than 0 and
/// 1 is seen.
#[derive(Clone, PartialEq, Debug)]
pub struct Cells {
    pub at: usize,
    pub left: usize,
    pub found: u8,
    pub ads: Address,
    pub tab: u8,
    pub kind: u8,
    pub from: usize,
    pub length: usize,
}

#[link(name = "swap_exports", kind = "static")]
extern "C" {
    fn propolisk_swap_verdict(
        file: *const u8,
        count: usize,
        records: *mut usize,
        offset: *mut usize,
    ) -> u8;
    fn propolisk_swap_start(
        file: *const u8,
        count: usize,
        at: *mut usize,
        left: *mut usize,
        offset: *mut usize,
    ) -> u8;
    fn propolisk_swap_next(
        file: *const u8,
        count: usize,
        at: *mut usize,
        left: *mut usize,
        found: *mut u8,
        ads: *mut Address,
        tab: *mut u8,
        kind: *mut u8,
        from: *mut usize,
        length: *mut usize,
    ) -> u8;
    fn propolisk_swap_next_for(
        file: *const u8,
        count: usize,
        station: *const Address,
        at: *mut usize,
        left: *mut usize,
        found: *mut u8,
        ads: *mut Address,
        tab: *mut u8,
        kind: *mut u8,
        from: *mut usize,
        length: *mut usize,
    ) -> u8;
    fn propolisk_swap_next_to_program(
        file: *const u8,
        count: usize,
        station: *const Address,
        at: *mut usize,
        left: *mut usize,
        found: *mut u8,
        ads: *mut Address,
        tab: *mut u8,
        kind: *mut u8,
        from: *mut usize,
        length: *mut usize,
    ) -> u8;
    fn propolisk_swap_write(
        heads: *const u8,
        heads_count: usize,
        contents: *const u8,
        contents_count: usize,
        buffer: *mut u8,
        room: usize,
        length: *mut usize,
        offset: *mut usize,
    ) -> u8;
    fn propolisk_swap_add(
        heads: *mut u8,
        contents: *mut u8,
        records: *mut usize,
        octets: *mut usize,
        ads: *const Address,
        tab: u8,
        kind: u8,
        content: *const u8,
        count: usize,
        offset: *mut usize,
    ) -> u8;
}

pub fn verdict(file: &mut Lent, records: &mut usize, offset: &mut usize) -> u8 {
    let count = file.count();
    unsafe { propolisk_swap_verdict(file.pointer(), count, records, offset) }
}

pub fn start(file: &mut Lent, at: &mut usize, left: &mut usize, offset: &mut usize) -> u8 {
    let count = file.count();
    unsafe { propolisk_swap_start(file.pointer(), count, at, left, offset) }
}

pub fn next(file: &mut Lent, cells: &mut Cells) -> u8 {
    let count = file.count();
    unsafe {
        propolisk_swap_next(
            file.pointer(),
            count,
            &mut cells.at,
            &mut cells.left,
            &mut cells.found,
            &mut cells.ads,
            &mut cells.tab,
            &mut cells.kind,
            &mut cells.from,
            &mut cells.length,
        )
    }
}

pub fn next_for(file: &mut Lent, station: &Address, cells: &mut Cells) -> u8 {
    let count = file.count();
    unsafe {
        propolisk_swap_next_for(
            file.pointer(),
            count,
            station,
            &mut cells.at,
            &mut cells.left,
            &mut cells.found,
            &mut cells.ads,
            &mut cells.tab,
            &mut cells.kind,
            &mut cells.from,
            &mut cells.length,
        )
    }
}

pub fn next_to_program(file: &mut Lent, station: &Address, cells: &mut Cells) -> u8 {
    let count = file.count();
    unsafe {
        propolisk_swap_next_to_program(
            file.pointer(),
            count,
            station,
            &mut cells.at,
            &mut cells.left,
            &mut cells.found,
            &mut cells.ads,
            &mut cells.tab,
            &mut cells.kind,
            &mut cells.from,
            &mut cells.length,
        )
    }
}

pub fn write(
    heads: &mut Lent,
    contents: &mut Lent,
    buffer: &mut Lent,
    length: &mut usize,
    offset: &mut usize,
) -> u8 {
    let (head_count, content_count, room) = (heads.count(), contents.count(), buffer.count());
    unsafe {
        propolisk_swap_write(
            heads.pointer(),
            head_count,
            contents.pointer(),
            content_count,
            buffer.pointer(),
            room,
            length,
            offset,
        )
    }
}

/// What a call adds.
#[derive(Clone, Debug)]
pub struct Added {
    pub ads: Address,
    pub tab: u8,
    pub kind: u8,
    pub data: Vec<u8>,
}

/// The two arrays hold 40,960 and 65,536 octets.
pub fn add(
    heads: &mut Lent,
    contents: &mut Lent,
    counts: &mut (usize, usize),
    record: &Added,
    offset: &mut usize,
) -> u8 {
    assert_eq!((heads.count(), contents.count()), (40_960, 65_536));
    unsafe {
        propolisk_swap_add(
            heads.pointer(),
            contents.pointer(),
            &mut counts.0,
            &mut counts.1,
            &record.ads,
            record.tab,
            record.kind,
            record.data.as_ptr(),
            record.data.len(),
            offset,
        )
    }
}
