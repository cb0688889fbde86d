//! The archive libtool_exports.a: the tool over lent tool memory.

use crate::ffi::Lent;
use crate::tool::Request;

#[link(name = "tool_exports", kind = "static")]
extern "C" {
    fn propolisk_tool_new(memory: *mut u8);
    fn propolisk_tool_read(
        memory: *mut u8,
        ads: *const u8,
        ads_count: usize,
        adp: u8,
        tab: u8,
        frame: *mut u8,
        room: usize,
        length: *mut usize,
        wake: *mut u8,
        ended: *mut u8,
    ) -> u8;
    fn propolisk_tool_transfer(
        memory: *mut u8,
        ads: *const u8,
        ads_count: usize,
        adp: u8,
        tab: u8,
        data: *const u8,
        data_count: usize,
        frame: *mut u8,
        room: usize,
        length: *mut usize,
        wake: *mut u8,
        ended: *mut u8,
    ) -> u8;
    fn propolisk_tool_program(
        memory: *mut u8,
        ads: *const u8,
        ads_count: usize,
        adp: u8,
        tab: u8,
        data: *const u8,
        data_count: usize,
        key: *const u8,
        key_count: usize,
        na1: *const u8,
        na1_count: usize,
        frame: *mut u8,
        room: usize,
        length: *mut usize,
        wake: *mut u8,
        ended: *mut u8,
    ) -> u8;
    fn propolisk_tool_broadcast(
        memory: *mut u8,
        ads: *const u8,
        ads_count: usize,
        adp: u8,
        tab: u8,
        data: *const u8,
        data_count: usize,
        frame: *mut u8,
        room: usize,
        length: *mut usize,
        wake: *mut u8,
        ended: *mut u8,
    ) -> u8;
    fn propolisk_tool_initialise(
        memory: *mut u8,
        ads: *const u8,
        ads_count: usize,
        adp: u8,
        frame: *mut u8,
        room: usize,
        length: *mut usize,
        wake: *mut u8,
        ended: *mut u8,
    ) -> u8;
    fn propolisk_tool_octet(
        memory: *mut u8,
        octet: u8,
        frame: *mut u8,
        room: usize,
        length: *mut usize,
        ended: *mut u8,
        data: *mut u8,
        count: *mut usize,
    ) -> u8;
    fn propolisk_tool_gap(memory: *mut u8) -> u8;
    fn propolisk_tool_session_end(memory: *mut u8) -> u8;
}

/// The cells that a call writes where it gives no number.
#[derive(Clone, PartialEq, Debug)]
pub struct Cells {
    pub length: usize,
    pub wake: u8,
    pub ended: u8,
    pub count: usize,
}

pub fn new(memory: &mut Lent) {
    unsafe { propolisk_tool_new(memory.pointer()) }
}

pub fn request(
    memory: &mut Lent,
    ads: &[u8],
    adp: u8,
    request: &Request,
    frame: &mut Lent,
    cells: &mut Cells,
) -> u8 {
    let (memory, room) = (memory.pointer(), frame.count());
    let frame = frame.pointer();
    let (length, wake, ended): (*mut usize, *mut u8, *mut u8) =
        (&mut cells.length, &mut cells.wake, &mut cells.ended);
    let (ads, six) = (ads.as_ptr(), ads.len());
    unsafe {
        match request {
            Request::Read { tab } => {
                propolisk_tool_read(memory, ads, six, adp, *tab, frame, room, length, wake, ended)
            }
            Request::Transfer { tab, data } => {
                let (data, count) = (data.as_ptr(), data.len());
                propolisk_tool_transfer(
                    memory, ads, six, adp, *tab, data, count, frame, room, length, wake, ended,
                )
            }
            Request::Program { tab, data, key, na1 } => {
                let (data, count) = (data.as_ptr(), data.len());
                let (key, key_count) = (key.as_ptr(), key.len());
                let (na1, na1_count) = (na1.as_ptr(), na1.len());
                propolisk_tool_program(
                    memory, ads, six, adp, *tab, data, count, key, key_count, na1, na1_count, frame, room,
                    length, wake, ended,
                )
            }
            Request::Broadcast { tab, data } => {
                let (data, count) = (data.as_ptr(), data.len());
                propolisk_tool_broadcast(
                    memory, ads, six, adp, *tab, data, count, frame, room, length, wake, ended,
                )
            }
            Request::Initialise => {
                propolisk_tool_initialise(memory, ads, six, adp, frame, room, length, wake, ended)
            }
        }
    }
}

/// DATA has room for 116 octets.
pub fn octet(memory: &mut Lent, octet: u8, frame: &mut Lent, cells: &mut Cells, data: &mut Lent) -> u8 {
    assert_eq!(data.count(), 116);
    let room = frame.count();
    unsafe {
        propolisk_tool_octet(
            memory.pointer(),
            octet,
            frame.pointer(),
            room,
            &mut cells.length,
            &mut cells.ended,
            data.pointer(),
            &mut cells.count,
        )
    }
}

pub fn gap(memory: &mut Lent) -> u8 {
    unsafe { propolisk_tool_gap(memory.pointer()) }
}

pub fn session_end(memory: &mut Lent) -> u8 {
    unsafe { propolisk_tool_session_end(memory.pointer()) }
}
