//! Our exported C calls. Each part stands behind a `--cfg` of its own, so that the program can be linked
//! with the archives that exist.

/// Octets lent to a call, between guard octets, so that a write to them or beside them is seen.
/// They are lent from a `Vec` that is ours to change, even to calls that only read; otherwise the compiler
/// could take the test that nothing was written for always true.
pub struct Lent {
    room: Vec<u8>,
}

const GUARD: [u8; 16] = [0xA5; 16];

impl Lent {
    pub fn new(octets: &[u8]) -> Lent {
        Lent { room: [&GUARD, octets, &GUARD].concat() }
    }

    pub fn pointer(&mut self) -> *mut u8 {
        self.room[GUARD.len()..].as_mut_ptr()
    }

    pub fn count(&self) -> usize {
        self.room.len() - 2 * GUARD.len()
    }

    pub fn octets(&self) -> &[u8] {
        &self.room[GUARD.len()..GUARD.len() + self.count()]
    }

    pub fn guards_kept(&self) -> bool {
        self.room.starts_with(&GUARD) && self.room.ends_with(&GUARD)
    }

    pub fn still_holds(&self, octets: &[u8]) -> bool {
        self.octets() == octets && self.guards_kept()
    }
}

/// The archive libprimitive_exports.a: CRC, DES, labels.
#[cfg(part_primitives)]
pub mod primitives {
    use super::Lent;

    #[link(name = "primitive_exports", kind = "static")]
    extern "C" {
        fn propolisk_crc_key(octets: *const u8, count: usize) -> u16;
        /// C's bool, taken as an octet, so that a value other than 0 and 1 is seen.
        fn propolisk_crc_divisible(octets: *const u8, count: usize) -> u8;
        fn propolisk_des_encipher(key: *const u8, block: *mut u8);
        fn propolisk_des_decipher(key: *const u8, block: *mut u8);
        fn propolisk_label_fit(
            label: *const u8,
            count: usize,
            octet_limit: usize,
            character_limit: usize,
            octets: *mut usize,
            characters: *mut usize,
        ) -> u8;
    }

    pub fn crc_key(octets: &mut Lent) -> u16 {
        let count = octets.count();
        unsafe { propolisk_crc_key(octets.pointer(), count) }
    }

    pub fn crc_divisible(octets: &mut Lent) -> u8 {
        let count = octets.count();
        unsafe { propolisk_crc_divisible(octets.pointer(), count) }
    }

    /// Key and block hold 8 octets each.
    pub fn des_encipher(key: &mut Lent, block: &mut Lent) {
        unsafe { propolisk_des_encipher(key.pointer(), block.pointer()) }
    }

    /// Key and block hold 8 octets each.
    pub fn des_decipher(key: &mut Lent, block: &mut Lent) {
        unsafe { propolisk_des_decipher(key.pointer(), block.pointer()) }
    }

    /// The number, 0 where a front part is kept; its two counts, or at 8 the offset in the first.
    pub fn label_fit(label: &mut Lent, limits: (usize, usize), counts: &mut (usize, usize)) -> u8 {
        let count = label.count();
        unsafe {
            propolisk_label_fit(label.pointer(), count, limits.0, limits.1, &mut counts.0, &mut counts.1)
        }
    }
}

/// The archive libframe_exports.a: the builder and the reader of whole frames.
#[cfg(part_frames)]
pub mod frames {
    use super::Lent;
    use crate::frame::{Address, Block};

    /// COM and the fields that a frame can have; `station` is RSO's second ADS.
    #[derive(Clone, PartialEq, Debug)]
    pub struct Fields {
        pub code: u8,
        pub ads: Address,
        pub adp: u8,
        pub za1: Block,
        pub za2: Block,
        pub tab: u8,
        pub station: Address,
    }

    #[link(name = "frame_exports", kind = "static")]
    extern "C" {
        fn propolisk_frame_build(
            buffer: *mut u8,
            room: usize,
            code: u8,
            ads: *const Address,
            adp: u8,
            za1: *const Block,
            za2: *const Block,
            tab: u8,
            station: *const Address,
            data: *const u8,
            count: usize,
            length: *mut usize,
        ) -> u8;
        fn propolisk_frame_read(
            octets: *const u8,
            count: usize,
            code: *mut u8,
            ads: *mut Address,
            adp: *mut u8,
            za1: *mut Block,
            za2: *mut Block,
            tab: *mut u8,
            station: *mut Address,
            data: *mut u8,
            length: *mut usize,
        ) -> u8;
    }

    pub fn build(buffer: &mut Lent, fields: &Fields, data: &[u8], length: &mut usize) -> u8 {
        let room = buffer.count();
        unsafe {
            propolisk_frame_build(
                buffer.pointer(),
                room,
                fields.code,
                &fields.ads,
                fields.adp,
                &fields.za1,
                &fields.za2,
                fields.tab,
                &fields.station,
                data.as_ptr(),
                data.len(),
                length,
            )
        }
    }

    /// DATA has room for 116 octets.
    pub fn read(octets: &mut Lent, fields: &mut Fields, data: &mut [u8], length: &mut usize) -> u8 {
        assert_eq!(data.len(), 116);
        let count = octets.count();
        unsafe {
            propolisk_frame_read(
                octets.pointer(),
                count,
                &mut fields.code,
                &mut fields.ads,
                &mut fields.adp,
                &mut fields.za1,
                &mut fields.za2,
                &mut fields.tab,
                &mut fields.station,
                data.as_mut_ptr(),
                length,
            )
        }
    }
}

/// The archive libcard_exports.a: the card over lent memory.
#[cfg(part_card)]
pub mod card {
    use super::Lent;

    #[link(name = "card_exports", kind = "static")]
    extern "C" {
        fn propolisk_card_setup(
            memory: *mut u8,
            room: usize,
            address: *const u8,
            address_count: usize,
            key: *const u8,
            key_count: usize,
            count: u8,
            entries: *const u8,
        ) -> u8;
        fn propolisk_card_step_octet(
            memory: *mut u8,
            room: usize,
            octet: u8,
            na2: *const u8,
            na2_count: usize,
            reply: *mut u8,
            reply_room: usize,
            length: *mut usize,
        ) -> u8;
        fn propolisk_card_step_gap(memory: *mut u8, room: usize) -> u8;
        fn propolisk_card_step_session_end(memory: *mut u8, room: usize) -> u8;
        fn propolisk_card_meter_write(
            memory: *mut u8,
            room: usize,
            tab: u8,
            data: *const u8,
            count: usize,
        ) -> u8;
        fn propolisk_card_read(
            memory: *const u8,
            room: usize,
            tab: u8,
            data: *mut u8,
            length: *mut usize,
        ) -> u8;
    }

    /// The entries have 3,904 octets.
    pub fn setup(memory: &mut Lent, address: &mut Lent, key: &mut Lent, count: u8, entries: &mut Lent) -> u8 {
        assert_eq!(entries.count(), 3904);
        let (room, address_count, key_count) = (memory.count(), address.count(), key.count());
        unsafe {
            propolisk_card_setup(
                memory.pointer(),
                room,
                address.pointer(),
                address_count,
                key.pointer(),
                key_count,
                count,
                entries.pointer(),
            )
        }
    }

    pub fn step_octet(
        memory: &mut Lent,
        octet: u8,
        na2: &mut Lent,
        reply: &mut Lent,
        length: &mut usize,
    ) -> u8 {
        let (room, na2_count, reply_room) = (memory.count(), na2.count(), reply.count());
        unsafe {
            propolisk_card_step_octet(
                memory.pointer(),
                room,
                octet,
                na2.pointer(),
                na2_count,
                reply.pointer(),
                reply_room,
                length,
            )
        }
    }

    pub fn step_gap(memory: &mut Lent) -> u8 {
        let room = memory.count();
        unsafe { propolisk_card_step_gap(memory.pointer(), room) }
    }

    pub fn step_session_end(memory: &mut Lent) -> u8 {
        let room = memory.count();
        unsafe { propolisk_card_step_session_end(memory.pointer(), room) }
    }

    pub fn meter_write(memory: &mut Lent, tab: u8, data: &mut Lent) -> u8 {
        let (room, count) = (memory.count(), data.count());
        unsafe { propolisk_card_meter_write(memory.pointer(), room, tab, data.pointer(), count) }
    }

    /// The data has room for 116 octets.
    pub fn read(memory: &mut Lent, tab: u8, data: &mut Lent, length: &mut usize) -> u8 {
        assert_eq!(data.count(), 116);
        let room = memory.count();
        unsafe { propolisk_card_read(memory.pointer(), room, tab, data.pointer(), length) }
    }
}
