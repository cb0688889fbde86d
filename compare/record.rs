//! The records of a card: 01, The card.

use crate::frame::Number;
use crate::utf8::{self, Characters, Octets};

pub const RAW: u8 = 0;
pub const LABEL: u8 = 1;

/// A kind is a plain octet, because setup must refuse those that are none (12). A mark is 0 or 1.
#[derive(Clone, PartialEq, Debug)]
pub struct Record {
    pub tab: u8,
    pub kind: u8,
    pub octet_limit: Octets,
    /// Of a label alone; a raw record has none.
    pub character_limit: Characters,
    pub readable: u8,
    pub open_to_programming: u8,
    pub open_to_transfer: u8,
    pub data: Vec<u8>,
}

impl Record {
    /// 01, The card: data is acceptable if within the octet limit (7),
    /// well-formed (8), within the character limit (9).
    pub fn accepts(&self, data: &[u8]) -> Result<(), Number> {
        if Octets(data.len()) > self.octet_limit {
            return Err(7);
        }
        if self.kind == LABEL {
            let count = utf8::characters(data).ok_or(8)?;
            if count > self.character_limit {
                return Err(9);
            }
        }
        Ok(())
    }

    /// 01, The card: known kind, limits 0 to 116.
    fn described_well(&self) -> bool {
        (self.kind == RAW || self.kind == LABEL)
            && self.octet_limit <= Octets(116)
            && (self.kind == RAW || self.character_limit <= Characters(116))
    }
}

/// 01, The card: at most 32 records, no TAB twice, known kinds, limits in range (else 12).
pub fn keep_setup_rules(records: &[Record]) -> bool {
    let no_tab_twice =
        (0..records.len()).all(|i| records[..i].iter().all(|earlier| earlier.tab != records[i].tab));
    records.len() <= 32 && no_tab_twice && records.iter().all(Record::described_well)
}
