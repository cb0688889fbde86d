//! The swap file and what `swaplist` prints: 01, Swap file, and 02, E10.

use crate::frame::{Address, Number};
use crate::hex;
use crate::number;
use crate::record::{LABEL, RAW};
use crate::utf8::{self, Characters};

/// 02, E10: the kind of a long record, which is raw, and which no card has.
pub const LONG: u8 = 2;

#[derive(Clone, PartialEq, Debug)]
pub struct Record {
    pub ads: Address,
    pub tab: u8,
    pub kind: u8,
    pub data: Vec<u8>,
}

/// What can be bad: a file that is too long, or one of 01's items.
#[derive(Clone, Copy, PartialEq, Debug)]
pub enum Item {
    File,
    Count,
    AddressWithTab,
    Kind,
    Length,
    Data,
    Rest,
}

/// The offset that comes with 18, and what is bad there, so that a kind is told from any other octet.
#[derive(Clone, Copy, PartialEq, Debug)]
pub struct Fault {
    pub item: Item,
    pub offset: usize,
}

pub const LONGEST_FILE: usize = 65_536;
const MOST_RECORDS: usize = 4_096;
pub const LONGEST_DATA: usize = 116;
pub const LONGEST_CURVE: usize = 4_096;

/// What a reader holds a file to: how it reads a number, and the kinds that it knows, each with the most octets
/// of its data.
struct Rules {
    number: fn(&[u8]) -> Option<(usize, usize)>,
    kinds: &'static [(u8, usize)],
}

/// 01, Swap file: "kind 1 (0 raw, 1 label)", "length 0 to 116".
const BEFORE: Rules =
    Rules { number: number::read_before, kinds: &[(RAW, LONGEST_DATA), (LABEL, LONGEST_DATA)] };

/// 02, E10: "a raw kind, 2, long record, length 0 to 4,096; kinds 0 and 1 are held to 116".
const NOW: Rules = Rules {
    number: number::read,
    kinds: &[(RAW, LONGEST_DATA), (LABEL, LONGEST_DATA), (LONG, LONGEST_CURVE)],
};

/// The part of the file that has not been read, known by where it starts, and the rules it is read by.
struct Rest<'a> {
    file: &'a [u8],
    at: usize,
    rules: &'static Rules,
}

impl<'a> Rest<'a> {
    /// The fault of an item that starts here.
    fn bad(&self, item: Item) -> Fault {
        Fault { item, offset: self.at }
    }

    /// The next octets, or a fault at their start where the end cuts them.
    fn take(&mut self, item: Item, count: usize) -> Result<&'a [u8], Fault> {
        let taken = self.file.get(self.at..self.at + count).ok_or(self.bad(item))?;
        self.at += count;
        Ok(taken)
    }

    /// Count or length, within the limit of this item.
    fn number(&mut self, item: Item, limit: usize) -> Result<usize, Fault> {
        let number = (self.rules.number)(&self.file[self.at..]);
        let (value, octets) = number.filter(|(value, _)| *value <= limit).ok_or(self.bad(item))?;
        self.at += octets;
        Ok(value)
    }

    /// Address with TAB, one item, above that of the record before.
    fn address_with_tab(&mut self, before: Option<&Record>) -> Result<(Address, u8), Fault> {
        let bad = self.bad(Item::AddressWithTab);
        let item = self.take(Item::AddressWithTab, 7)?;
        let ads: Address = item[..6].try_into().expect("six octets");
        let tab = item[6];
        match before {
            Some(before) if (before.ads, before.tab) >= (ads, tab) => Err(bad),
            _ => Ok((ads, tab)),
        }
    }

    /// A kind that the rules know, with the most octets of its data.
    fn kind(&mut self) -> Result<(u8, usize), Fault> {
        let bad = self.bad(Item::Kind);
        let octet = self.take(Item::Kind, 1)?[0];
        self.rules.kinds.iter().find(|(kind, _)| *kind == octet).copied().ok_or(bad)
    }

    fn data(&mut self, kind: u8, length: usize) -> Result<Vec<u8>, Fault> {
        let bad = self.bad(Item::Data);
        let data = self.take(Item::Data, length)?;
        if kind == LABEL && utf8::characters(data).is_none() {
            return Err(bad);
        }
        Ok(data.to_vec())
    }

    fn record(&mut self, before: Option<&Record>) -> Result<Record, Fault> {
        let (ads, tab) = self.address_with_tab(before)?;
        let (kind, longest) = self.kind()?;
        let length = self.number(Item::Length, longest)?;
        let data = self.data(kind, length)?;
        Ok(Record { ads, tab, kind, data })
    }
}

/// The records of a file, or the start of its first bad item.
pub fn read(file: &[u8]) -> Result<Vec<Record>, Fault> {
    read_by(&NOW, file)
}

/// The reader before E10, kept because E10 asks what it makes of a long record: 18 at its kind.
pub fn read_before(file: &[u8]) -> Result<Vec<Record>, Fault> {
    read_by(&BEFORE, file)
}

/// Reads a file by rules; a file too long is tested first.
fn read_by(rules: &'static Rules, file: &[u8]) -> Result<Vec<Record>, Fault> {
    if file.len() > LONGEST_FILE {
        return Err(Fault { item: Item::File, offset: LONGEST_FILE });
    }
    let mut rest = Rest { file, at: 0, rules };
    let count = rest.number(Item::Count, MOST_RECORDS)?;
    let mut records: Vec<Record> = Vec::new();
    for _ in 0..count {
        let record = rest.record(records.last())?;
        records.push(record);
    }
    if rest.at < file.len() {
        return Err(rest.bad(Item::Rest));
    }
    Ok(records)
}

/// The record that stands at an offset, judged by its own items alone, and the offset at which it ends.
#[cfg(part_swap)]
pub fn record_at(file: &[u8], at: usize) -> Option<(Record, usize)> {
    if at > file.len() {
        return None;
    }
    let mut rest = Rest { file, at, rules: &NOW };
    let record = rest.record(None).ok()?;
    Some((record, rest.at))
}

/// The file that a list of records would make, faulty or not.
pub fn encode(records: &[Record]) -> Vec<u8> {
    let mut file = number::shortest_form(records.len());
    for record in records {
        file.extend(record.ads);
        file.push(record.tab);
        file.push(record.kind);
        file.extend(number::shortest_form(record.data.len()));
        file.extend(&record.data);
    }
    file
}

#[derive(Clone, Copy, PartialEq, Debug)]
pub enum Written {
    /// The count of octets in the lent buffer; those past them are kept.
    File(usize),
    /// 18 with the reader's offset, or 17; the buffer is kept.
    Refused(Number, Option<Fault>),
}

/// The writer: 18 with the reader's offset, then 17.
pub fn write(records: &[Record], buffer: &mut [u8]) -> Written {
    let file = encode(records);
    if let Err(fault) = read(&file) {
        return Written::Refused(18, Some(fault));
    }
    if buffer.len() < file.len() {
        return Written::Refused(17, None);
    }
    buffer[..file.len()].copy_from_slice(&file);
    Written::File(file.len())
}

/// What `swaplist` prints.
pub fn listing(file: &[u8]) -> String {
    match read(file) {
        Ok(records) => {
            let lines: String = records.iter().map(line).collect();
            format!("records {}\n{lines}", records.len())
        }
        Err(fault) => format!("refused 18 at {}\n", fault.offset),
    }
}

fn line(record: &Record) -> String {
    let ads = hex::text(&record.ads);
    let octets = record.data.len();
    let described = match (record.kind, utf8::characters(&record.data)) {
        (LABEL, Some(Characters(count))) => format!("label octets {octets} characters {count}"),
        (LONG, _) => format!("long octets {octets}"),
        _ => format!("raw octets {octets}"),
    };
    format!("{ads} {:02X} {described}\n", record.tab)
}
