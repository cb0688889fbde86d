//! 02, E10: files with long records, what the reader makes of them, and what the reader before E10 did.

use crate::bench::{self, ADDRESS, FOREIGN, LONG_SAMPLE};
use crate::hex;
use crate::programs;
use crate::record::{LABEL, RAW};
use crate::report::{same, Case, Disagreement};
use crate::rng::Rng;
use crate::swap::{self, Fault, Item, Record, LONG, LONGEST_CURVE, LONGEST_FILE};

/// The octets of an item of fixed length, for offsets that are added up here.
const ADDRESS_WITH_TAB: usize = 7;
const KIND: usize = 1;

/// No octet of UTF-8, so that a reader is seen to take it in raw data alone.
const NO_TEXT: u8 = 0xFF;

/// A list of records, and the fault of its file, if it has one.
pub struct Edge {
    pub records: Vec<Record>,
    pub fault: Option<Fault>,
}

fn good(records: Vec<Record>) -> Edge {
    Edge { records, fault: None }
}

fn bad(records: Vec<Record>, item: Item, offset: usize) -> Edge {
    Edge { records, fault: Some(Fault { item, offset }) }
}

fn record(tab: u8, kind: u8, count: usize) -> Record {
    let octet = if kind == LONG { NO_TEXT } else { b'a' };
    Record { ads: ADDRESS, tab, kind, data: vec![octet; count] }
}

/// One record, whose kind stands at 8 and whose length stands at 9.
fn alone(kind: u8, count: usize) -> Vec<Record> {
    vec![record(0x0C, kind, count)]
}

/// The files about each of E10's limits.
pub fn edges() -> Vec<Edge> {
    let mut edges: Vec<Edge> =
        [0, 1, 116, 117, 4_095, 4_096].map(|count| good(alone(LONG, count))).into_iter().collect();
    edges.push(bad(alone(LONG, 4_097), Item::Length, 9));
    for kind in [RAW, LABEL] {
        edges.push(good(alone(kind, 116)));
        edges.push(bad(alone(kind, 117), Item::Length, 9));
    }
    edges.push(good(alone(LONG, 3)));
    edges.extend((LONG + 1..=u8::MAX).map(|kind| bad(alone(kind, 3), Item::Kind, 8)));
    edges.push(good(curves(LONGEST_FILE)));
    edges.push(bad(curves(LONGEST_FILE + 1), Item::File, LONGEST_FILE));
    edges.extend((0..3).map(|place| good(among_others(place))));
    edges.push(good(of_two_stations()));
    edges.push(good(in_a_row()));
    edges
}

/// Fifteen full curves, and a shorter one that makes the file so long.
pub fn curves(file: usize) -> Vec<Record> {
    let mut records: Vec<Record> = (1..=15).map(|tab| record(tab, LONG, LONGEST_CURVE)).collect();
    let without = swap::encode(&records).len() + ADDRESS_WITH_TAB + KIND;
    // The length of the last curve takes two octets.
    records.push(record(16, LONG, file - without - 2));
    records
}

/// A long record as the first, second or third of a file.
fn among_others(place: usize) -> Vec<Record> {
    let mut records = vec![record(1, RAW, 4), record(2, LABEL, 5)];
    records.insert(place, record(0, LONG, 130));
    (0..).zip(&mut records).for_each(|(tab, record)| record.tab = tab);
    records
}

/// Long records first, between and last of each station.
fn of_two_stations() -> Vec<Record> {
    let kinds = [LONG, RAW, LONG, LONG, LABEL, LONG];
    let own: Vec<Record> = (0..).zip(kinds).map(|(tab, kind)| record(tab, kind, tab.into())).collect();
    let foreign = own.iter().map(|record| Record { ads: FOREIGN, ..record.clone() });
    own.iter().cloned().chain(foreign).collect()
}

/// As many long records in a row as one station can have, with another kind a third and two thirds of the way.
fn in_a_row() -> Vec<Record> {
    let kind = |tab: u8| match tab {
        0x55 => RAW,
        0xAA => LABEL,
        _ => LONG,
    };
    (0..=u8::MAX).map(|tab| record(tab, kind(tab), 1)).collect()
}

/// Where the kind of the first long record stands, by adding up the octets of all that comes before it.
fn kind_of_first_long(records: &[Record]) -> Option<usize> {
    // No count or length here needs three octets.
    let number = |value: usize| if value < 128 { 1 } else { 2 };
    let octets = |record: &Record| {
        let length = record.data.len();
        ADDRESS_WITH_TAB + KIND + number(length) + length
    };
    let place = records.iter().position(|record| record.kind == LONG)?;
    let before: usize = records[..place].iter().map(octets).sum();
    Some(number(records.len()) + before + ADDRESS_WITH_TAB)
}

/// "An old reader that meets kind 2 gives 18 at that kind", whatever stands after it; a good file without a
/// long record it reads as ever.
pub fn met_by_old_reader(rng: &mut Rng, records: &[Record]) -> Case {
    let mut file = swap::encode(records);
    let Some(offset) = kind_of_first_long(records) else {
        return same(swap::read_before(&file), Ok(records.to_vec()), || hex::text(&file));
    };
    let expected = Err(Fault { item: Item::Kind, offset });
    same(swap::read_before(&file), expected.clone(), || hex::text(&file))?;
    file.truncate(offset + KIND);
    let rest = rng.below(30);
    file.extend(rng.octets(rest));
    same(swap::read_before(&file), expected, || hex::text(&file))
}

/// "Old files read as before": any file, good or damaged, gives what it gave the old reader, but where that met
/// a 2 as a kind; then it has a long record, or its fault comes later.
pub fn read_as_before(file: &[u8]) -> Case {
    let now = swap::read(file);
    match swap::read_before(file) {
        Err(Fault { item: Item::Kind, offset }) if file.get(offset) == Some(&LONG) => {
            let went_on = match now {
                Ok(records) => kind_of_first_long(&records) == Some(offset),
                Err(fault) => fault.offset > offset,
            };
            same(went_on, true, || hex::text(file))
        }
        before => same(now, before, || hex::text(file)),
    }
}

/// An edge's verdict, and the old reader's, which says the same unless it comes to a long record.
fn edge_case(rng: &mut Rng, edge: &Edge) -> Case {
    let file = swap::encode(&edge.records);
    let verdict = edge.fault.map_or(Ok(edge.records.clone()), Err);
    same(swap::read(&file), verdict, || hex::text(&file))?;
    if file.len() <= LONGEST_FILE && (edge.fault.is_none() || edge.records[0].kind == LONG) {
        met_by_old_reader(rng, &edge.records)?;
    }
    read_as_before(&file)
}

/// A file cut at each place, and altered and lengthened there by values about those of kinds and of forms.
fn damaged_everywhere(file: &[u8]) -> Result<usize, Disagreement> {
    for place in 0..file.len() {
        read_as_before(&file[..place])?;
        for octet in [0, 1, 2, 3, 0x7F, 0x80, 0x82, 0xFF] {
            let mut altered = file.to_vec();
            altered[place] = octet;
            read_as_before(&altered)?;
            altered.insert(place, octet);
            read_as_before(&altered)?;
        }
    }
    Ok(17 * file.len())
}

/// The edges, damage at every place of the small ones, every fault of the bench, and random files: good, with a
/// bit turned, cut, lengthened, or with two records exchanged.
pub fn old_reader(rng: &mut Rng, cases: usize) -> Result<usize, Disagreement> {
    let edges = edges();
    let mut tried = edges.len() + bench::FAULTY_FILES.len();
    for edge in &edges {
        edge_case(rng, edge)?;
    }
    for (file, _, _) in bench::FAULTY_FILES {
        read_as_before(&hex::octets(file))?;
    }
    tried += damaged_everywhere(&hex::octets(LONG_SAMPLE))?;
    for records in [among_others(0), among_others(1), among_others(2), of_two_stations()] {
        tried += damaged_everywhere(&swap::encode(&records))?;
    }
    for _ in 0..cases {
        let records = bench::random_records(rng);
        met_by_old_reader(rng, &records)?;
        read_as_before(&programs::random_file(rng))?;
    }
    Ok(tried + 2 * cases)
}
