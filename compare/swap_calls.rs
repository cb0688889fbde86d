//! Our swap file calls beside the model: the verdict, the cursor, a station's records, those to program, the
//! writer and the list, on good and damaged files.

use crate::bench;
use crate::ffi_swap::{self as ours, Added, Cells};
use crate::ffi::Lent;
use crate::frame::Address;
use crate::hex;
use crate::long_records;
use crate::number;
use crate::programs::{full, rising};
use crate::random_text;
use crate::record::{LABEL, RAW};
use crate::report::{same, Case, Disagreement};
use crate::rng::Rng;
use crate::swap::{self, Record, LONG, LONGEST_CURVE, LONGEST_FILE};

const HEADS: usize = 40_960;
const CONTENTS: usize = 65_536;

/// What cells hold before a call.
const BEFORE: usize = 777;

/// A record that keeps the rules or breaks one of them: a bad kind, data over 116 octets or, in a long record,
/// over 4,096, ill-formed text. Few are longer than 116, so that a run stays short.
fn record(rng: &mut Rng) -> Record {
    let (kind, count) = (rng.pick(&[RAW, LABEL, LABEL, LONG]), rng.below(20));
    let data = if kind == LABEL { random_text::well_formed(rng, count) } else { rng.octets(count) };
    let ads = [0, 0, 0, rng.below(2) as u8, rng.below(3) as u8, rng.below(3) as u8];
    let mut record = Record { ads, tab: rng.below(4) as u8, kind, data };
    match rng.below(24) {
        0 => record.kind = rng.pick(&[3, 4, 128, 130, 255]),
        1 => record.data = vec![b'a'; rng.pick(&[115, 116, 117, 128, 300])],
        2 => record.data = rng.pick(&random_text::ILL_FORMED).to_vec(),
        3 => (record.kind, record.data) = (LONG, bench::random_curve(rng, LONGEST_CURVE + 1)),
        _ => {}
    }
    record
}

/// Records in order, each with another ADS and TAB; at times two of them exchanged, or one of them twice.
fn records(rng: &mut Rng) -> Vec<Record> {
    if rng.once_in(3) {
        return bench::random_records(rng);
    }
    let mut records: Vec<Record> = (0..rng.below(9)).map(|_| record(rng)).collect();
    records.sort_by_key(rank);
    records.dedup_by_key(|record| rank(record));
    if records.len() > 1 {
        let place = rng.below(records.len() - 1);
        match rng.below(12) {
            0 => records.swap(place, place + 1),
            1 => records.insert(place, records[place].clone()),
            _ => {}
        }
    }
    records
}

fn rank(record: &Record) -> (Address, u8) {
    (record.ads, record.tab)
}

/// A file, damaged once or twice in about half of the cases: cut, lengthened, an octet altered, at times to a
/// kind, or the count in a longer form.
fn damaged(rng: &mut Rng, mut file: Vec<u8>) -> Vec<u8> {
    for _ in 0..rng.below(3) {
        let place = rng.below(file.len() + 1);
        match rng.below(8) {
            0 => file.truncate(place),
            1 => file.insert(place, rng.octet()),
            2 => file.extend(rng.octets(3)),
            3 if !file.is_empty() => {
                file[0] |= 0x80;
                file.insert(1, 0);
            }
            4 if place < file.len() => file[place] ^= 1 << rng.below(8),
            5 if place < file.len() => file[place] = rng.octet(),
            6 if place < file.len() => file[place] = rng.pick(&[RAW, LABEL, LONG, 3]),
            _ => {}
        }
    }
    file
}

/// The verdict in its two cells; the cell that is not named is kept.
fn verdict_case(file: &[u8]) -> Case {
    let (mut lent, mut records, mut offset) = (Lent::new(file), BEFORE, BEFORE);
    let number = ours::verdict(&mut lent, &mut records, &mut offset);
    let expected = match swap::read(file) {
        Ok(list) => (0, list.len(), BEFORE),
        Err(fault) => (18, BEFORE, fault.offset),
    };
    same(
        (number, records, offset, lent.still_holds(file)),
        (expected.0, expected.1, expected.2, true),
        || hex::text(file),
    )
}

fn cells(at: usize, left: usize) -> Cells {
    Cells { at, left, found: 9, ads: [0xEE; 6], tab: 0xEE, kind: 0xEE, from: BEFORE, length: BEFORE }
}

/// The calls that ask for a record from a cursor on: any, one of a station, one to program a station with.
#[derive(Clone, Copy, Debug)]
enum Call {
    Next,
    For(Address),
    ToProgram(Address),
}

impl Call {
    /// All three for one station.
    fn all(station: Address) -> [Call; 3] {
        [Call::Next, Call::For(station), Call::ToProgram(station)]
    }

    /// Whether the call gives this record, and does not pass over it; 02, E10: "The tool passes over long
    /// records when it programs".
    fn gives(self, record: &Record) -> bool {
        match self {
            Call::Next => true,
            Call::For(station) => record.ads == station,
            Call::ToProgram(station) => record.ads == station && [RAW, LABEL].contains(&record.kind),
        }
    }

    fn make(self, file: &mut Lent, cells: &mut Cells) -> u8 {
        match self {
            Call::Next => ours::next(file, cells),
            Call::For(station) => ours::next_for(file, &station, cells),
            Call::ToProgram(station) => ours::next_to_program(file, &station, cells),
        }
    }
}

/// A call that asks for a record. Gives the cells after it.
fn next_case(file: &[u8], before: &Cells, call: Call) -> Result<Cells, Disagreement> {
    let (mut lent, mut after) = (Lent::new(file), before.clone());
    let number = call.make(&mut lent, &mut after);
    let expected = expected_next(file, before, call);
    let gave = (number, after.clone(), lent.still_holds(file));
    same(gave, (expected.0, expected.1, true), || format!("{} {before:?} {call:?}", hex::text(file)))?;
    Ok(after)
}

/// The first record from the cursor on that the call gives. At the end, and at 18, only the mark changes.
fn expected_next(file: &[u8], before: &Cells, call: Call) -> (u8, Cells) {
    let nothing = Cells { found: 0, ..before.clone() };
    let (mut at, mut left) = (before.at, before.left);
    while left > 0 {
        let Some((record, end)) = swap::record_at(file, at) else { return (18, nothing) };
        (at, left) = (end, left - 1);
        if call.gives(&record) {
            let length = record.data.len();
            let Record { ads, tab, kind, .. } = record;
            return (0, Cells { at, left, found: 1, ads, tab, kind, from: end - length, length });
        }
    }
    (0, nothing)
}

/// The cursor of an accepted file's first record, after the count, with all records left; no cursor for a
/// faulty one, and 18 with the offset. Each cell that is not named is kept.
fn start_case(file: &[u8]) -> Result<Option<Cells>, Disagreement> {
    let (mut lent, mut at, mut left, mut offset) = (Lent::new(file), BEFORE, BEFORE, BEFORE);
    let number = ours::start(&mut lent, &mut at, &mut left, &mut offset);
    let expected = match swap::read(file) {
        Ok(list) => (0, number::shortest_form(list.len()).len(), list.len(), BEFORE),
        Err(fault) => (18, BEFORE, BEFORE, fault.offset),
    };
    same(
        ((number, at, left, offset), lent.still_holds(file)),
        (expected, true),
        || hex::text(file),
    )?;
    Ok((number == 0).then(|| cells(at, left)))
}

/// From the start to the end: of an accepted file exactly the records that the call gives, and no more steps
/// than these and one for the end. From a cursor that no start gave, as far as records stand.
fn walk(file: &[u8], call: Call) -> Result<usize, Disagreement> {
    let first = start_case(file)?;
    let (mut here, mut seen) = (first.clone().unwrap_or(cells(1, 20)), vec![]);
    loop {
        let after = next_case(file, &here, call)?;
        if after.found == 0 {
            break;
        }
        seen.push((after.ads, after.tab));
        here = after;
    }
    let steps = seen.len() + 1;
    if first.is_some() {
        let list = swap::read(file).expect("a file with a first cursor");
        let given: Vec<(Address, u8)> = list.iter().filter(|record| call.gives(record)).map(rank).collect();
        same(seen, given, || format!("{} {call:?}", hex::text(file)))?;
    }
    Ok(steps)
}

/// The calls in any order, each from the cursor that the one before it left.
fn mixed_walk(rng: &mut Rng, file: &[u8], station: Address) -> Result<usize, Disagreement> {
    let (first, mut steps) = (start_case(file)?, 0);
    let mut here = first.unwrap_or(cells(1, 20));
    while here.found != 0 {
        here = next_case(file, &here, rng.pick(&Call::all(station)))?;
        steps += 1;
    }
    Ok(steps)
}

/// Files that a cursor over their count would walk to an end, though the reader refuses them: no octets, a count
/// in a longer form, falling records.
fn refused_starts() -> Result<usize, Disagreement> {
    let falling: Vec<Record> = rising(2, 3).into_iter().rev().collect();
    let files = [vec![], vec![0x81, 0x00], swap::encode(&falling)];
    for file in &files {
        same(start_case(file)?, None, || hex::text(file))?;
    }
    Ok(files.len())
}

/// As many records as a file can have, long but for the last, so that a call passes over all others at once.
fn long_but_the_last() -> Result<usize, Disagreement> {
    let mut records = rising(4_096, 0);
    let (last, others) = records.split_last_mut().expect("records");
    others.iter_mut().for_each(|record| record.kind = LONG);
    let station = last.ads;
    walk(&swap::encode(&records), Call::ToProgram(station))
}

/// E10's files: the verdict, and every walk for each station and for one that has no record.
fn long_files() -> Result<usize, Disagreement> {
    let mut tried = long_but_the_last()?;
    for edge in long_records::edges() {
        let file = swap::encode(&edge.records);
        verdict_case(&file)?;
        tried += 1;
        for station in [bench::ADDRESS, bench::FOREIGN, [0; 6]] {
            for call in Call::all(station) {
                tried += walk(&file, call)?;
            }
        }
    }
    Ok(tried)
}

/// A random file: its verdict, walks, and calls from a cursor that no start gave; and what the reader before
/// E10 makes of it, damaged and not.
fn random_case(rng: &mut Rng) -> Result<usize, Disagreement> {
    let records = records(rng);
    let file = swap::encode(&records);
    if swap::read(&file).is_ok() {
        long_records::met_by_old_reader(rng, &records)?;
    }
    let file = damaged(rng, file);
    long_records::read_as_before(&file)?;
    verdict_case(&file)?;
    let station = swap::record_at(&file, 1).map_or([0, 0, 0, 0, 1, 1], |(record, _)| record.ads);
    let anywhere = rng.below(file.len() + 2);
    let at = rng.pick(&[anywhere, file.len(), usize::MAX]);
    let left = rng.pick(&[0, 1, 2, usize::MAX]);
    let mut tried = 1 + mixed_walk(rng, &file, station)?;
    for call in Call::all(station) {
        tried += walk(&file, call)? + 1;
        next_case(&file, &cells(at, left), call)?;
    }
    Ok(tried)
}

pub fn reading(rng: &mut Rng, cases: usize) -> Result<usize, Disagreement> {
    let mut tried = refused_starts()? + long_files()?;
    let most = tried + cases;
    while tried < most {
        tried += random_case(rng)?;
    }
    Ok(tried)
}

/// Heads of ten octets, and their data one after the other.
fn as_lent(records: &[Record]) -> (Vec<u8>, Vec<u8>) {
    let (mut heads, mut contents) = (vec![], vec![]);
    for record in records {
        heads.extend(record.ads);
        heads.extend([record.tab, record.kind]);
        heads.extend((record.data.len() as u16).to_le_bytes());
        contents.extend(&record.data);
    }
    (heads, contents)
}

/// The file of heads and contents, whatever they hold: the count of whole heads, then each with its data.
/// Where the data runs out the file ends there; what is left over of heads and data follows the last record.
fn would_be(heads: &[u8], contents: &[u8]) -> Vec<u8> {
    let mut file = number::shortest_form(heads.len() / 10);
    let mut rest = contents;
    for head in heads.chunks_exact(10) {
        let length = u16::from_le_bytes([head[8], head[9]]) as usize;
        file.extend(&head[..8]);
        file.extend(number::shortest_form(length));
        file.extend(&rest[..length.min(rest.len())]);
        if rest.len() < length {
            return file;
        }
        rest = &rest[length..];
    }
    file.extend(heads.chunks_exact(10).remainder());
    file.extend(rest);
    file
}

fn write_case(heads: &[u8], contents: &[u8], buffer: &[u8]) -> Case {
    let (mut lent_heads, mut lent_contents, mut room) =
        (Lent::new(heads), Lent::new(contents), Lent::new(buffer));
    let (mut length, mut offset) = (BEFORE, BEFORE);
    let number = ours::write(&mut lent_heads, &mut lent_contents, &mut room, &mut length, &mut offset);
    let kept = lent_heads.still_holds(heads) && lent_contents.still_holds(contents) && room.guards_kept();
    let file = would_be(heads, contents);
    let mut after = buffer.to_vec();
    let expected = match swap::read(&file) {
        Err(fault) => (18, BEFORE, fault.offset),
        Ok(_) if buffer.len() < file.len() => (17, BEFORE, BEFORE),
        Ok(_) => {
            after[..file.len()].copy_from_slice(&file);
            (0, file.len(), BEFORE)
        }
    };
    let gave = (number, length, offset, kept, room.octets() == after);
    same(gave, (expected.0, expected.1, expected.2, true, true), || {
        format!("heads {} data {} buffer of {}", hex::text(heads), hex::text(contents), buffer.len())
    })
}

/// Files of records, and the same heads and data cut or lengthened; then files about the limits.
pub fn writing(rng: &mut Rng, cases: usize) -> Result<usize, Disagreement> {
    for _ in 0..cases {
        let (mut heads, mut contents) = as_lent(&records(rng));
        match rng.below(12) {
            0 => heads.truncate(rng.below(heads.len() + 1)),
            1 => contents.truncate(rng.below(contents.len() + 1)),
            2 => heads.extend(rng.octets(3)),
            3 => contents.extend(rng.octets(3)),
            4 if !heads.is_empty() => {
                let place = rng.below(heads.len());
                heads[place] = rng.octet();
            }
            _ => {}
        }
        let whole = would_be(&heads, &contents).len();
        let room = rng.pick(&[whole, whole + 5, whole.saturating_sub(1), 0]);
        write_case(&heads, &contents, &rng.octets(room))?;
    }
    let mut edges = vec![full(), rising(4_096, 0), rising(4_097, 0), rising(524, 116), rising(525, 116)];
    edges.extend(long_records::edges().into_iter().map(|edge| edge.records));
    for (heads, contents) in edges.iter().map(|records| as_lent(records)) {
        write_case(&heads, &contents, &vec![0xEE; CONTENTS])?;
        write_case(&heads, &[&contents[..], &[0]].concat(), &[])?;
    }
    Ok(cases + 2 * edges.len())
}

/// A list in the making: our arrays and counts, and what they should be.
struct Making {
    heads: Lent,
    contents: Lent,
    counts: (usize, usize),
    expected_heads: Vec<u8>,
    expected_contents: Vec<u8>,
}

impl Making {
    fn new(heads: Vec<u8>, contents: Vec<u8>, counts: (usize, usize)) -> Making {
        let (lent_heads, lent_contents) = (Lent::new(&heads), Lent::new(&contents));
        Making {
            heads: lent_heads,
            contents: lent_contents,
            counts,
            expected_heads: heads,
            expected_contents: contents,
        }
    }

    /// The front parts with the record in its place: after every head at the front whose ADS and TAB are no
    /// higher.
    fn with(&self, record: &Added) -> (Vec<u8>, Vec<u8>) {
        let mut heads = self.expected_heads[..HEADS.min(self.counts.0.saturating_mul(10))].to_vec();
        let mut contents = self.expected_contents[..CONTENTS.min(self.counts.1)].to_vec();
        let new = [&record.ads[..], &[record.tab]].concat();
        let before: Vec<&[u8]> = heads.chunks_exact(10).take_while(|head| head[..7] <= new[..]).collect();
        let from: usize = before.iter().map(|head| u16::from_le_bytes([head[8], head[9]]) as usize).sum();
        let place = 10 * before.len();
        let length = record.data.len();
        let head = [&new[..], &[record.kind, (length % 256) as u8, (length / 256) as u8]].concat();
        heads.splice(place..place, head);
        let from = from.min(contents.len());
        contents.splice(from..from, record.data.iter().copied());
        (heads, contents)
    }

    /// Adds a record; says whether it was kept.
    fn add(&mut self, record: &Added) -> Result<bool, Disagreement> {
        let mut offset = BEFORE;
        let counts = self.counts;
        let (heads, contents) = self.with(record);
        let number = ours::add(&mut self.heads, &mut self.contents, &mut self.counts, record, &mut offset);
        let expected = match swap::read(&would_be(&heads, &contents)) {
            Err(fault) => (18, counts, fault.offset),
            Ok(list) => {
                self.expected_heads[..heads.len()].copy_from_slice(&heads);
                self.expected_contents[..contents.len()].copy_from_slice(&contents);
                (0, (list.len(), contents.len()), BEFORE)
            }
        };
        let arrays = self.heads.still_holds(&self.expected_heads)
            && self.contents.still_holds(&self.expected_contents);
        same((number, self.counts, offset, arrays), (expected.0, expected.1, expected.2, true), || {
            format!("{counts:?} {record:?}")
        })?;
        Ok(number == 0)
    }
}

fn added(record: Record) -> Added {
    Added { ads: record.ads, tab: record.tab, kind: record.kind, data: record.data }
}

/// Records in any order; an accepted list is the sorted list, and the writer takes it. Then lists that no call
/// gave, and lists up to each limit.
pub fn listing(rng: &mut Rng, cases: usize) -> Result<usize, Disagreement> {
    let mut tried = 0;
    while tried < cases {
        let (heads, contents) = (vec![0xEE; HEADS], vec![0xEE; CONTENTS]);
        let mut list = Making::new(heads, contents, (0, 0));
        let mut kept = vec![];
        for _ in 0..40 {
            let record = record(rng);
            tried += 1;
            if list.add(&added(record.clone()))? {
                kept.push(record);
            }
        }
        kept.sort_by_key(rank);
        let (heads, contents) = as_lent(&kept);
        same(list.counts, (kept.len(), contents.len()), || "counts".into())?;
        same(list.heads.octets().starts_with(&heads), true, || "heads in order".into())?;
        write_case(&heads, &contents, &[0; CONTENTS])?;
    }
    tried += lists_of_no_call(rng)? + lists_of_edges(rng)?;
    let limits =
        [(rising(4_096, 0), 0), (full(), LONGEST_FILE), (long_records::curves(LONGEST_FILE), LONGEST_FILE)];
    for (records, offset) in limits {
        tried += up_to(rng, records, offset)?;
    }
    Ok(tried)
}

/// Each of E10's files made as a list, record by record; the last one is kept exactly if the file has no fault.
fn lists_of_edges(rng: &mut Rng) -> Result<usize, Disagreement> {
    let mut tried = 0;
    for edge in long_records::edges() {
        let mut list = Making::new(rng.octets(HEADS), rng.octets(CONTENTS), (0, 0));
        let mut kept = true;
        for record in &edge.records {
            kept = list.add(&added(record.clone()))?;
            tried += 1;
        }
        same(kept, edge.fault.is_none(), || format!("{:?}", edge.fault))?;
    }
    Ok(tried)
}

/// Counts that the arrays cannot hold, heads that do not fit the data, and data that no array holds.
fn lists_of_no_call(rng: &mut Rng) -> Result<usize, Disagreement> {
    let cases = 400;
    for _ in 0..cases {
        let (mut heads, mut contents) = as_lent(&records(rng));
        let count = rng.pick(&[heads.len() / 10, 0, 1, 3, 4_095, 4_096, 4_097, usize::MAX]);
        let octets = rng.pick(&[contents.len(), 0, 5, 65_535, 65_536, usize::MAX]);
        heads.resize(HEADS, rng.octet());
        contents.resize(CONTENTS, rng.octet());
        let mut record = record(rng);
        if rng.once_in(8) {
            record.data = vec![0; rng.pick(&[65_530, 65_535, 65_536, 65_537, 70_000])];
        }
        Making::new(heads, contents, (count, octets)).add(&added(record))?;
    }
    Ok(cases)
}

/// A list filled from its end to its start, so that each record goes before all others; then one more, which
/// has no room.
fn up_to(rng: &mut Rng, records: Vec<Record>, offset: usize) -> Result<usize, Disagreement> {
    let mut list = Making::new(rng.octets(HEADS), rng.octets(CONTENTS), (0, 0));
    for record in records.iter().rev() {
        same(list.add(&added(record.clone()))?, true, || format!("{record:?}"))?;
    }
    let more = Record { ads: [9; 6], tab: 0, kind: RAW, data: vec![] };
    let with: Vec<Record> = [&records[..], &[more.clone()]].concat();
    let refused = swap::read(&swap::encode(&with)).map_err(|fault| fault.offset);
    same(refused, Err(offset), || "one more".into())?;
    same(list.add(&added(more))?, false, || "one more".into())?;
    Ok(records.len() + 1)
}
