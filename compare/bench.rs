//! Self-tests on 01's own rows: labels, DATA limits, numbers, swap files, receiving; and on E1's labels and
//! E10's numbers and long records.

use crate::frame::{self, Address, Block, Body, Frame, Number};
use crate::hex::{self, Hex};
use crate::number;
use crate::random_text;
use crate::receiver::{Heard, Receiver};
use crate::record::{LABEL, RAW};
use crate::report::{same, Case, Disagreement};
use crate::rng::Rng;
use crate::swap::{self, Fault, Item, Written, LONG, LONGEST_CURVE, LONGEST_DATA};
use crate::tool::{Request, Tool};
use crate::utf8::{self, Characters, Fit, Octets};

pub const ADDRESS: Address = [0x11, 0x22, 0x33, 0x44, 0x55, 0x66];
pub const FOREIGN: Address = [0x11, 0x22, 0x33, 0x44, 0x55, 0x67];
pub const KEY: Block = [0x13, 0x34, 0x57, 0x79, 0x9B, 0xBC, 0xDF, 0xF1];
pub const NA1: Block = [0x01, 0x23, 0x45, 0x67, 0x89, 0xAB, 0xCD, 0xEF];
pub const NA2: Block = [0xFE, 0xDC, 0xBA, 0x98, 0x76, 0x54, 0x32, 0x10];

const fn kept(octets: usize, characters: usize) -> Fit {
    Fit::Kept(Octets(octets), Characters(characters))
}

const fn ill_formed_at(offset: usize) -> Fit {
    Fit::IllFormed(Octets(offset))
}

/// Labels, each with an octet limit and a character limit.
const FITTINGS: [(&str, usize, usize, Fit); 11] = [
    ("C389C3A9", 3, 9, kept(2, 1)),
    ("C389C3A9", 4, 1, kept(2, 1)),
    ("C389C3A9", 1, 9, kept(0, 0)),
    ("", 0, 0, kept(0, 0)),
    ("", 9, 9, kept(0, 0)),
    ("E282AC", 2, 9, kept(0, 0)),
    ("41C3", 9, 9, ill_formed_at(1)),
    ("C080", 9, 9, ill_formed_at(0)),
    ("EDA080", 9, 9, ill_formed_at(0)),
    ("F4908080", 9, 9, ill_formed_at(0)),
    ("5A6FC3A9", 116, 116, kept(4, 3)),
];

/// 02, E1: a letter and its accent are one.
const COMBINING_FITTINGS: [(&str, usize, usize, Fit); 20] = [
    ("65CC81", 1, 9, kept(0, 0)),
    ("65CC81", 2, 9, kept(0, 0)),
    ("65CC81", 3, 1, kept(3, 1)),
    ("65CC81", 3, 0, kept(0, 0)),
    ("5A6F65CC81", 4, 9, kept(2, 2)),
    ("5A6F65CC81", 5, 2, kept(2, 2)),
    ("5A6F65CC81", 5, 3, kept(5, 3)),
    ("5A6F65CC81", 9, 9, kept(5, 3)),
    ("CC81CDAF", 9, 9, kept(4, 1)),
    ("CC81CC80", 3, 9, kept(0, 0)),
    ("CC816F", 9, 9, kept(3, 2)),
    ("20CC81", 9, 9, kept(3, 1)),
    ("0ACC81", 9, 9, kept(3, 1)),
    ("65CBBF", 9, 9, kept(3, 2)),
    ("65CDB0", 9, 9, kept(3, 2)),
    ("65E1AAB0", 9, 9, kept(4, 2)),
    ("65E2808D65", 9, 9, kept(5, 3)),
    ("65CC81FF", 9, 9, ill_formed_at(3)),
    ("65CC81CC", 9, 9, ill_formed_at(3)),
    ("65CCFF", 9, 9, ill_formed_at(1)),
];

/// 02, E1: é and 57 combining marks, which are one character of 116 octets.
pub fn full_character() -> Vec<u8> {
    ["é", &"\u{301}".repeat(57)].concat().into_bytes()
}

pub fn labels() -> Result<usize, Disagreement> {
    let full = hex::text(&full_character());
    let full_rows = [(&full[..], 116, 1, kept(116, 1)), (&full, 115, 9, kept(0, 0))];
    let rows = [&FITTINGS[..], &COMBINING_FITTINGS, &full_rows].concat();
    for (label, octet_limit, character_limit, expected) in &rows {
        let fit = utf8::fit(&hex::octets(label), Octets(*octet_limit), Characters(*character_limit));
        same(fit, *expected, || format!("{label}, limits {octet_limit} and {character_limit}"))?;
    }
    Ok(rows.len())
}

/// TRF with 116 octets is 128 long, 117 is 7; REC DATA 100 passes, 101 is 7: as frames and as requests.
/// TABi none and 41 are 7, after 17, and leave the buffer.
pub fn data_limits() -> Result<usize, Disagreement> {
    let rows = [(false, 116, Ok(128)), (false, 117, Err(7)), (true, 100, Ok(128)), (true, 101, Err(7))];
    for (programming, count, expected) in rows {
        let (tab, data) = (0x0A, vec![0x55; count]);
        let (body, request) = if programming {
            let (key, na1) = (KEY.to_vec(), NA1.to_vec());
            (Body::Rec { na1: NA1, tab, data: data.clone() }, Request::Program { tab, data, key, na1 })
        } else {
            (Body::Trf { tab, data: data.clone() }, Request::Transfer { tab, data })
        };
        let mut buffer = [0; 128];
        let frame = Frame { ads: ADDRESS, adp: 1, body };
        same(frame.build(&mut buffer), expected, || format!("DATA of {count}"))?;
        let begun = Tool::fresh().request(&ADDRESS, 1, &request, &mut buffer);
        same(begun.map(|begun| begun.length), expected, || format!("request with DATA of {count}"))?;
    }
    let refusals = [(Body::Aso { tabs: vec![] }, 7), (Body::Aso { tabs: vec![0; 41] }, 7)];
    for (body, expected) in refusals {
        let frame = Frame { ads: ADDRESS, adp: 1, body };
        let mut buffer = [0xEE; 128];
        same(frame.build(&mut buffer), Err(expected), || format!("{frame:?}"))?;
        same(frame.build(&mut buffer[..127]), Err(17), || format!("{frame:?}"))?;
        same(Hex(&buffer), Hex(&[0xEE; 128]), || format!("{frame:?}"))?;
    }
    Ok(2 * rows.len() + 4)
}

/// 02, E10, rows of our own: octets, and the number that they start with and the count of its octets, if any.
const NUMBERS: [(&str, Option<(usize, usize)>); 10] = [
    ("FFFFFFFF0F", Some((0xFFFF_FFFF, 5))),
    ("FFFFFFFF0F00", Some((0xFFFF_FFFF, 5))),
    ("8080808010", None),
    ("8080808080", None),
    ("8080808000", None),
    ("808080808001", None),
    ("FFFFFFFF7F", None),
    ("00", Some((0, 1))),
    ("8000", None),
    ("", None),
];

pub fn numbers() -> Result<usize, Disagreement> {
    same(Hex(&number::shortest_form(4096)), Hex(&[0x80, 0x20]), || "4096".into())?;
    same(swap::read(&[0x81, 0x00]), Err(Fault { item: Item::Count, offset: 0 }), || "8100".into())?;
    for value in 0..=4096 {
        let octets = number::shortest_form(value);
        same(number::read(&octets), Some((value, octets.len())), || value.to_string())?;
    }
    for (octets, expected) in NUMBERS {
        same(number::read(&hex::octets(octets)), expected, || octets.into())?;
    }
    Ok(4099 + NUMBERS.len())
}

/// A number in so many octets, shortest form or not, or none where they are too few for it.
fn form(value: u64, octets: u32) -> Option<Vec<u8>> {
    let group = |place: u32| (value >> (7 * place)) as u8 | 0x80;
    let mut form: Vec<u8> = (0..octets).map(group).collect();
    *form.last_mut()? &= 0x7F;
    (value < 1 << (7 * octets)).then_some(form)
}

/// Numbers about each power of two at which a form or E10's bound ends, in every form of one to six octets:
/// only the shortest is read, and only below 2^32; and within a caller's limit all is read as before E10.
pub fn number_forms() -> Result<usize, Disagreement> {
    let mut cases = 0;
    let powers = [7, 14, 21, 28, 32].map(|power| 1u64 << power);
    let values = powers.into_iter().flat_map(|power| power - 2..=power + 2).chain(0..=2);
    for (value, octets) in values.flat_map(|value| (1..=6).map(move |octets| (value, octets))) {
        let Some(form) = form(value, octets) else { continue };
        let shortest = octets == 1 || value >= 1 << (7 * (octets - 1));
        let expected = (shortest && value < 1 << 32).then_some((value as usize, octets as usize));
        for after in [&[][..], &[0x00], &[0x80], &[0xFF; 6]] {
            let input = [&form[..], after].concat();
            same(number::read(&input), expected, || hex::text(&input))?;
            for limit in [LONGEST_DATA, LONGEST_CURVE] {
                let within = |number: &(usize, usize)| number.0 <= limit;
                let (now, before) = (number::read(&input), number::read_before(&input));
                same(now.filter(within), before.filter(within), || hex::text(&input))?;
            }
            cases += 1;
        }
        let cut = &form[..form.len() - 1];
        same(number::read(cut), None, || hex::text(cut))?;
        cases += 1;
    }
    Ok(cases)
}

pub const SAMPLE: &str = "02 112233445566 0A 01 04 5A6FC3A9 112233445566 0B 00 02 00FF";

const SAMPLE_LISTING: &str = "records 2
112233445566 0A label octets 4 characters 3
112233445566 0B raw octets 2
";

/// 02, E1: a label with an accent; one right before an address that starts with the octets of a combining
/// mark; one of combining marks alone.
pub const COMBINING_SAMPLE: &str =
    "03 112233445566 0A 01 05 5A6F65CC81 112233445566 0B 01 01 65 CC8133445566 0A 01 04 CC81CDAF";

const COMBINING_LISTING: &str = "records 3
112233445566 0A label octets 5 characters 3
112233445566 0B label octets 1 characters 1
CC8133445566 0A label octets 4 characters 1
";

/// 02, E10: a long record between two others, whose octets are no text.
pub const LONG_SAMPLE: &str =
    "03 112233445566 0A 01 04 5A6FC3A9 112233445566 0B 02 02 C3FF 112233445566 0C 00 00";

const LONG_LISTING: &str = "records 3
112233445566 0A label octets 4 characters 3
112233445566 0B long octets 2
112233445566 0C raw octets 0
";

/// A faulty file of each item, with the offset that comes with 18.
pub const FAULTY_FILES: [(&str, Item, usize); 30] = [
    ("", Item::Count, 0),
    ("80", Item::Count, 0),
    ("8100", Item::Count, 0),
    ("8120", Item::Count, 0),
    ("FFFFFFFF0F", Item::Count, 0),
    ("8080808010", Item::Count, 0),
    ("808080808001", Item::Count, 0),
    ("01", Item::AddressWithTab, 1),
    ("02 112233445566 0A 01 04 5A6FC3A9 112233445566", Item::AddressWithTab, 14),
    ("02 112233445566 0A 01 04 5A6FC3A9 112233445566 0A 00 02 00FF", Item::AddressWithTab, 14),
    ("02 112233445566 0A 01 04 5A6FC3A9 112233445565 0B 00 02 00FF", Item::AddressWithTab, 14),
    ("01 112233445566 0A", Item::Kind, 8),
    ("01 112233445566 0A 03 00", Item::Kind, 8),
    ("01 112233445566 0A 01", Item::Length, 9),
    ("01 112233445566 0A 00 75", Item::Length, 9),
    ("01 112233445566 0A 01 75", Item::Length, 9),
    ("01 112233445566 0A 00 8000", Item::Length, 9),
    ("01 112233445566 0A 02", Item::Length, 9),
    ("01 112233445566 0A 02 8000", Item::Length, 9),
    ("01 112233445566 0A 02 8120", Item::Length, 9),
    ("01 112233445566 0A 02 FFFFFFFF0F", Item::Length, 9),
    ("01 112233445566 0A 02 8080808010", Item::Length, 9),
    ("01 112233445566 0A 00 04 5A6FC3", Item::Data, 10),
    ("01 112233445566 0A 01 04 5A6FC3C3", Item::Data, 10),
    ("01 112233445566 0A 01 04 5A6F65CC", Item::Data, 10),
    ("01 112233445566 0A 02 75", Item::Data, 10),
    ("01 112233445566 0A 02 8020 00", Item::Data, 11),
    ("01 112233445566 0A 01 04 5A6FC3A9 00", Item::Rest, 14),
    ("01 112233445566 0A 02 02 C3FF 00", Item::Rest, 12),
    ("00 00", Item::Rest, 1),
];

/// 01's file, files with E1's labels and E10's long record, and a fault of every item.
pub fn swap_files() -> Result<usize, Disagreement> {
    let listings =
        [(SAMPLE, SAMPLE_LISTING), (COMBINING_SAMPLE, COMBINING_LISTING), (LONG_SAMPLE, LONG_LISTING)];
    for (file, listing) in listings {
        same(swap::listing(&hex::octets(file)), listing.into(), || file.into())?;
    }
    for (file, item, offset) in FAULTY_FILES {
        let octets = hex::octets(file);
        same(swap::read(&octets), Err(Fault { item, offset }), || file.into())?;
        same(swap::listing(&octets), format!("refused 18 at {offset}\n"), || file.into())?;
    }
    let curve = [hex::octets("01 112233445566 0C 02 8020"), vec![0xFF; 4_096]].concat();
    let line = "records 1\n112233445566 0C long octets 4096\n";
    same(swap::listing(&curve), line.into(), || "a curve of 4096 octets".into())?;
    same(swap::listing(&[0; 65_536]), "refused 18 at 1\n".into(), || "65536 zeros".into())?;
    same(swap::listing(&[0; 65_537]), "refused 18 at 65536\n".into(), || "65537 zeros".into())?;
    Ok(listings.len() + FAULTY_FILES.len() + 3)
}

/// The writer: 18 with the reader's offset, even where the buffer is too short as well; the buffer is kept.
pub fn swap_writer() -> Result<usize, Disagreement> {
    let record =
        |tab: u8, kind: u8, count: usize| swap::Record { ads: ADDRESS, tab, kind, data: vec![0x80; count] };
    let long = |count: usize| -> Vec<swap::Record> {
        let ads = |i: usize| [0, 0, 0, 0, (i / 256) as u8, (i % 256) as u8];
        (0..count).map(|i| swap::Record { ads: ads(i), ..record(0, RAW, 116) }).collect()
    };
    let short = |count: usize| {
        long(count).into_iter().map(|record| swap::Record { data: vec![], ..record }).collect()
    };
    let refused = |item: Item, offset: usize| Written::Refused(18, Some(Fault { item, offset }));
    let accepted = Written::Refused(17, None);
    let rows: [(Vec<swap::Record>, Written); 14] = [
        (vec![], accepted),
        (vec![record(1, RAW, 0)], accepted),
        (vec![record(1, RAW, 0), record(1, RAW, 0)], refused(Item::AddressWithTab, 10)),
        (vec![record(1, 3, 0)], refused(Item::Kind, 8)),
        (vec![record(1, RAW, 117)], refused(Item::Length, 9)),
        (vec![record(1, LABEL, 117)], refused(Item::Length, 9)),
        (vec![record(1, LABEL, 1)], refused(Item::Data, 10)),
        (vec![record(1, LONG, 0)], accepted),
        (vec![record(1, LONG, 117)], accepted),
        (vec![record(1, LONG, 4096)], accepted),
        (vec![record(1, LONG, 4097)], refused(Item::Length, 9)),
        (short(4096), accepted),
        (short(4097), refused(Item::Count, 0)),
        ([vec![record(1, 3, 0)], long(525)].concat(), refused(Item::File, 65_536)),
    ];
    for (row, (records, expected)) in rows.iter().enumerate() {
        same(swap::write(records, &mut []), *expected, || format!("writer row {row}"))?;
    }
    Ok(rows.len())
}

/// Read and written again; and an octet changed leaves a file that is
/// refused or is the encoding of its records.
pub fn swap_laws(rng: &mut Rng) -> Result<usize, Disagreement> {
    let cases = 5_000;
    for _ in 0..cases {
        let records = random_records(rng);
        let mut file = swap::encode(&records);
        same(swap::read(&file), Ok(records.clone()), || hex::text(&file))?;
        let mut buffer = vec![0xEE; file.len() + rng.below(2)];
        let room = buffer.len();
        same(swap::write(&records, &mut buffer[..file.len() - 1]), Written::Refused(17, None), || {
            hex::text(&file)
        })?;
        same(Hex(&buffer), Hex(&vec![0xEE; room]), || hex::text(&file))?;
        same(swap::write(&records, &mut buffer), Written::File(file.len()), || hex::text(&file))?;
        same(Hex(&buffer), Hex(&[&file[..], &[0xEE; 1][..room - file.len()]].concat()), || hex::text(&file))?;
        let place = rng.below(file.len());
        file[place] ^= 1 << rng.below(8);
        if let Ok(records) = swap::read(&file) {
            same(Hex(&swap::encode(&records)), Hex(&file), || hex::text(&file))?;
        }
    }
    Ok(cases)
}

/// Records that rise strictly by ADS then TAB.
pub fn random_records(rng: &mut Rng) -> Vec<swap::Record> {
    let mut records = vec![];
    let mut ads = [0; 6];
    for tab in 0..rng.below(6) as u8 {
        ads[3 + rng.below(3)] += 1;
        let kind = rng.pick(&[RAW, LABEL, LABEL, LONG]);
        let octets = rng.below(20);
        // So many that a label has 116 octets at most.
        let characters = rng.below(LONGEST_DATA / random_text::LONGEST_CHARACTER + 1);
        let data = match kind {
            LABEL => random_text::well_formed(rng, characters),
            LONG if rng.once_in(6) => random_curve(rng, LONGEST_CURVE),
            _ => rng.octets(octets),
        };
        records.push(swap::Record { ads, tab, kind, data });
    }
    records
}

/// Data longer than other kinds take, of a length within a limit or about one at which a form or a rule ends.
pub fn random_curve(rng: &mut Rng, longest: usize) -> Vec<u8> {
    let any = LONGEST_DATA + 1 + rng.below(longest - LONGEST_DATA);
    let count = rng.pick(&[any, any, 117, 127, 128, LONGEST_CURVE - 1, LONGEST_CURVE, longest]);
    rng.octets(count)
}

/// A receiver, and the steps it was taken through.
struct ReceiverBench {
    receiver: Receiver,
    steps: usize,
}

impl ReceiverBench {
    /// The places at which something is heard, with the number, or 0 for a good frame.
    fn octets(&mut self, octets: &[u8], expected: &[(usize, Number)]) -> Case {
        self.steps += 1;
        let mut gave = vec![];
        for (place, octet) in octets.iter().enumerate() {
            match self.receiver.octet(*octet) {
                Heard::Nothing => {}
                Heard::Bad(number) => gave.push((place, number)),
                Heard::Good(_) => gave.push((place, 0)),
            }
        }
        same(&gave[..], expected, || format!("receiving step {}: {}", self.steps, hex::text(octets)))
    }

    fn gap(&mut self, expected: Option<Number>) -> Case {
        self.steps += 1;
        same(self.receiver.gap(), expected, || format!("receiving step {}: gap", self.steps))
    }
}

/// 01, Receiving: 1 at the bad N, then silence; 3 for a gap inside a
/// frame; 2, 4, 5 at completion; then an N again.
pub fn receiving() -> Result<usize, Disagreement> {
    let good = hex::octets("0C 665544332211 01 01 0A AA 35");
    let wrong_crc = hex::octets("0C 665544332211 01 01 0A AA 34");
    let unknown_command = frame::enclose(ADDRESS, 1, 0x0F, &[]);
    let wrong_length = frame::enclose(ADDRESS, 1, 0x06, &[]);
    let mut bench = ReceiverBench { receiver: Receiver::Empty, steps: 0 };
    bench.gap(None)?;
    for n in [0, 10, 129, 255] {
        bench.octets(&[n], &[(0, 1)])?;
        bench.octets(&good, &[])?;
        bench.gap(None)?;
        bench.octets(&good, &[(11, 0)])?;
    }
    bench.octets(&good[..1], &[])?;
    bench.gap(Some(3))?;
    bench.octets(&good[..11], &[])?;
    bench.gap(Some(3))?;
    bench.gap(None)?;
    bench.octets(&[&good[..], &good].concat(), &[(11, 0), (23, 0)])?;
    bench.octets(&[&wrong_crc[..], &good].concat(), &[(11, 2), (23, 0)])?;
    bench.octets(&[&unknown_command[..], &good].concat(), &[(10, 4), (22, 0)])?;
    bench.octets(&[&wrong_length[..], &good].concat(), &[(10, 5), (22, 0)])?;
    for octets in [&[0xFF][..], &good[..5]] {
        octets.iter().for_each(|octet| drop(bench.receiver.octet(*octet)));
        bench.receiver.session_end();
        bench.octets(&good, &[(11, 0)])?;
    }
    Ok(bench.steps)
}
