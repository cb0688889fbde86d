//! How fast a swap file is judged, beside the independent reader: files of the longest length and of half of it, of each kind
//! of record, so that it is seen to grow with the file alone (02, E10).

use crate::ffi::Lent;
use crate::figures::{keep, label, table, Runner, CALLS, TURNS, WORDS};
use crate::record::{LABEL, RAW};
use crate::rng::Rng;
use crate::swap::{self, Record, LONG, LONGEST_CURVE, LONGEST_DATA, LONGEST_FILE};

/// As many records with this data as a file of this length takes. The data is the same in all, so that a processor which learns
/// its way through a short file does not make it look quicker than a long one.
fn file(kind: u8, data: &[u8], most: usize) -> Vec<u8> {
    let mut records: Vec<Record> = vec![];
    loop {
        let ads = (records.len() as u64).to_be_bytes()[2..].try_into().expect("six octets");
        records.push(Record { ads, tab: 0, kind, data: data.to_vec() });
        if swap::encode(&records).len() > most {
            records.pop();
            return swap::encode(&records);
        }
    }
}

/// The verdict on one file: ours, and, where it knows the kind, that of an earlier revision.
fn verdicts(name: &str, kind: u8, file: &[u8]) {
    let records = swap::read(file).expect("a good file").len();
    let known = if kind == LONG { &CALLS[..1] } else { CALLS };
    let mut runners: Vec<Runner> = vec![];
    for calls in known {
        let (mut lent, mut counts) = (Lent::new(file), (0, 0));
        assert_eq!((calls.swap_verdict)(&mut lent, &mut counts.0, &mut counts.1), 0);
        assert_eq!(counts.0, records);
        let run = move || keep((calls.swap_verdict)(&mut lent, &mut counts.0, &mut counts.1));
        runners.push((calls.program, Box::new(run)));
    }
    runners.push(("bit by bit, Rust", Box::new(|| keep(swap::read(file)))));
    let what = format!("verdict on a swap file, {records} {name}, {} octets", file.len());
    table(&what, 1, TURNS, runners);
}

pub fn print(rng: &mut Rng) {
    let kinds = [
        ("raw records", RAW, rng.octets(LONGEST_DATA)),
        ("labels", LABEL, label(rng, WORDS).into_bytes()),
        ("curves", LONG, rng.octets(LONGEST_CURVE)),
    ];
    for (name, kind, data) in kinds {
        for most in [LONGEST_FILE / 2, LONGEST_FILE] {
            verdicts(name, kind, &file(kind, &data, most));
        }
    }
}
