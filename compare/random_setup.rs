//! Random setups about every rule: each is an accepted one with some faults, or with none.

use crate::encoding::Given;
use crate::frame::BROADCAST;
use crate::random_history::{self, Setup};
use crate::random_keys;
use crate::random_text;
use crate::record::{Record, LABEL, RAW};
use crate::rng::Rng;
use crate::utf8::{Characters, Octets};

pub fn given(setup: &Setup) -> Given {
    Given { address: setup.address.to_vec(), key: setup.key.to_vec(), records: setup.records.clone() }
}

/// Up to three faults, so that the order of the answers shows. Some of them break no rule.
pub fn faulty(rng: &mut Rng, setup: &Setup) -> Given {
    let mut given = given(setup);
    for _ in 0..rng.below(4) {
        fault(rng, &mut given);
    }
    given
}

fn fault(rng: &mut Rng, given: &mut Given) {
    match rng.below(15) {
        0 => {
            let length = rng.pick(&[0, 1, 5, 7, 255]);
            given.address = rng.octets(length);
        }
        1 => {
            let length = rng.pick(&[0, 1, 7, 9, 255]);
            given.key = rng.octets(length);
        }
        2 => given.address = BROADCAST.to_vec(),
        3 => {
            let count = rng.pick(&[31, 32, 33, 34, 255]);
            set_count(given, count);
        }
        4..=6 => given.key = random_keys::about(rng).to_vec(),
        _ if given.records.is_empty() => {}
        7 => {
            let tab = rng.pick(&given.records).tab;
            any(rng, given).tab = tab;
        }
        8 => any(rng, given).kind = rng.pick(&[RAW, LABEL, 2, 3, 255]),
        9 => limits(rng, given),
        _ => contents(rng, given),
    }
}

/// Any of the records that the input has.
fn any<'a>(rng: &mut Rng, given: &'a mut Given) -> &'a mut Record {
    let count = given.records.len().min(32);
    &mut given.records[rng.below(count)]
}

/// New records have the TABs that follow, so that no two are the same.
fn set_count(given: &mut Given, count: usize) {
    given.records.truncate(count);
    let mut tab = given.records.last().map_or(0, |record| record.tab);
    while given.records.len() < count {
        tab = tab.wrapping_add(1);
        given.records.push(Record {
            tab,
            kind: RAW,
            octet_limit: Octets(116),
            character_limit: Characters(0),
            readable: 1,
            open_to_programming: 1,
            open_to_transfer: 1,
            data: vec![],
        });
    }
}

fn limits(rng: &mut Rng, given: &mut Given) {
    let limit = rng.pick(&[0, 1, 115, 116, 117, 118, 128, 255]);
    let octets = rng.once_in(2);
    let record = any(rng, given);
    if octets {
        record.octet_limit = Octets(limit);
    } else {
        record.character_limit = Characters(limit);
    }
}

/// Contents at, one below and one above a limit, or with ill-formed text.
fn contents(rng: &mut Rng, given: &mut Given) {
    let choice = rng.below(4);
    let about = rng.below(3);
    let place = rng.below(given.records.len().min(32));
    let record = &mut given.records[place];
    record.data = match choice {
        0 => rng.octets((record.octet_limit.0 + about).saturating_sub(1).min(255)),
        1 => vec![b'e'; (record.octet_limit.0 + about).saturating_sub(1).min(255)],
        2 => random_history::text_about_the_limit(rng, record),
        _ => random_text::damaged(rng, record.data.clone()),
    };
    record.data.truncate(255);
}
