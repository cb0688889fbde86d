//! The stored input of `cardlog`: 01's rows of the bench for REC and AUT, and a refusal of each kind of call.

use crate::bench::{ADDRESS, FOREIGN, KEY, NA1, NA2};
use crate::book::Event;
use crate::card_host;
use crate::des;
use crate::encoding::{self, Given};
use crate::frame::{Address, Body, Frame};
use crate::record::{Record, LABEL, RAW};
use crate::tool_host;
use crate::utf8::{self, Characters, Fit, Octets};

const TAB: u8 = 0x0A;

/// The file that is stored for a program and made here: an input, or what a C example prints.
pub fn of(program: &str) -> Option<Vec<u8>> {
    match program {
        "cardlog" => Some(cardlog()),
        "card_host" => Some(card_host::printed().into_bytes()),
        "tool_host" => Some(tool_host::printed().into_bytes()),
        "fit" => Some(fit()),
        _ => None,
    }
}

/// What the example fit prints: of its label, whose 14th octet is the first half of an é; then of the same
/// words with each é as e and U+0301 (02, E1), whose 15th octet is the bare e.
fn fit() -> Vec<u8> {
    let composed = "Résidence Pré Fleuri";
    let decomposed = composed.replace('é', "e\u{301}");
    [fit_line(composed, Octets(14)), fit_line(&decomposed, Octets(15))].concat().into_bytes()
}

/// A label within 20 characters and so many octets.
fn fit_line(label: &str, octet_limit: Octets) -> String {
    let Fit::Kept(octets, characters) = utf8::fit(label.as_bytes(), octet_limit, Characters(20)) else {
        unreachable!("the label is well-formed")
    };
    format!("{} octets, {} characters: {}\n", octets.0, characters.0, &label[..octets.0])
}

fn given() -> Given {
    let label = Record {
        tab: TAB,
        kind: LABEL,
        octet_limit: Octets(10),
        character_limit: Characters(3),
        readable: 1,
        open_to_programming: 1,
        open_to_transfer: 1,
        data: b"old".to_vec(),
    };
    let raw = Record { tab: TAB + 1, kind: RAW, open_to_transfer: 0, data: vec![], ..label.clone() };
    Given { address: ADDRESS.to_vec(), key: KEY.to_vec(), records: vec![label, raw] }
}

/// The octets of a frame, each with NA2 and a buffer of 128 octets lent.
fn sent(ads: Address, body: Body) -> Vec<Event> {
    let octets = Frame { ads, adp: 1, body }.octets().expect("DATA within its limit");
    octets.into_iter().map(|octet| Event::Octet { octet, number: NA2.to_vec(), room: 128 }).collect()
}

fn cardlog() -> Vec<u8> {
    let rec = || sent(ADDRESS, Body::Rec { na1: NA1, tab: TAB, data: b"new".to_vec() });
    let aut = || sent(ADDRESS, Body::Aut { na2k: des::encipher(KEY, NA2) });
    let enq = || sent(ADDRESS, Body::Enq { tab: TAB });
    let foreign = sent(FOREIGN, Body::Enq { tab: TAB });
    let trf = sent(ADDRESS, Body::Trf { tab: TAB + 1, data: b"raw".to_vec() });
    let octet = |number: &[u8], room: usize| Event::Octet { octet: 0x0B, number: number.to_vec(), room };
    let meter_write = |data: &str| Event::MeterWrite { tab: TAB, data: data.as_bytes().to_vec() };
    let parts = [
        // REC, session end, AUT: no reply, and the record is kept.
        rec(),
        vec![Event::SessionEnd],
        aut(),
        enq(),
        // REC, a frame for another card, AUT: EOS.
        rec(),
        foreign,
        aut(),
        enq(),
        // A cipher that is another number's, a record not open to transfer, a short number, a short buffer, a gap inside a frame.
        rec(),
        sent(ADDRESS, Body::Aut { na2k: NA2 }),
        trf,
        vec![octet(&NA2[..7], 128), octet(&NA2, 127), octet(&NA2, 128), Event::Gap],
        vec![meter_write("four"), meter_write("Zoé")],
    ];
    let mut octets = encoding::setup(&given(), &mut || 0);
    octets.extend(parts.concat().iter().flat_map(|event| encoding::call(event, &mut || 0)));
    octets
}
