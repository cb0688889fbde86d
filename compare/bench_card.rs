//! Self-tests on 01's rows of the card: setup, exchanges, what is tempting and wrong, and what 12 refuses;
//! and on E5's keys and E1's labels in them.

use crate::bench::{ADDRESS, FOREIGN, KEY, NA1, NA2};
use crate::card::{Answer, Card, Wait};
use crate::des;
use crate::frame::{self, Address, Block, Body, Frame, Number, BROADCAST};
use crate::hex::{self, Hex};
use crate::keys::{self, SEMI_WEAK, WEAK};
use crate::receiver::Receiver;
use crate::record::{Record, LABEL, RAW};
use crate::report::{same, Case, Disagreement};
use crate::utf8::{Characters, Octets};

/// Three characters in twelve octets, over the octet limit of the records here.
const TOO_LONG: &str = "\u{10000}\u{10000}\u{10000}";

/// 02, E1: three characters in five octets.
const DECOMPOSED: &[u8] = "Zoe\u{301}".as_bytes();

fn record(tab: u8, kind: u8, data: &[u8]) -> Record {
    let (octet_limit, character_limit) = (Octets(10), Characters(3));
    let data = data.to_vec();
    Record {
        tab,
        kind,
        octet_limit,
        character_limit,
        readable: 1,
        open_to_programming: 1,
        open_to_transfer: 1,
        data,
    }
}

/// Setup's order: 17, 6, 12 over all records, 21, then contents record by record.
pub fn setups() -> Result<usize, Disagreement> {
    let ill_formed = record(1, LABEL, &[0x80]);
    let too_many = record(2, LABEL, b"four");
    let too_long = record(3, RAW, &[0; 11]);
    let unknown_kind = record(4, 2, &[]);
    let far_limit = Record { octet_limit: Octets(117), ..record(5, RAW, &[]) };
    let many: Vec<Record> = (0..33).map(|tab| record(tab, RAW, &[])).collect();
    let decomposed = record(1, LABEL, DECOMPOSED);
    let rows: [(&[u8], &[u8], &[Record], Option<Number>); 18] = [
        (&BROADCAST[..5], &KEY, &[unknown_kind.clone()], Some(17)),
        (&ADDRESS, &KEY[..7], &[], Some(17)),
        (&BROADCAST, &KEY, &[unknown_kind.clone()], Some(6)),
        (&ADDRESS, &KEY, &many, Some(12)),
        (&ADDRESS, &KEY, &many[..32], None),
        (&ADDRESS, &WEAK[0][..7], &[], Some(17)),
        (&BROADCAST, &WEAK[0], &[], Some(6)),
        (&ADDRESS, &WEAK[0], &many, Some(12)),
        (&ADDRESS, &KEY, &[ill_formed.clone(), unknown_kind], Some(12)),
        (&ADDRESS, &KEY, &[ill_formed.clone(), far_limit], Some(12)),
        (&ADDRESS, &KEY, &[ill_formed.clone(), ill_formed.clone()], Some(12)),
        (&ADDRESS, &KEY, &[too_many.clone(), too_long.clone()], Some(9)),
        (&ADDRESS, &KEY, &[too_long, too_many], Some(7)),
        (&ADDRESS, &KEY, &[ill_formed], Some(8)),
        (&ADDRESS, &KEY, &[record(1, LABEL, TOO_LONG.as_bytes())], Some(7)),
        (&ADDRESS, &KEY, &[record(1, LABEL, "Zoé".as_bytes())], None),
        (&ADDRESS, &KEY, &[Record { character_limit: Characters(2), ..decomposed.clone() }], Some(9)),
        (&ADDRESS, &KEY, &[decomposed], None),
    ];
    for (row, (address, key, records, expected)) in rows.iter().enumerate() {
        same(Card::setup(address, key, records).err(), *expected, || format!("setup row {row}"))?;
    }
    Ok(rows.len())
}

/// 02, E5: each of the four keys is 21, before contents that are 7, 8 or 9 and whatever its parity. A
/// semi-weak key is accepted, and so is one a bit away from a weak one.
pub fn setup_keys() -> Result<usize, Disagreement> {
    let contents: [(&[u8], Option<Number>); 4] =
        [(b"old", None), (&[b'e'; 11], Some(7)), (&[0x80], Some(8)), (b"four", Some(9))];
    let accepted =
        [KEY, SEMI_WEAK[0][0], SEMI_WEAK[1][1], keys::turned(WEAK[0], 1), keys::turned(WEAK[2], 63)];
    let refused =
        WEAK.into_iter().flat_map(|key| [key, keys::with_parity(key, 0x08), keys::with_parity(key, 0xFF)]);
    let rows: Vec<_> = refused.map(|key| (key, true)).chain(accepted.map(|key| (key, false))).collect();
    for (key, weak) in &rows {
        for (data, number) in contents {
            let setup = Card::setup(&ADDRESS, key, &[record(1, LABEL, data)]);
            let expected = if *weak { Some(21) } else { number };
            same(setup.err(), expected, || format!("setup with the key {}", hex::text(key)))?;
        }
    }
    Ok(rows.len() * contents.len())
}

/// A card with one label, fed whole frames with NA2 lent for each octet.
struct CardBench {
    card: Card,
    rows: usize,
}

impl CardBench {
    fn fresh() -> CardBench {
        let card = Card::setup(&ADDRESS, &KEY, &[record(0x0A, LABEL, b"old")]).expect("an acceptable setup");
        CardBench { card, rows: 0 }
    }

    /// The number and the reply to a frame.
    fn send(&mut self, ads: Address, adp: u8, body: Body) -> (Option<Number>, Option<Frame>) {
        let mut buffer = [0; 128];
        let mut last = Answer { number: None, reply: 0 };
        for octet in (Frame { ads, adp, body }).octets().expect("DATA within its limit") {
            last = self.card.octet(octet, &NA2, &mut buffer);
        }
        let reply = (last.reply > 0).then(|| frame::read(&buffer[..last.reply]).expect("a good reply"));
        (last.number, reply)
    }

    /// Sends a frame and expects a number, a reply with the same ADS
    /// and ADP, and the record's data afterwards.
    fn expect(
        &mut self,
        ads: Address,
        adp: u8,
        body: Body,
        number: Option<Number>,
        reply: Option<Body>,
        data: &[u8],
    ) -> Case {
        let input = format!("frame row {}: {body:?} to {}", self.rows, hex::text(&ads));
        self.rows += 1;
        let gave = self.send(ads, adp, body);
        let reply = reply.map(|body| Frame { ads, adp, body });
        same(gave, (number, reply), || input.clone())?;
        same(Hex(&self.card.records[0].data), Hex(data), || input)
    }
}

fn rec(data: &[u8]) -> Body {
    Body::Rec { na1: NA1, tab: 0x0A, data: data.to_vec() }
}

fn ech(data: &[u8]) -> Option<Body> {
    Some(Body::Ech { na1k: des::encipher(KEY, NA1), na2: NA2, tab: 0x0A, data: data.to_vec() })
}

fn aut() -> Body {
    Body::Aut { na2k: des::encipher(KEY, NA2) }
}

/// The rows REC-session end-AUT and REC-foreign frame-AUT, and what is tempting and wrong.
pub fn exchanges() -> Result<usize, Disagreement> {
    let mut bench = CardBench::fresh();
    bench.expect(ADDRESS, 1, rec(b"new"), None, ech(b"new"), b"old")?;
    bench.card.session_end();
    bench.expect(ADDRESS, 1, aut(), None, None, b"old")?;

    bench.expect(ADDRESS, 1, rec(b"new"), None, ech(b"new"), b"old")?;
    bench.expect(FOREIGN, 1, Body::Enq { tab: 0x0A }, None, None, b"old")?;
    bench.expect(ADDRESS, 1, aut(), None, Some(Body::Eos), b"new")?;
    bench.expect(ADDRESS, 1, aut(), None, None, b"new")?;

    let unknown = Body::Rec { na1: NA1, tab: 0x77, data: vec![] };
    let echoed = Body::Ech { na1k: des::encipher(KEY, NA1), na2: NA2, tab: 0x77, data: vec![] };
    bench.expect(ADDRESS, 1, unknown.clone(), None, Some(echoed.clone()), b"new")?;
    bench.expect(ADDRESS, 1, Body::Aut { na2k: NA2 }, Some(13), Some(Body::Arj), b"new")?;
    bench.expect(ADDRESS, 1, unknown, None, Some(echoed), b"new")?;
    bench.expect(ADDRESS, 1, aut(), Some(10), Some(Body::Drj), b"new")?;

    bench.expect(ADDRESS, 1, rec(b"tre"), None, ech(b"tre"), b"new")?;
    bench.expect(ADDRESS, 2, aut(), Some(13), Some(Body::Arj), b"new")?;
    bench.expect(ADDRESS, 1, rec(b"four"), None, ech(b"four"), b"new")?;
    bench.expect(ADDRESS, 1, aut(), Some(9), Some(Body::Drj), b"new")?;

    bench.expect(ADDRESS, 1, Body::Trb { tab: 0x0A, data: b"own".to_vec() }, None, None, b"new")?;
    bench.expect(BROADCAST, 1, Body::Trb { tab: 0x0A, data: b"all".to_vec() }, None, None, b"all")?;
    bench.expect(BROADCAST, 1, Body::Trb { tab: 0x0A, data: b"four".to_vec() }, Some(9), None, b"all")?;
    let label = "\u{10000}\u{10000}é".as_bytes();
    bench.expect(ADDRESS, 1, Body::Trf { tab: 0x0A, data: label.to_vec() }, None, Some(Body::Tra), label)?;
    let too_long = TOO_LONG.as_bytes().to_vec();
    bench.expect(ADDRESS, 1, Body::Trf { tab: 0x0A, data: too_long }, Some(7), Some(Body::Drj), label)?;
    let dat = Body::Dat { tab: 0x0A, data: label.to_vec() };
    bench.expect(ADDRESS, 7, Body::Enq { tab: 0x0A }, None, Some(dat), label)?;
    bench.expect(ADDRESS, 7, Body::Enq { tab: 0x0B }, Some(10), Some(Body::Drj), label)?;
    Ok(bench.rows)
}

/// 02, E1: a record takes three characters, whatever combining marks they have, and not four (9), after 7
/// and 8. A card that holds more than its limit is refused with 12.
pub fn combining_marks() -> Result<usize, Disagreement> {
    let mut bench = CardBench::fresh();
    let trf = |data: &[u8]| Body::Trf { tab: 0x0A, data: data.to_vec() };
    bench.expect(ADDRESS, 1, rec(DECOMPOSED), None, ech(DECOMPOSED), b"old")?;
    bench.expect(ADDRESS, 1, aut(), None, Some(Body::Eos), DECOMPOSED)?;
    let four = "Zoee\u{301}".as_bytes();
    bench.expect(ADDRESS, 1, rec(four), None, ech(four), DECOMPOSED)?;
    bench.expect(ADDRESS, 1, aut(), Some(9), Some(Body::Drj), DECOMPOSED)?;
    bench.expect(ADDRESS, 1, trf(four), Some(9), Some(Body::Drj), DECOMPOSED)?;
    bench.expect(BROADCAST, 1, Body::Trb { tab: 0x0A, data: four.to_vec() }, Some(9), None, DECOMPOSED)?;
    let one = "e\u{301}\u{301}\u{301}\u{301}".as_bytes();
    bench.expect(ADDRESS, 1, trf(one), None, Some(Body::Tra), one)?;
    let combining_first = "\u{301}oe\u{301}".as_bytes();
    bench.expect(ADDRESS, 1, trf(combining_first), None, Some(Body::Tra), combining_first)?;
    let too_long = "e\u{301}\u{301}\u{301}\u{301}\u{301}".as_bytes();
    bench.expect(ADDRESS, 1, trf(too_long), Some(7), Some(Body::Drj), combining_first)?;
    bench.expect(ADDRESS, 1, trf(&[four, &[0xCC]].concat()), Some(8), Some(Body::Drj), combining_first)?;
    same(bench.card.meter_write(0x0A, four).number, Some(9), || "a meter write of four".into())?;
    same(bench.card.meter_write(0x0A, DECOMPOSED).number, None, || "a meter write of three".into())?;
    same(Hex(&bench.card.records[0].data), Hex(DECOMPOSED), || "the record after it".into())?;
    for (character_limit, refused) in [(2, true), (3, false)] {
        let held = Record { character_limit: Characters(character_limit), ..record(0x0A, LABEL, DECOMPOSED) };
        let card = Card { records: vec![held], ..CardBench::fresh().card };
        same(refused_with_12(card), refused, || format!("a card with the limit {character_limit}"))?;
    }
    Ok(bench.rows + 5)
}

/// Every call of an unsound card is refused with 12, after 17, and changes nothing.
fn refused_with_12(mut card: Card) -> bool {
    let before = card.clone();
    let mut buffer = [0xEE; 128];
    let numbers = [
        card.octet(0x0B, &NA2, &mut buffer).number,
        card.gap().number,
        card.session_end().number,
        card.meter_write(0x0A, b"new").number,
    ];
    let short_buffer = card.octet(0x0B, &NA2, &mut [0; 127]).number;
    let short_number = card.octet(0x0B, &NA2[..7], &mut buffer).number;
    numbers == [Some(12); 4]
        && [short_buffer, short_number] == [Some(17); 2]
        && card == before
        && buffer == [0xEE; 128]
}

/// 01, The card: what is refused with 12; and what is not, though no card comes to it.
pub fn soundness() -> Result<usize, Disagreement> {
    let sound = CardBench::fresh().card;
    let with_record = |record: Record| Card { records: vec![record], ..sound.clone() };
    let with_octets = |octets: &[u8]| Card { receiver: Receiver::Partial(octets.to_vec()), ..sound.clone() };
    let with_wait = |tab: u8, count: usize| {
        let wait = Wait { adp: 1, tab, data: vec![0; count], na2: NA2 };
        Card { wait: Some(wait), ..sound.clone() }
    };
    let label = record(0x0A, LABEL, b"old");
    let raw = record(0x0A, RAW, b"old");
    let with_key = |key: Block| Card { key, ..sound.clone() };
    let rows = [
        (Card { address: BROADCAST, ..sound.clone() }, true),
        (with_key(WEAK[0]), true),
        (with_key(WEAK[1]), true),
        (with_key(WEAK[2]), true),
        (with_key(WEAK[3]), true),
        (with_key([0; 8]), true),
        (with_key(keys::turned(WEAK[0], 1)), false),
        (with_key(SEMI_WEAK[0][0]), false),
        (Card { records: vec![label.clone(), label.clone()], ..sound.clone() }, true),
        (with_record(Record { kind: 2, ..label.clone() }), true),
        (with_record(Record { octet_limit: Octets(117), ..label.clone() }), true),
        (with_record(Record { octet_limit: Octets(2), ..label.clone() }), true),
        (with_record(Record { character_limit: Characters(117), ..label.clone() }), true),
        (with_record(Record { character_limit: Characters(2), ..label.clone() }), true),
        (with_record(Record { character_limit: Characters(117), ..raw }), false),
        (with_record(Record { data: vec![0x80], ..label }), true),
        (with_octets(&[10]), true),
        (with_octets(&[129]), true),
        (with_octets(&[11; 10]), false),
        (with_octets(&[11; 11]), true),
        (with_wait(0x0A, 100), false),
        (with_wait(0x0A, 101), true),
        (with_wait(0x77, 0), false),
    ];
    let count = rows.len();
    for (row, (card, refused)) in rows.into_iter().enumerate() {
        same(refused_with_12(card), refused, || format!("soundness row {row}"))?;
    }
    Ok(count)
}
