//! Our frame builder and frame reader beside the model, over all commands, lengths and single-bit damage.

use crate::ffi::frames::{self as ours, Fields};
use crate::ffi::Lent;
use crate::frame::{self, Body, Command, Frame};
use crate::hex;
use crate::random_frames;
use crate::report::{same, Case, Disagreement};
use crate::rng::Rng;

/// What building gave: the number, the length that was told, the whole buffer, and whether the guards about it stand.
#[derive(PartialEq, Debug)]
struct BuildAnswer {
    number: u8,
    length: usize,
    buffer: String,
    guards_kept: bool,
}

/// The frame that a code and fields stand for: fields that the command has not are passed over.
fn frame_of(command: Command, fields: &Fields, data: &[u8]) -> Frame {
    let (tab, data, za1, za2) = (fields.tab, data.to_vec(), fields.za1, fields.za2);
    let body = match command {
        Command::Enq => Body::Enq { tab },
        Command::Dat => Body::Dat { tab, data },
        Command::Rec => Body::Rec { na1: za1, tab, data },
        Command::Ech => Body::Ech { na1k: za1, na2: za2, tab, data },
        Command::Aut => Body::Aut { na2k: za2 },
        Command::Eos => Body::Eos,
        Command::Aso => Body::Aso { tabs: data },
        Command::Rso => Body::Rso { tab, ads: fields.station },
        Command::Ib => Body::Ib,
        Command::Drj => Body::Drj,
        Command::Arj => Body::Arj,
        Command::Trf => Body::Trf { tab, data },
        Command::Trb => Body::Trb { tab, data },
        Command::Tra => Body::Tra,
        Command::Pre => Body::Pre,
        Command::Sel => Body::Sel,
    };
    Frame { ads: fields.ads, adp: fields.adp, body }
}

/// The commands that have neither DATA nor TABi: any octet of it is too much (7).
fn takes_data(command: Command) -> bool {
    matches!(command, Command::Dat | Command::Rec | Command::Ech | Command::Aso | Command::Trf | Command::Trb)
}

/// 17, then 4 for a code that names no command, then 7; a refusal leaves buffer and length.
fn expected_build(fields: &Fields, data: &[u8], buffer: &[u8], length: usize) -> (u8, usize, Vec<u8>) {
    let refused = |number| (number, length, buffer.to_vec());
    if buffer.len() < frame::LONGEST {
        return refused(17);
    }
    let Some(command) = Command::known(fields.code) else { return refused(4) };
    if !takes_data(command) && !data.is_empty() {
        return refused(7);
    }
    let mut after = buffer.to_vec();
    match frame_of(command, fields, data).build(&mut after) {
        Ok(length) => (0, length, after),
        Err(number) => refused(number),
    }
}

fn build_case(fields: &Fields, data: &[u8], buffer: &[u8]) -> Case {
    let (mut room, mut length) = (Lent::new(buffer), 777);
    let number = ours::build(&mut room, fields, data, &mut length);
    let gave =
        BuildAnswer { number, length, buffer: hex::text(room.octets()), guards_kept: room.guards_kept() };
    let (number, length, after) = expected_build(fields, data, buffer, 777);
    let expected = BuildAnswer { number, length, buffer: hex::text(&after), guards_kept: true };
    same(gave, expected, || format!("{fields:?} DATA {} buffer of {}", hex::text(data), buffer.len()))
}

fn random_fields(rng: &mut Rng, code: u8) -> Fields {
    Fields {
        code,
        ads: rng.field(),
        adp: rng.octet(),
        za1: rng.field(),
        za2: rng.field(),
        tab: rng.octet(),
        station: rng.field(),
    }
}

/// All 16 commands with every DATA length from 0 to 130, every buffer length from 0 to 140, then random ones.
pub fn build(rng: &mut Rng, random_cases: usize) -> Result<usize, Disagreement> {
    let mut cases = 0;
    for command in frame::COMMANDS {
        for count in 0..=130 {
            let (fields, data) = (random_fields(rng, command as u8), rng.octets(count));
            build_case(&fields, &data, &rng.octets(130))?;
            build_case(&fields, &data[..count.min(6)], &rng.octets(count + 10))?;
            cases += 2;
        }
    }
    for _ in 0..random_cases {
        let code = if rng.once_in(8) { rng.octet() } else { rng.pick(&frame::COMMANDS) as u8 };
        let (fields, count) = (random_fields(rng, code), rng.below(125));
        let room = if rng.once_in(8) { rng.below(128) } else { 128 + rng.below(12) };
        let data = if rng.once_in(3) { vec![] } else { rng.octets(count) };
        build_case(&fields, &data, &rng.octets(room))?;
    }
    Ok(cases + random_cases)
}

/// What is lent for reading, before and after.
#[derive(Clone, PartialEq, Debug)]
struct ReadAnswer {
    number: u8,
    fields: Fields,
    data: String,
    length: usize,
    octets_kept: bool,
}

/// The fields as the model reads them; a field that the command does not carry is zero.
fn fields_of(frame: &Frame) -> (Fields, Vec<u8>) {
    let code = frame.body.command() as u8;
    let zero =
        Fields { code, ads: frame.ads, adp: frame.adp, za1: [0; 8], za2: [0; 8], tab: 0, station: [0; 6] };
    match frame.body.clone() {
        Body::Enq { tab } => (Fields { tab, ..zero }, vec![]),
        Body::Dat { tab, data } | Body::Trf { tab, data } | Body::Trb { tab, data } => {
            (Fields { tab, ..zero }, data)
        }
        Body::Rec { na1, tab, data } => (Fields { za1: na1, tab, ..zero }, data),
        Body::Ech { na1k, na2, tab, data } => (Fields { za1: na1k, za2: na2, tab, ..zero }, data),
        Body::Aut { na2k } => (Fields { za2: na2k, ..zero }, vec![]),
        Body::Aso { tabs } => (zero, tabs),
        Body::Rso { tab, ads } => (Fields { tab, station: ads, ..zero }, vec![]),
        _ => (zero, vec![]),
    }
}

fn read_case(rng: &mut Rng, octets: &[u8]) -> Case {
    let code = rng.octet();
    let (before, data) = (random_fields(rng, code), rng.octets(116));
    let (mut lent, mut fields, mut content, mut length) =
        (Lent::new(octets), before.clone(), data.clone(), 777);
    let number = ours::read(&mut lent, &mut fields, &mut content, &mut length);
    let octets_kept = lent.still_holds(octets);
    let gave = ReadAnswer { number, fields, data: hex::text(&content), length, octets_kept };
    let expected = match frame::read(octets) {
        Ok(frame) => {
            let (fields, its_data) = fields_of(&frame);
            let mut content = data;
            content[..its_data.len()].copy_from_slice(&its_data);
            let (data, length) = (hex::text(&content), its_data.len());
            ReadAnswer { number: 0, fields, data, length, octets_kept: true }
        }
        Err(number) => {
            ReadAnswer { number, fields: before, data: hex::text(&data), length: 777, octets_kept: true }
        }
    };
    same(gave, expected, || hex::text(octets))
}

/// Every length from 0 to 130 under every N; every code with every length under a right CRC; each bit of a frame of
/// each command turned; then random good, damaged, cut and lengthened frames and random octets.
pub fn read(rng: &mut Rng, random_cases: usize) -> Result<usize, Disagreement> {
    let mut cases = 0;
    for count in 0..=130 {
        for n in 0..=255 {
            let mut octets = rng.octets(count);
            if let Some(first) = octets.first_mut() {
                *first = n;
            }
            read_case(rng, &octets)?;
            cases += 1;
        }
    }
    for code in 0..=255 {
        for count in 0..=117 {
            let fields = rng.octets(count);
            read_case(rng, &frame::enclose([1, 2, 3, 4, 5, 6], 7, code, &fields))?;
            cases += 1;
        }
    }
    for command in frame::COMMANDS {
        let body = random_frames::body(rng, command);
        let good =
            Frame { ads: rng.field(), adp: rng.octet(), body }.octets().expect("DATA within its limit");
        for bit in 0..8 * good.len() {
            let mut damaged = good.clone();
            damaged[bit / 8] ^= 1 << (bit % 8);
            read_case(rng, &damaged)?;
            cases += 1;
        }
    }
    for _ in 0..random_cases {
        let octets = random_octets(rng);
        read_case(rng, &octets)?;
    }
    Ok(cases + random_cases)
}

fn random_octets(rng: &mut Rng) -> Vec<u8> {
    let (ads, count) = (rng.field(), rng.below(131));
    let good = random_frames::frame(rng, ads).octets().expect("DATA within its limit");
    match rng.below(6) {
        0 => rng.octets(count),
        1 => random_frames::damaged(rng, ads),
        2 => good[..rng.below(good.len())].to_vec(),
        3 => [good, rng.octets(1)].concat(),
        _ => good,
    }
}
