//! Random frames of all 16 commands, and damage to whole frames.

use crate::frame::{self, Address, Body, Command, Frame};
use crate::rng::Rng;

/// DATA is often empty or as long as it can be.
fn data(rng: &mut Rng, limit: usize) -> Vec<u8> {
    let count = match rng.below(8) {
        0 => 0,
        1 => limit,
        2 => limit - 1,
        _ => rng.below(limit + 1),
    };
    rng.octets(count)
}

pub fn body(rng: &mut Rng, command: Command) -> Body {
    let tab = rng.octet();
    match command {
        Command::Enq => Body::Enq { tab },
        Command::Dat => Body::Dat { tab, data: data(rng, 116) },
        Command::Rec => Body::Rec { na1: rng.field(), tab, data: data(rng, 100) },
        Command::Ech => Body::Ech { na1k: rng.field(), na2: rng.field(), tab, data: data(rng, 100) },
        Command::Aut => Body::Aut { na2k: rng.field() },
        Command::Eos => Body::Eos,
        Command::Aso => Body::Aso { tabs: [vec![tab], data(rng, 39)].concat() },
        Command::Rso => Body::Rso { tab, ads: rng.field() },
        Command::Ib => Body::Ib,
        Command::Drj => Body::Drj,
        Command::Arj => Body::Arj,
        Command::Trf => Body::Trf { tab, data: data(rng, 116) },
        Command::Trb => Body::Trb { tab, data: data(rng, 116) },
        Command::Tra => Body::Tra,
        Command::Pre => Body::Pre,
        Command::Sel => Body::Sel,
    }
}

pub fn frame(rng: &mut Rng, ads: Address) -> Frame {
    let command = rng.pick(&frame::COMMANDS);
    Frame { ads, adp: rng.octet(), body: body(rng, command) }
}

/// A frame that one of the checks refuses: a bit turned (2, or 1 or 3 where it is a bit of N), a code not
/// in use (4), a length its command can't have (5). By chance it may be a good one.
pub fn damaged(rng: &mut Rng, ads: Address) -> Vec<u8> {
    match rng.below(3) {
        0 => {
            let mut octets = frame(rng, ads).octets().expect("DATA within its limit");
            rng.turn_bit(&mut octets);
            octets
        }
        1 => {
            let (code, count) = (rng.octet(), rng.below(118));
            frame::enclose(ads, rng.octet(), code, &rng.octets(count))
        }
        _ => {
            let (command, count) = (rng.pick(&frame::COMMANDS), rng.below(118));
            frame::enclose(ads, rng.octet(), command as u8, &rng.octets(count))
        }
    }
}
