//! Frames without DLMS: 01, Frames; 004 4.4.2 to 4.4.8, whose drawings stand in 001 2.4.1 to 2.4.9.

use crate::crc;
use std::ops::RangeInclusive;

/// A number of 01's table, "Numbers handed back".
pub type Number = u8;

/// ADS as written, most significant octet first.
pub type Address = [u8; 6];

/// A random number, its cipher, or a key, as written: FIPS 46-3's bit 1 is the top bit of the first octet.
pub type Block = [u8; 8];

/// 004 4.4.8: the only broadcast address is 000000000000.
pub const BROADCAST: Address = [0; 6];

/// 01, Frames: the greatest whole length, and the least length of a
/// lent frame or reply buffer (01, number 17).
pub const LONGEST: usize = 128;

/// 004 Annex D, Table D.1.
#[derive(Clone, Copy, PartialEq, Eq, Debug)]
pub enum Command {
    Enq = 0x01,
    Dat = 0x02,
    Rec = 0x03,
    Ech = 0x04,
    Aut = 0x05,
    Eos = 0x06,
    Aso = 0x07,
    Rso = 0x08,
    Ib = 0x09,
    Drj = 0x0A,
    Arj = 0x0B,
    Trf = 0x0C,
    Trb = 0x0D,
    Tra = 0x0E,
    Pre = 0x10,
    Sel = 0x11,
}

use Command::*;

pub const COMMANDS: [Command; 16] =
    [Enq, Dat, Rec, Ech, Aut, Eos, Aso, Rso, Ib, Drj, Arj, Trf, Trb, Tra, Pre, Sel];

impl Command {
    /// 01, Receiving: known are the commands named under Frames.
    pub fn known(code: u8) -> Option<Command> {
        COMMANDS.into_iter().find(|command| *command as u8 == code)
    }

    /// 01, Frames (the table), and 001 2.4.1 to 2.4.9: the whole lengths that the command can have.
    pub fn lengths(self) -> RangeInclusive<usize> {
        match self {
            Enq => 12..=12,
            Dat | Trf | Trb => 12..=128,
            Rec | Ech => 28..=128,
            Aut | Eos => 27..=27,
            Aso => 12..=51,
            Rso => 18..=18,
            Ib | Drj | Arj | Tra | Pre | Sel => 11..=11,
        }
    }
}

/// The fields after COM that carry information; the zero fields of REC, AUT and EOS carry none.
#[derive(Clone, PartialEq, Eq, Debug)]
pub enum Body {
    Enq { tab: u8 },
    Dat { tab: u8, data: Vec<u8> },
    Rec { na1: Block, tab: u8, data: Vec<u8> },
    Ech { na1k: Block, na2: Block, tab: u8, data: Vec<u8> },
    Aut { na2k: Block },
    Eos,
    Aso { tabs: Vec<u8> },
    Rso { tab: u8, ads: Address },
    Ib,
    Drj,
    Arj,
    Trf { tab: u8, data: Vec<u8> },
    Trb { tab: u8, data: Vec<u8> },
    Tra,
    Pre,
    Sel,
}

#[derive(Clone, PartialEq, Eq, Debug)]
pub struct Frame {
    pub ads: Address,
    pub adp: u8,
    pub body: Body,
}

/// 004 4.4.8: a field of several octets goes out with its least significant octet first.
fn turned<const WIDTH: usize>(field: &[u8]) -> [u8; WIDTH] {
    let mut octets: [u8; WIDTH] = field.try_into().expect("a field of this width");
    octets.reverse();
    octets
}

impl Body {
    pub fn command(&self) -> Command {
        match self {
            Body::Enq { .. } => Enq,
            Body::Dat { .. } => Dat,
            Body::Rec { .. } => Rec,
            Body::Ech { .. } => Ech,
            Body::Aut { .. } => Aut,
            Body::Eos => Eos,
            Body::Aso { .. } => Aso,
            Body::Rso { .. } => Rso,
            Body::Ib => Ib,
            Body::Drj => Drj,
            Body::Arj => Arj,
            Body::Trf { .. } => Trf,
            Body::Trb { .. } => Trb,
            Body::Tra => Tra,
            Body::Pre => Pre,
            Body::Sel => Sel,
        }
    }

    /// The octets between COM and CRC, as the drawings of 001 2.4.1 to 2.4.9 have them.
    fn fields(&self) -> Vec<u8> {
        let zero = [0; 8];
        match self {
            Body::Enq { tab } => vec![*tab],
            Body::Dat { tab, data } | Body::Trf { tab, data } | Body::Trb { tab, data } => {
                [&[*tab], &data[..]].concat()
            }
            Body::Rec { na1, tab, data } => [&turned::<8>(na1)[..], &zero, &[*tab], data].concat(),
            Body::Ech { na1k, na2, tab, data } => {
                [&turned::<8>(na1k)[..], &turned::<8>(na2), &[*tab], data].concat()
            }
            Body::Aut { na2k } => [zero, turned(na2k)].concat(),
            Body::Eos => [zero, zero].concat(),
            Body::Aso { tabs } => tabs.clone(),
            Body::Rso { tab, ads } => [&[*tab], &turned::<6>(ads)[..]].concat(),
            Body::Ib | Body::Drj | Body::Arj | Body::Tra | Body::Pre | Body::Sel => vec![],
        }
    }

    /// The fields of a command whose length has been tested.
    fn read(command: Command, fields: &[u8]) -> Body {
        match command {
            Enq => Body::Enq { tab: fields[0] },
            Dat => Body::Dat { tab: fields[0], data: fields[1..].to_vec() },
            Trf => Body::Trf { tab: fields[0], data: fields[1..].to_vec() },
            Trb => Body::Trb { tab: fields[0], data: fields[1..].to_vec() },
            Rec => Body::Rec { na1: turned(&fields[..8]), tab: fields[16], data: fields[17..].to_vec() },
            Ech => Body::Ech {
                na1k: turned(&fields[..8]),
                na2: turned(&fields[8..16]),
                tab: fields[16],
                data: fields[17..].to_vec(),
            },
            Aut => Body::Aut { na2k: turned(&fields[8..16]) },
            Eos => Body::Eos,
            Aso => Body::Aso { tabs: fields.to_vec() },
            Rso => Body::Rso { tab: fields[0], ads: turned(&fields[1..7]) },
            Ib => Body::Ib,
            Drj => Body::Drj,
            Arj => Body::Arj,
            Tra => Body::Tra,
            Pre => Body::Pre,
            Sel => Body::Sel,
        }
    }
}

/// N, ADS, ADP, COM, the fields, CRC; N counts them all (004 4.4.8).
pub fn enclose(ads: Address, adp: u8, com: u8, fields: &[u8]) -> Vec<u8> {
    let n = (11 + fields.len()) as u8;
    let mut octets = [&[n], &turned::<6>(&ads)[..], &[adp, com], fields].concat();
    octets.extend(crc::key(&octets));
    octets
}

impl Frame {
    /// The whole frame, or 7 where DATA is too long or TABi are none or too many (01, Frames).
    pub fn octets(&self) -> Result<Vec<u8>, Number> {
        let command = self.body.command();
        let fields = self.body.fields();
        if !command.lengths().contains(&(11 + fields.len())) {
            return Err(7);
        }
        Ok(enclose(self.ads, self.adp, command as u8, &fields))
    }

    /// The builder: 17, then 7; the whole length, and octets past the
    /// frame are kept (01, Numbers handed back).
    pub fn build(&self, buffer: &mut [u8]) -> Result<usize, Number> {
        if buffer.len() < LONGEST {
            return Err(17);
        }
        let octets = self.octets()?;
        buffer[..octets.len()].copy_from_slice(&octets);
        Ok(octets.len())
    }
}

/// 01, Receiving: the whole length that N states is under 11 or over 128.
pub fn refused_n(n: u8) -> bool {
    n < 11 || n > 128
}

/// 01, Receiving: the checks of as many octets as N states: CRC (2), known command (4), its length (5).
pub fn judge(octets: &[u8]) -> Result<Frame, Number> {
    if !crc::divisible(octets) {
        return Err(2);
    }
    let command = Command::known(octets[8]).ok_or(4)?;
    if !command.lengths().contains(&octets.len()) {
        return Err(5);
    }
    let fields = &octets[9..octets.len() - 2];
    Ok(Frame { ads: turned(&octets[1..7]), adp: octets[7], body: Body::read(command, fields) })
}

/// A whole frame in one piece: 1, then 3 where it isn't as long as its N says, then 2, 4, 5.
pub fn read(octets: &[u8]) -> Result<Frame, Number> {
    match octets.first() {
        None => Err(3),
        Some(n) if refused_n(*n) => Err(1),
        Some(n) if octets.len() != *n as usize => Err(3),
        Some(_) => judge(octets),
    }
}
