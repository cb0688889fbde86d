//! The receiver of either station: 01, Receiving.

use crate::frame::{self, Frame, Number};

#[derive(Clone, PartialEq, Debug)]
pub enum Receiver {
    /// The next octet is an N.
    Empty,
    /// After answer 1, until a gap.
    Skipping,
    /// The octets of a frame so far, N first.
    Partial(Vec<u8>),
}

#[derive(Clone, PartialEq, Debug)]
pub enum Heard {
    Nothing,
    Bad(Number),
    Good(Frame),
}

impl Receiver {
    pub fn octet(&mut self, octet: u8) -> Heard {
        match self {
            Receiver::Empty if frame::refused_n(octet) => {
                *self = Receiver::Skipping;
                Heard::Bad(1)
            }
            Receiver::Empty => {
                *self = Receiver::Partial(vec![octet]);
                Heard::Nothing
            }
            Receiver::Skipping => Heard::Nothing,
            Receiver::Partial(held) => {
                held.push(octet);
                if held.len() < held[0] as usize {
                    return Heard::Nothing;
                }
                let judged = frame::judge(held);
                *self = Receiver::Empty;
                judged.map_or_else(Heard::Bad, Heard::Good)
            }
        }
    }

    /// A gap inside a frame answers 3; it ends skipping without a number; between frames it does nothing.
    pub fn gap(&mut self) -> Option<Number> {
        match std::mem::replace(self, Receiver::Empty) {
            Receiver::Partial(_) => Some(3),
            Receiver::Empty | Receiver::Skipping => None,
        }
    }

    /// 01, The card: a session end empties the receiver, which then awaits an N.
    pub fn session_end(&mut self) {
        *self = Receiver::Empty;
    }

    /// 01, The card (12): no partly received frame whose N answer 1 would
    /// refuse, or with as many octets as N states.
    pub fn sound(&self) -> bool {
        match self {
            Receiver::Empty | Receiver::Skipping => true,
            Receiver::Partial(held) => {
                held.first().is_some_and(|n| !frame::refused_n(*n) && held.len() < *n as usize)
            }
        }
    }
}
