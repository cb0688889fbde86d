//! The check key in its other usual form: a shift register takes an octet at once and makes eight steps. The compiler knows this loop and
//! puts a table of 256 entries of its own in its place, so what runs is not bit by bit; it is measured to say what that brings.

/// D(X) of 004 Annex E.4 without its first term, the coefficient of X^15 in bit 0.
const DIVISOR: u16 = 0xA001;

pub fn key(octets: &[u8]) -> [u8; 2] {
    let mut register = 0u16;
    for octet in octets {
        register ^= *octet as u16;
        for _ in 0..8 {
            register = if register % 2 == 1 { register >> 1 ^ DIVISOR } else { register >> 1 };
        }
    }
    register.to_le_bytes()
}
