//! Octets as hexadecimal digits, for printing and for the published data.

use std::fmt;

/// Octets that print as digits, so that a disagreement shows them as the papers do.
#[derive(PartialEq)]
pub struct Hex<'a>(pub &'a [u8]);

impl fmt::Debug for Hex<'_> {
    fn fmt(&self, out: &mut fmt::Formatter) -> fmt::Result {
        out.write_str(&text(self.0))
    }
}

pub fn text(octets: &[u8]) -> String {
    octets.iter().map(|octet| format!("{octet:02X}")).collect()
}

/// The octets that a text names; all but hexadecimal digits is passed over.
pub fn octets(text: &str) -> Vec<u8> {
    let digits: Vec<u8> =
        text.chars().filter_map(|digit| digit.to_digit(16)).map(|digit| digit as u8).collect();
    digits.chunks(2).map(|pair| 16 * pair[0] + pair[1]).collect()
}

/// A field of fixed width.
pub fn field<const WIDTH: usize>(text: &str) -> [u8; WIDTH] {
    octets(text).try_into().expect("as many digits as the field has")
}
