//! The check field: 004 Annex E, by long division of polynomials, one bit after the other in the order of transmission.

/// D(X) = X^16 + X^15 + X^2 + 1 (004 Annex E.4) without its first term: bit n is the coefficient of X^n.
const DIVISOR: u16 = 0b1000_0000_0000_0101;

/// The octets as a bit string: "bits are transmitted in ascending order" (004 Table 8, send_octet).
fn bits_as_sent(octets: &[u8]) -> impl Iterator<Item = u16> + '_ {
    octets.iter().flat_map(|octet| (0..8).map(move |place| ((octet >> place) & 1) as u16))
}

/// The remainder by D(X) with one coefficient more brought down.
fn bring_down(remainder: u16, coefficient: u16) -> u16 {
    let longer = remainder << 1 | coefficient;
    if remainder >> 15 == 1 {
        longer ^ DIVISOR
    } else {
        longer
    }
}

/// The key R of a bit string A, the remainder of A(X)X^16 by D(X) (004 Annex E.2), as the two octets sent: its highest coefficient
/// goes first.
pub fn key(octets: &[u8]) -> [u8; 2] {
    bits_as_sent(octets).chain([0; 16]).fold(0, bring_down).reverse_bits().to_le_bytes()
}

/// The receiver's test: the bit string is exactly divisible by D(X) (004 Annex E.3).
pub fn divisible(octets: &[u8]) -> bool {
    bits_as_sent(octets).fold(0, bring_down) == 0
}
