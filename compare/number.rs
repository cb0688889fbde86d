//! Count and length of the swap file: 01, Swap file ("groups of seven bits, low group first"), and 02, E10.

/// 02, E10: a number has at most so many octets.
const MOST_OCTETS: usize = 5;

/// The shortest form: the top bit is set on all octets but the last.
pub fn shortest_form(value: usize) -> Vec<u8> {
    let mut groups = vec![(value % 128) as u8];
    let mut rest = value / 128;
    while rest > 0 {
        *groups.last_mut().unwrap() |= 0x80;
        groups.push((rest % 128) as u8);
        rest /= 128;
    }
    groups
}

/// The number at the front of the octets with the count of its octets, of which E10 takes five at most, below
/// 2^32 and in its shortest form; the limit is the caller's to test.
pub fn read(octets: &[u8]) -> Option<(usize, usize)> {
    let last = octets.iter().take(MOST_OCTETS).position(|octet| octet & 0x80 == 0)?;
    let form = &octets[..=last];
    let groups = form.iter().map(|octet| u64::from(octet & 0x7F));
    let value = u32::try_from(groups.rev().fold(0, |value, group| value << 7 | group)).ok()? as usize;
    (form == shortest_form(value)).then_some((value, form.len()))
}

/// The same before E10, kept for the reader of that time: 01 bounds neither the octets of a number nor its
/// value, so one that no `usize` holds is the greatest here, over every limit.
pub fn read_before(octets: &[u8]) -> Option<(usize, usize)> {
    let last = octets.iter().position(|octet| octet & 0x80 == 0)?;
    let shortest = last == 0 || octets[last] != 0;
    let mut value = 0usize;
    for octet in octets[..=last].iter().rev() {
        value = value.saturating_mul(128).saturating_add((octet & 0x7F) as usize);
    }
    shortest.then_some((value, last + 1))
}
