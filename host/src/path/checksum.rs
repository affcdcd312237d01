//! The Internet checksum (RFC 1071, RFC 1624).

use super::ip::{Family, Ip};
use super::octets::{put_u16, u16_at};

/// The sum of 16-bit words, folded to 16 bits. An odd octet at the end is the high one
/// of a word whose low octet is 0, so only the last part of a sum may be of odd length.
pub(super) fn sum(octets: &[u8]) -> u32 {
    // By 32 bits in the machine's order: the sum is the same but for the order of its
    // two octets (RFC 1071 section 2, B).
    let words = octets.chunks_exact(4);
    let rest = words.remainder();
    let mut total: u64 = words
        .map(|word| u64::from(u32::from_ne_bytes([word[0], word[1], word[2], word[3]])))
        .sum();
    let mut last = [0; 4];
    last[..rest.len()].copy_from_slice(rest);
    total += u64::from(u32::from_ne_bytes(last));
    while total > 0xffff {
        total = (total & 0xffff) + (total >> 16);
    }
    u32::from((total as u16).to_be())
}

/// Folds what several sums add up to.
pub(super) fn fold(mut total: u32) -> u16 {
    while total > 0xffff {
        total = (total & 0xffff) + (total >> 16);
    }
    total as u16
}

/// The sum over the pseudo header of TCP, UDP and ICMPv6: addresses, protocol and the
/// length of what the checksum is over (RFC 9293 section 3.1, RFC 8200 section 8.1).
pub(super) fn pseudo(packet: &[u8], ip: &Ip, length: usize) -> u32 {
    let addresses = match ip.family {
        Family::V4 => &packet[12..20],
        Family::V6 => &packet[8..40],
    };
    sum(addresses) + u32::from(ip.protocol) + u32::from(fold(length as u32))
}

/// Writes the checksum of an IPv4 header anew (RFC 791 section 3.1).
pub(super) fn write_ipv4(header: &mut [u8]) {
    put_u16(header, 10, 0);
    let checksum = !fold(sum(header));
    put_u16(header, 10, checksum);
}

/// The checksum after one word that it covers was changed (RFC 1624, equation 3).
pub(super) fn mended(checksum: u16, before: u16, after: u16) -> u16 {
    !fold(u32::from(!checksum) + u32::from(!before) + u32::from(after))
}

/// What a checksum over `octets` and `others` should be, where the field at `at`,
/// which is even, counts as 0.
pub(super) fn wanted(octets: &[u8], at: usize, others: u32) -> u16 {
    let field = u16_at(octets, at);
    // Taking a word away is adding its complement. It may leave 0xffff for 0, which is
    // the same sum; no sum over a pseudo header is 0 itself.
    let total = fold(sum(octets) + others + u32::from(!field));
    !total
}
