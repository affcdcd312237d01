//! What ESP adds to a packet, and what fits through the path (RFC 4301 section 8.2).
//!
//! An IPv4 packet that is too long is refused with the answer of
//! [`too_big`](super::too_big()), with DF or without. Without DF RFC 4301 section 8.2.1
//! would rather have it fragmented. Before it is sealed that can't be: the core refuses
//! fragments (E22), since ports can't be read in them. After it is sealed, the peer
//! would have to put pieces together that nobody has authenticated. So the sender is
//! told, which Linux heeds without DF too. The TUN device has the inner MTU: the case
//! comes only while the path's MTU has just become less.

/// ESP in tunnel mode over IPv4: the outer header, SPI and number (RFC 4303).
const BEFORE: usize = 20 + 8;
/// Padding's length and the next header.
const TRAILER: usize = 2;
/// HMAC-SHA-256-128 (RFC 4868).
const ICV: usize = 16;

/// The most octets that go to the tunnel's headers, with 3 octets of padding.
pub const OVERHEAD: u16 = (BEFORE + 3 + TRAILER + ICV) as u16;

/// The octets outside of a packet of `length` octets inside: padding takes payload and
/// trailer to a multiple of 4 (RFC 4303 section 2.4).
pub fn sealed_length(length: usize) -> usize {
    let padded = length.saturating_add(TRAILER).div_ceil(4).saturating_mul(4);
    padded.saturating_add(BEFORE + ICV)
}

/// The inner MTU that fits whatever the padding, 0 where there is no room.
pub fn inner_mtu(outer_mtu: u16) -> u16 {
    outer_mtu.saturating_sub(OVERHEAD)
}

/// True where a packet of `length` octets fits through a path of `outer_mtu`. Up to 3
/// octets more than [`inner_mtu`] may fit, by the padding.
pub fn fits(length: usize, outer_mtu: u16) -> bool {
    sealed_length(length) <= usize::from(outer_mtu)
}
