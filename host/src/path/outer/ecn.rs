//! Explicit congestion notification through a tunnel (RFC 6040).

use crate::path::checksum::mended;
use crate::path::octets::{put_u16, u16_at};

/// The two bits of ECN (RFC 3168 section 5).
#[derive(Clone, Copy, Debug, PartialEq, Eq)]
pub enum Ecn {
    /// The transport knows no ECN.
    NotEct,
    /// ECT(1): the transport knows ECN.
    Ect1,
    /// ECT(0): the transport knows ECN.
    Ect0,
    /// Congestion was met.
    Ce,
}

/// What became of a packet that left the tunnel.
#[derive(Clone, Copy, Debug, PartialEq, Eq)]
pub enum Left {
    /// It goes on, with this mark.
    Passed {
        /// What its header says now.
        ecn: Ecn,
        /// True of pairs that nothing makes today, to be counted (RFC 6040 section 4.2).
        unusual: bool,
    },
    /// It has to be dropped: congestion was met, and its transport can't be told.
    Dropped,
    /// It is no IP packet, and wasn't touched.
    NotIp,
}

impl Ecn {
    /// The mark in the low two bits of an octet of traffic class.
    pub fn of_class(class: u8) -> Ecn {
        match class & 3 {
            0 => Ecn::NotEct,
            1 => Ecn::Ect1,
            2 => Ecn::Ect0,
            _ => Ecn::Ce,
        }
    }

    /// Its two bits.
    pub fn bits(self) -> u8 {
        match self {
            Ecn::NotEct => 0,
            Ecn::Ect1 => 1,
            Ecn::Ect0 => 2,
            Ecn::Ce => 3,
        }
    }
}

/// The traffic class (RFC 2474: DSCP, then ECN) of an IP packet of either family.
pub(super) fn class_of(packet: &[u8]) -> Option<u8> {
    let (first, second) = (*packet.first()?, *packet.get(1)?);
    match first >> 4 {
        4 => Some(second),
        6 => Some(first << 4 | second >> 4),
        _ => None,
    }
}

/// The table of RFC 6040 section 4.2 (figure 4): what the inner header is to say, or
/// nothing where the packet is dropped; and whether the pair is unusual.
fn table(inner: Ecn, outer: Ecn) -> (Option<Ecn>, bool) {
    match (inner, outer) {
        (Ecn::NotEct, Ecn::NotEct) => (Some(Ecn::NotEct), false),
        (Ecn::NotEct, Ecn::Ce) => (None, true),
        (Ecn::NotEct, _) => (Some(Ecn::NotEct), true),
        (Ecn::Ect0, Ecn::NotEct) => (Some(Ecn::Ect0), false),
        (Ecn::Ect0, outer) => (Some(outer), false),
        (Ecn::Ect1, Ecn::Ce) => (Some(Ecn::Ce), false),
        (Ecn::Ect1, outer) => (Some(Ecn::Ect1), outer == Ecn::Ect0),
        (Ecn::Ce, outer) => (Some(Ecn::Ce), outer == Ecn::Ect1),
    }
}

/// Carries the mark of the outer header over to the packet that came out of the tunnel,
/// and mends its IPv4 header's checksum. DSCP stays (RFC 4301 section 5.1.2.1).
pub fn leave_tunnel(packet: &mut [u8], outer: Ecn) -> Left {
    let Some(class) = class_of(packet) else {
        return Left::NotIp;
    };
    let v4 = packet[0] >> 4 == 4;
    if packet.len() < if v4 { 20 } else { 40 } {
        return Left::NotIp;
    }
    let (ecn, unusual) = match table(Ecn::of_class(class), outer) {
        (Some(ecn), unusual) => (ecn, unusual),
        (None, _) => return Left::Dropped,
    };
    let class = class & !3 | ecn.bits();
    if v4 && class != packet[1] {
        let before = u16_at(packet, 0);
        packet[1] = class;
        let checksum = mended(u16_at(packet, 10), before, u16_at(packet, 0));
        put_u16(packet, 10, checksum);
    }
    if !v4 {
        packet[0] = packet[0] & 0xf0 | class >> 4;
        packet[1] = packet[1] & 0x0f | class << 4;
    }
    Left::Passed { ecn, unusual }
}
