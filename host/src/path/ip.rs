//! Where an IP packet of either family has its transport header.

use super::octets::u16_at;

/// A transport protocol, or what else a header names as next (IANA).
pub(super) const ICMP: u8 = 1;
pub(super) const TCP: u8 = 6;
pub(super) const UDP: u8 = 17;
pub(super) const ESP: u8 = 50;
pub(super) const ICMPV6: u8 = 58;
const HOP_BY_HOP: u8 = 0;
const ROUTING: u8 = 43;
const FRAGMENT: u8 = 44;
const DESTINATION: u8 = 60;

/// The version of IP.
#[derive(Clone, Copy, Debug, PartialEq, Eq)]
pub(super) enum Family {
    V4,
    V6,
}

/// What the headers of IP before the transport header say.
#[derive(Clone, Copy, Debug, PartialEq, Eq)]
pub(super) struct Ip {
    pub family: Family,
    /// Where the transport header begins, behind options and extension headers.
    pub transport: usize,
    pub protocol: u8,
    /// The packet's octets by its own header.
    pub length: usize,
    /// The offset of a fragment in units of 8 octets: 0 for the first, and for a whole.
    pub offset: u16,
    /// True of each fragment, the first and the last among them.
    pub fragment: bool,
    /// True where a routing header has segments left: then the pseudo header's
    /// destination is another than the packet's (RFC 8200 section 8.1).
    pub routed: bool,
}

impl Ip {
    /// Reads the headers, or nothing where they don't fit into the octets.
    pub fn of(packet: &[u8]) -> Option<Ip> {
        match packet.first()? >> 4 {
            4 => Ip::of_v4(packet),
            6 => Ip::of_v6(packet),
            _ => None,
        }
    }

    fn of_v4(packet: &[u8]) -> Option<Ip> {
        let header = usize::from(packet[0] & 0xf) * 4;
        if header < 20 || packet.len() < header {
            return None;
        }
        let flags = u16_at(packet, 6);
        Some(Ip {
            family: Family::V4,
            transport: header,
            protocol: packet[9],
            length: usize::from(u16_at(packet, 2)),
            offset: flags & 0x1fff,
            fragment: flags & 0x3fff != 0,
            routed: false,
        })
    }

    fn of_v6(packet: &[u8]) -> Option<Ip> {
        if packet.len() < 40 {
            return None;
        }
        let mut ip = Ip {
            family: Family::V6,
            transport: 40,
            protocol: packet[6],
            length: 40 + usize::from(u16_at(packet, 4)),
            offset: 0,
            fragment: false,
            routed: false,
        };
        // Behind the header of a later fragment stands what isn't a header.
        while ip.offset == 0 {
            let header = match ip.protocol {
                HOP_BY_HOP | ROUTING | DESTINATION | FRAGMENT => packet.get(ip.transport..)?,
                _ => break,
            };
            if header.len() < 8 {
                return None;
            }
            let length = match ip.protocol {
                FRAGMENT => {
                    ip.fragment = true;
                    ip.offset = u16_at(header, 2) >> 3;
                    8
                }
                _ => usize::from(header[1]) * 8 + 8,
            };
            ip.routed |= ip.protocol == ROUTING && header[3] != 0;
            if header.len() < length {
                return None;
            }
            ip.protocol = header[0];
            ip.transport += length;
        }
        Some(ip)
    }
}
