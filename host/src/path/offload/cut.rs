//! Cutting a superpacket (TSO and USO in software).

use super::{Malformed, Packets, VirtioHeader};
use crate::path::checksum::{fold, pseudo, sum, wanted, write_ipv4};
use crate::path::ip::{Family, Ip, TCP, UDP};
use crate::path::octets::{put_u16, put_u32, u16_at, u32_at};

/// Where TCP has its checksum.
pub(super) const TCP_CHECKSUM: usize = 16;
/// Where UDP has its checksum.
pub(super) const UDP_CHECKSUM: usize = 6;
/// The flags of TCP (RFC 9293 section 3.1) that stand on the last segment alone.
const FIN_PSH: u8 = 0x01 | 0x08;
/// The flag that stands on the first segment alone (RFC 3168 section 6.1.2).
const CWR: u8 = 0x80;

/// Adds to `out` the packets that one read of the TUN device makes, each with its
/// checksums, and tells how many. A packet that is none of a superpacket is one.
///
/// What is malformed, or makes more packets than `limit`, is a fault and adds nothing.
pub fn cut(read: &[u8], limit: usize, out: &mut Packets) -> Result<usize, Malformed> {
    let (header, packet) = VirtioHeader::split(read)?;
    if header.gso_type == VirtioHeader::GSO_NONE {
        within(1, limit)?;
        one(&header, packet, out)?;
        return Ok(1);
    }
    let whole = Superpacket::of(&header, packet)?;
    within(whole.pieces(), limit)?;
    for piece in 0..whole.pieces() {
        whole.piece(piece, out);
    }
    Ok(whole.pieces())
}

fn within(packets: usize, limit: usize) -> Result<(), Malformed> {
    match packets > limit {
        true => Err(Malformed::Many { packets, limit }),
        false => Ok(()),
    }
}

/// A packet by itself, whose checksum may be still to be made: its field has the pseudo
/// header's sum, so it counts as all else.
fn one(header: &VirtioHeader, packet: &[u8], out: &mut Packets) -> Result<(), Malformed> {
    if !header.needs_csum() {
        out.push([packet]);
        return Ok(());
    }
    let fault = Malformed::Checksum {
        start: header.csum_start,
        offset: header.csum_offset,
    };
    let start = usize::from(header.csum_start);
    let field = start + usize::from(header.csum_offset);
    let shortest = match packet[0] >> 4 {
        4 => usize::from(packet[0] & 0xf).max(5) * 4,
        _ => 40,
    };
    if start < shortest || field + 2 > packet.len() {
        return Err(fault);
    }
    let checksum = !fold(sum(&packet[start..]));
    // 0 would say of UDP that there is none (RFC 768). To TCP both are the same.
    put_u16(
        out.push([packet]),
        field,
        if checksum == 0 { 0xffff } else { checksum },
    );
    Ok(())
}

/// A superpacket that was looked at.
struct Superpacket<'a> {
    packet: &'a [u8],
    ip: Ip,
    /// The octets of all headers, which each piece has.
    headers: usize,
    /// The octets of payload of each piece but the last.
    size: usize,
    /// False where UDP goes without a checksum, as it may over IPv4.
    summed: bool,
}

impl<'a> Superpacket<'a> {
    fn of(header: &VirtioHeader, packet: &'a [u8]) -> Result<Superpacket<'a>, Malformed> {
        let gso_type = header.gso_type;
        let (family, protocol) = match gso_type & !VirtioHeader::GSO_ECN {
            VirtioHeader::GSO_TCPV4 => (Some(Family::V4), TCP),
            VirtioHeader::GSO_TCPV6 => (Some(Family::V6), TCP),
            VirtioHeader::GSO_UDP_L4 if gso_type & VirtioHeader::GSO_ECN == 0 => (None, UDP),
            _ => return Err(Malformed::Type { gso_type }),
        };
        if header.gso_size == 0 {
            return Err(Malformed::Size);
        }
        let length = packet.len();
        let ip = Ip::of(packet).ok_or(Malformed::Ip { length })?;
        if ip.length != length {
            let told = ip.length;
            return Err(Malformed::Length { told, length });
        }
        if ip.fragment {
            return Err(Malformed::Fragment);
        }
        if ip.protocol != protocol || family.is_some_and(|family| family != ip.family) {
            return Err(Malformed::Mismatch {
                gso_type,
                version: packet[0] >> 4,
                protocol: ip.protocol,
            });
        }
        if ip.routed {
            return Err(Malformed::Routed);
        }
        let transport = &packet[ip.transport..];
        let fault = Malformed::Transport {
            at: ip.transport,
            length,
        };
        let own = transport_header(protocol, transport).ok_or(fault)?;
        let field = match protocol {
            TCP => TCP_CHECKSUM,
            _ => UDP_CHECKSUM,
        };
        let (start, offset) = (header.csum_start, header.csum_offset);
        let fits = usize::from(start) == ip.transport && usize::from(offset) == field;
        if header.needs_csum() && !fits {
            return Err(Malformed::Checksum { start, offset });
        }
        let none = protocol == UDP && ip.family == Family::V4 && u16_at(transport, field) == 0;
        Ok(Superpacket {
            packet,
            headers: ip.transport + own,
            size: usize::from(header.gso_size),
            summed: header.needs_csum() || !none,
            ip,
        })
    }

    fn payload(&self) -> usize {
        self.packet.len() - self.headers
    }

    fn pieces(&self) -> usize {
        self.payload().div_ceil(self.size).max(1)
    }

    /// Adds the piece of this number, from 0.
    fn piece(&self, number: usize, out: &mut Packets) {
        let before = number * self.size;
        let start = self.headers + before;
        let end = self.packet.len().min(start + self.size);
        let parts = [&self.packet[..self.headers], &self.packet[start..end]];
        let piece = out.push(parts);
        let length = piece.len();
        let (at, last) = (self.ip.transport, end == self.packet.len());
        write_length(piece, &self.ip, length);
        if self.ip.family == Family::V4 {
            let first = u16_at(piece, 4);
            put_u16(piece, 4, first.wrapping_add(number as u16));
            write_ipv4(&mut piece[..at]);
        }
        let others = pseudo(piece, &self.ip, length - at);
        let transport = &mut piece[at..];
        if self.ip.protocol == TCP {
            let first = u32_at(transport, 4);
            put_u32(transport, 4, first.wrapping_add(before as u32));
            if !last {
                transport[13] &= !FIN_PSH;
            }
            if number > 0 {
                transport[13] &= !CWR;
            }
            let checksum = wanted(transport, TCP_CHECKSUM, others);
            put_u16(transport, TCP_CHECKSUM, checksum);
        } else {
            put_u16(transport, 4, (length - at) as u16);
            if self.summed {
                let checksum = udp_checksum(transport, others);
                put_u16(transport, UDP_CHECKSUM, checksum);
            }
        }
    }
}

/// The octets of a header of TCP or UDP, or nothing where they reach too far.
pub(super) fn transport_header(protocol: u8, transport: &[u8]) -> Option<usize> {
    let length = match protocol {
        TCP => usize::from(transport.get(12)? >> 4) * 4,
        _ => 8,
    };
    let least = if protocol == TCP { 20 } else { 8 };
    (length >= least && length <= transport.len()).then_some(length)
}

/// The checksum of a UDP datagram, where 0 is written as its equal (RFC 768).
pub(super) fn udp_checksum(transport: &[u8], others: u32) -> u16 {
    match wanted(transport, UDP_CHECKSUM, others) {
        0 => 0xffff,
        checksum => checksum,
    }
}

/// Writes the length of a packet into its IP header.
pub(super) fn write_length(packet: &mut [u8], ip: &Ip, length: usize) {
    match ip.family {
        Family::V4 => put_u16(packet, 2, length as u16),
        Family::V6 => put_u16(packet, 4, (length - 40) as u16),
    }
}
