//! The answer to the inside about a packet that is too long.

use crate::path::checksum::{fold, pseudo, sum, write_ipv4};
use crate::path::ip::{Family, Ip, ICMP, ICMPV6};
use crate::path::octets::{put_u16, put_u32};

/// The most octets of an answer by IPv4 (RFC 1812 section 4.3.2.3).
const LONGEST_V4: usize = 576;
/// The most octets of an answer by IPv6 (RFC 4443 section 3.2: the least MTU).
const LONGEST_V6: usize = 1280;
/// Hops of an answer.
const HOPS: u8 = 64;
/// Precedence of internetwork control (RFC 1812 section 4.3.2.5).
const CONTROL: u8 = 0xc0;

/// The answer to a packet that is longer than `mtu`, the inner one: ICMP 'fragmentation
/// needed' (type 3, code 4, RFC 1191 section 4) or ICMPv6 'packet too big' (RFC 4443
/// section 3.2), with as much of the packet as fits.
///
/// Its source is the packet's destination: Linux drops a packet from a device whose
/// source is one of its own addresses, and the destination is routed to that device.
///
/// None is given where none may be (RFC 1122 section 3.2.2, RFC 4443 section 2.4): for
/// ICMP errors, fragments but the first, sources and destinations that aren't one
/// station. Of IPv6 a multicast destination could be answered, but not be a source.
pub fn too_big(packet: &[u8], mtu: u16) -> Option<Vec<u8>> {
    let ip = Ip::of(packet)?;
    if ip.offset != 0 || !one_station(packet, &ip) || is_error(packet, &ip) {
        return None;
    }
    Some(match ip.family {
        Family::V4 => answer_v4(packet, mtu),
        Family::V6 => answer_v6(packet, mtu),
    })
}

/// True where both addresses are of one station each.
fn one_station(packet: &[u8], ip: &Ip) -> bool {
    match ip.family {
        // This network, loopback, multicast and what is reserved, broadcast among it
        // (RFC 1122 section 3.2.1.3).
        Family::V4 => {
            let one = |first: u8| first != 0 && first != 127 && first < 224;
            one(packet[12]) && one(packet[16])
        }
        // Unspecified, loopback (RFC 4291 section 2.5) and multicast (section 2.7).
        Family::V6 => {
            let one = |address: &[u8]| {
                let low = address[..15].iter().all(|octet| *octet == 0) && address[15] < 2;
                !low && address[0] != 0xff
            };
            one(&packet[8..24]) && one(&packet[24..40])
        }
    }
}

/// True of an ICMP error, of a redirect, and of ICMP whose type isn't there.
fn is_error(packet: &[u8], ip: &Ip) -> bool {
    let kind = packet.get(ip.transport).copied();
    match (ip.family, ip.protocol) {
        // Unreachable, source quench, redirect, time exceeded, parameter problem.
        (Family::V4, ICMP) => matches!(kind, None | Some(3 | 4 | 5 | 11 | 12)),
        // Errors are below 128, a redirect is 137 (RFC 4861 section 4.5).
        (Family::V6, ICMPV6) => !matches!(kind, Some(128..=136 | 138..)),
        _ => false,
    }
}

fn answer_v4(packet: &[u8], mtu: u16) -> Vec<u8> {
    let (header, icmp) = (20, 8);
    let quoted = &packet[..packet.len().min(LONGEST_V4 - header - icmp)];
    let mut answer = vec![0; header + icmp];
    answer.extend_from_slice(quoted);
    let length = answer.len();
    answer[0] = 0x45;
    answer[1] = CONTROL;
    put_u16(&mut answer, 2, length as u16);
    answer[8] = HOPS;
    answer[9] = ICMP;
    answer[12..16].copy_from_slice(&packet[16..20]);
    answer[16..20].copy_from_slice(&packet[12..16]);
    write_ipv4(&mut answer[..header]);
    let message = &mut answer[header..];
    message[0] = 3;
    message[1] = 4;
    put_u16(message, 6, mtu);
    let checksum = !fold(sum(message));
    put_u16(message, 2, checksum);
    answer
}

fn answer_v6(packet: &[u8], mtu: u16) -> Vec<u8> {
    let (header, icmp) = (40, 8);
    let quoted = &packet[..packet.len().min(LONGEST_V6 - header - icmp)];
    let mut answer = vec![0; header + icmp];
    answer.extend_from_slice(quoted);
    let length = answer.len();
    answer[0] = 0x60;
    put_u16(&mut answer, 4, (length - header) as u16);
    answer[6] = ICMPV6;
    answer[7] = HOPS;
    answer[8..24].copy_from_slice(&packet[24..40]);
    answer[24..40].copy_from_slice(&packet[8..24]);
    answer[header] = 2;
    put_u32(&mut answer, header + 4, u32::from(mtu));
    let ip = Ip {
        family: Family::V6,
        transport: header,
        protocol: ICMPV6,
        length,
        offset: 0,
        fragment: false,
        routed: false,
    };
    let others = pseudo(&answer, &ip, length - header);
    let checksum = !fold(sum(&answer[header..]) + others);
    put_u16(&mut answer, header + 2, checksum);
    answer
}
