//! Joining packets that come up (GRO in software).

use super::cut::{transport_header, udp_checksum, write_length, TCP_CHECKSUM, UDP_CHECKSUM};
use super::{Offloads, Packets, VirtioHeader};
use crate::path::checksum::{fold, pseudo, wanted, write_ipv4};
use crate::path::ip::{Family, Ip, TCP, UDP};
use crate::path::octets::{put_u16, u16_at, u32_at};

/// The longest packet that a join makes.
const LONGEST: usize = 65_535;
/// Flags of TCP (RFC 9293 section 3.1): others than these three keep a segment alone.
const PSH: u8 = 0x08;
const ACK: u8 = 0x10;
const ECE: u8 = 0x40;

/// Joins lists of packets, and keeps its memory from one to the next.
///
/// TCP segments of one flow are joined where each has the next sequence number and the
/// same acknowledgement, window, options and flags. UDP datagrams are joined where they
/// are of one flow. All are of one length but the last, which may be shorter.
/// Whatever else cutting would not give back has to agree too: each octet of the IP
/// header but length, identification (which rises by one) and checksum.
#[derive(Debug)]
pub struct Joiner {
    offloads: Offloads,
    runs: Vec<Run>,
    /// For each packet of the list, the next of its run.
    next: Vec<Option<usize>>,
}

/// What tells one flow from another.
#[derive(Clone, Copy, Debug, PartialEq, Eq)]
struct Flow {
    protocol: u8,
    family: Family,
    addresses: [u8; 32],
    ports: u32,
}

/// What can be joined: where its parts are.
#[derive(Clone, Copy, Debug)]
struct Piece {
    ip: Ip,
    headers: usize,
    payload: usize,
}

/// Packets that are one write, or are to be.
#[derive(Clone, Copy, Debug)]
struct Run {
    /// Nothing of a packet that is neither TCP nor UDP.
    flow: Option<Flow>,
    /// The first packet's parts; nothing where nothing follows any more.
    open: Option<Piece>,
    /// The first packet's parts, where it could be joined.
    piece: Option<Piece>,
    first: usize,
    last: usize,
    count: usize,
    /// The octets of the joined packet.
    length: usize,
}

impl Joiner {
    /// A joiner that makes what these offloads allow, and nothing else.
    pub fn new(offloads: Offloads) -> Joiner {
        Joiner {
            offloads,
            runs: Vec::new(),
            next: Vec::new(),
        }
    }

    /// Adds to `out` what is to be written of a list of packets: a virtio header and
    /// a packet each. Packets of one flow keep their order. A packet that isn't joined
    /// is as it was, behind a header of zeros.
    pub fn join(&mut self, packets: &[&[u8]], out: &mut Packets) {
        self.runs.clear();
        self.next.clear();
        self.next.resize(packets.len(), None);
        for (number, packet) in packets.iter().enumerate() {
            self.take(number, packet, packets);
        }
        for run in &self.runs {
            self.write(run, packets, out);
        }
    }

    /// Puts one packet behind the open run of its flow, or begins another.
    fn take(&mut self, number: usize, packet: &[u8], packets: &[&[u8]]) {
        let ip = Ip::of(packet).filter(|ip| ip.length == packet.len() && !ip.fragment);
        let flow = ip.and_then(|ip| Flow::of(packet, &ip));
        let piece = match (ip, flow) {
            (Some(ip), Some(_)) if self.allows(&ip) => Piece::of(packet, ip),
            _ => None,
        };
        if flow.is_some() {
            let of_flow = |run: &&mut Run| run.open.is_some() && run.flow == flow;
            if let Some(run) = self.runs.iter_mut().rev().find(of_flow) {
                if let (Some(first), Some(piece)) = (run.open, piece) {
                    let length = run.length + piece.payload;
                    let head = packets[run.first];
                    if length <= LONGEST && follows(head, &first, run, packet, &piece) {
                        self.next[run.last] = Some(number);
                        run.last = number;
                        run.count += 1;
                        run.length = length;
                        if piece.payload < first.payload || pushes(packet, &piece) {
                            run.open = None;
                        }
                        return;
                    }
                }
                // The next of this flow may not overtake this packet.
                run.open = None;
            }
        }
        self.runs.push(Run {
            flow,
            open: piece.filter(|piece| !pushes(packet, piece)),
            piece,
            first: number,
            last: number,
            count: 1,
            length: packet.len(),
        });
    }

    fn allows(&self, ip: &Ip) -> bool {
        self.offloads.has(match (ip.protocol, ip.family) {
            (TCP, Family::V4) => Offloads::TSO4,
            (TCP, Family::V6) => Offloads::TSO6,
            (_, Family::V4) => Offloads::USO4,
            (_, Family::V6) => Offloads::USO6,
        })
    }

    fn write(&self, run: &Run, packets: &[&[u8]], out: &mut Packets) {
        let head = packets[run.first];
        let piece = match run.piece {
            Some(piece) if run.count > 1 => piece,
            _ => {
                out.push([&VirtioHeader::default().octets()[..], head]);
                return;
            }
        };
        let (ip, at) = (piece.ip, piece.ip.transport);
        let (gso_type, field) = match (ip.protocol, ip.family) {
            (TCP, Family::V4) => (VirtioHeader::GSO_TCPV4, TCP_CHECKSUM),
            (TCP, Family::V6) => (VirtioHeader::GSO_TCPV6, TCP_CHECKSUM),
            _ => (VirtioHeader::GSO_UDP_L4, UDP_CHECKSUM),
        };
        let virtio = VirtioHeader {
            flags: VirtioHeader::NEEDS_CSUM,
            gso_type,
            hdr_len: piece.headers as u16,
            gso_size: piece.payload as u16,
            csum_start: at as u16,
            csum_offset: field as u16,
        }
        .octets();
        let numbers = std::iter::successors(Some(run.first), |number| self.next[*number]);
        let payloads = numbers.map(|number| &packets[number][piece.headers..]);
        let heads = [&virtio[..], &head[..piece.headers]];
        let written = out.push(heads.into_iter().chain(payloads));
        let packet = &mut written[VirtioHeader::LENGTH..];
        write_length(packet, &ip, run.length);
        if ip.family == Family::V4 {
            write_ipv4(&mut packet[..at]);
        }
        let others = fold(pseudo(packet, &ip, run.length - at));
        if ip.protocol == TCP {
            packet[at + 13] = packets[run.last][at + 13];
        } else {
            put_u16(packet, at + 4, (run.length - at) as u16);
        }
        put_u16(packet, at + field, others);
    }
}

impl Flow {
    fn of(packet: &[u8], ip: &Ip) -> Option<Flow> {
        if ip.protocol != TCP && ip.protocol != UDP || packet.len() < ip.transport + 4 {
            return None;
        }
        let mut addresses = [0; 32];
        match ip.family {
            Family::V4 => addresses[..8].copy_from_slice(&packet[12..20]),
            Family::V6 => addresses.copy_from_slice(&packet[8..40]),
        }
        Some(Flow {
            protocol: ip.protocol,
            family: ip.family,
            addresses,
            ports: u32_at(packet, ip.transport),
        })
    }
}

impl Piece {
    /// The parts of a packet that may be joined: payload, no flag that has to stay, and
    /// checksums as cutting writes them.
    fn of(packet: &[u8], ip: Ip) -> Option<Piece> {
        let transport = &packet[ip.transport..];
        let own = transport_header(ip.protocol, transport)?;
        let payload = transport.len() - own;
        if payload == 0 || ip.routed {
            return None;
        }
        if ip.family == Family::V4 {
            let header = &packet[..ip.transport];
            if wanted(header, 10, 0) != u16_at(header, 10) {
                return None;
            }
        }
        let others = pseudo(packet, &ip, transport.len());
        let right = match ip.protocol {
            TCP => {
                let plain = transport[13] & !(PSH | ECE) == ACK;
                plain && wanted(transport, TCP_CHECKSUM, others) == u16_at(transport, TCP_CHECKSUM)
            }
            _ => {
                let whole = usize::from(u16_at(transport, 4)) == transport.len();
                whole && udp_checksum(transport, others) == u16_at(transport, UDP_CHECKSUM)
            }
        };
        right.then_some(Piece {
            ip,
            headers: ip.transport + own,
            payload,
        })
    }
}

/// True where a segment ends its run by PSH.
fn pushes(packet: &[u8], piece: &Piece) -> bool {
    piece.ip.protocol == TCP && packet[piece.ip.transport + 13] & PSH != 0
}

/// True where `packet` is what cutting would make as the next of `run`, whose first
/// packet is `head`.
fn follows(head: &[u8], first: &Piece, run: &Run, packet: &[u8], piece: &Piece) -> bool {
    if piece.ip.transport != first.ip.transport
        || piece.headers != first.headers
        || piece.payload > first.payload
    {
        return false;
    }
    let at = first.ip.transport;
    let same = |from: usize, to: usize| head[from..to] == packet[from..to];
    let ip = match first.ip.family {
        Family::V4 => {
            let next = u16_at(head, 4).wrapping_add(run.count as u16);
            same(0, 2) && u16_at(packet, 4) == next && same(6, 10) && same(12, at)
        }
        Family::V6 => same(0, 4) && same(6, at),
    };
    if first.ip.protocol == UDP {
        return ip && same(at, at + 4);
    }
    let before = (run.count * first.payload) as u32;
    ip && u32_at(packet, at + 4) == u32_at(head, at + 4).wrapping_add(before)
        && same(at + 8, at + 13)
        && packet[at + 13] & !PSH == head[at + 13] & !PSH
        && same(at + 14, at + TCP_CHECKSUM)
        && same(at + TCP_CHECKSUM + 2, first.headers)
}
