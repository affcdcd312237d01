//! Cutting and joining at the TUN device.

mod packets;

use packets::{pseudo, right, transport, Chance, Flow};
use sukperind::path::offload::{cut, Joiner, Malformed, Offloads, Packets, VirtioHeader};

const PSH: u8 = 0x08;
const ACK: u8 = 0x10;

/// A superpacket as the kernel gives it: virtio header, sum of the pseudo header.
fn superpacket(mut packet: Vec<u8>, gso_type: u8, gso_size: u16) -> Vec<u8> {
    let (at, protocol) = transport(&packet);
    let offset = if protocol == 6 { 16 } else { 6 };
    let begin = pseudo(&packet).to_be_bytes();
    packet[at + offset..at + offset + 2].copy_from_slice(&begin);
    let header = VirtioHeader {
        flags: VirtioHeader::NEEDS_CSUM,
        gso_type,
        hdr_len: at as u16,
        gso_size,
        csum_start: at as u16,
        csum_offset: offset as u16,
    };
    [&header.octets()[..], &packet].concat()
}

fn gso_type(flow: &Flow) -> u8 {
    match (flow.tcp, flow.v6) {
        (true, false) => VirtioHeader::GSO_TCPV4,
        (true, true) => VirtioHeader::GSO_TCPV6,
        _ => VirtioHeader::GSO_UDP_L4,
    }
}

fn cut_all(read: &[u8]) -> Vec<Vec<u8>> {
    let mut out = Packets::new();
    let count = cut(read, 65_536, &mut out).expect("a right superpacket");
    assert_eq!(count, out.len());
    out.iter().map(<[u8]>::to_vec).collect()
}

fn join_all(offloads: Offloads, packets: &[Vec<u8>]) -> Vec<Vec<u8>> {
    let list: Vec<&[u8]> = packets.iter().map(Vec::as_slice).collect();
    let mut out = Packets::new();
    Joiner::new(offloads).join(&list, &mut out);
    out.iter().map(<[u8]>::to_vec).collect()
}

/// How many writes a list makes.
fn writes(packets: &[Vec<u8>]) -> usize {
    join_all(Offloads::ALL, packets).len()
}

/// Each piece is the packet that a sender without offloads would have sent.
#[test]
fn pieces_are_as_sent_one_by_one() {
    let mut chance = Chance(1);
    for round in 0..400 {
        let flow = Flow::any(&mut chance, 4000);
        let size = 1 + chance.below(1400);
        let length = 1 + chance.below(size * 40);
        let payload = chance.octets(length);
        let (id, sequence) = (chance.next() as u16, chance.next() as u32);
        // FIN, PSH, ACK, ECE, CWR as it comes.
        let flags = ACK | (chance.next() as u8 & 0xc9);
        let ecn = if flow.tcp && flags & 0x80 != 0 {
            0x80
        } else {
            0
        };
        let whole = flow.packet(id, sequence, flags, &payload);
        let pieces = cut_all(&superpacket(whole, gso_type(&flow) | ecn, size as u16));
        let count = length.div_ceil(size);
        assert_eq!(pieces.len(), count, "round {round}");
        for (number, (piece, payload)) in pieces.iter().zip(payload.chunks(size)).enumerate() {
            let mut own = flags;
            if number > 0 {
                own &= !0x80;
            }
            if number + 1 < count {
                own &= !0x09;
            }
            let id = id.wrapping_add(number as u16);
            let sequence = sequence.wrapping_add((number * size) as u32);
            assert_eq!(
                piece,
                &flow.packet(id, sequence, own, payload),
                "round {round}"
            );
        }
    }
}

#[test]
fn one_packet_gets_its_checksum_alone() {
    for (v6, tcp) in [(false, false), (false, true), (true, false), (true, true)] {
        for length in [0, 1, 2, 1399] {
            let flow = Flow::plain(v6, tcp);
            let packet = flow.packet(7, 8, ACK, &Chance(5).octets(length));
            assert_eq!(cut_all(&superpacket(packet.clone(), 0, 0)), [packet]);
        }
    }
    // Without the flag nothing is touched, whatever it is.
    let read = [&[0; 10][..], b"\x45 no packet"].concat();
    assert_eq!(cut_all(&read), [b"\x45 no packet".to_vec()]);
}

/// Over IPv4 UDP may go without a checksum (RFC 768): then it does in each piece.
#[test]
fn no_checksum_stays_none() {
    let mut packet = Flow::plain(false, false).packet(1, 0, 0, &[3; 25]);
    packet[26..28].fill(0);
    let mut read = superpacket(packet.clone(), VirtioHeader::GSO_UDP_L4, 10);
    read[0] = 0;
    read[10..].copy_from_slice(&packet);
    let pieces = cut_all(&read);
    assert_eq!(pieces.len(), 3);
    assert!(pieces.iter().all(|piece| piece[26..28] == [0, 0]));
}

/// A fault: what it is, its text, and the place and value of the octet that makes it.
#[test]
fn what_is_malformed_has_a_name() {
    let flow = Flow::plain(false, true);
    let good = superpacket(
        flow.packet(1, 2, ACK, &[9; 300]),
        VirtioHeader::GSO_TCPV4,
        100,
    );
    let number = |at: usize, value: u16| {
        let mut read = good.clone();
        read[at..at + 2].copy_from_slice(&value.to_ne_bytes());
        read
    };
    let octet = |at: usize, value: u8| {
        let mut read = good.clone();
        read[at] = value;
        read
    };
    let v6 = Flow {
        extra: vec![0, 0, 0, 1, 0, 0, 0, 0],
        ..Flow::plain(true, true)
    };
    let mut routed = superpacket(
        v6.packet(1, 2, ACK, &[9; 300]),
        VirtioHeader::GSO_TCPV6,
        100,
    );
    routed[16] = 43;
    let cases = [
        (
            good[..10].to_vec(),
            "10 octets are too few for a virtio header and a packet",
        ),
        (octet(1, 3), "gso_type 0x03 is unknown"),
        (octet(1, 0x85), "gso_type 0x85 is unknown"),
        (octet(1, 0x80), "gso_type 0x80 is unknown"),
        (number(4, 0), "gso_size is 0 in a superpacket"),
        (
            octet(10, 0x4f),
            "the transport header at 60 doesn't fit into 340 octets",
        ),
        (
            octet(10, 0x44),
            "the headers of IP don't fit into 340 octets",
        ),
        (
            octet(10, 0x55),
            "the headers of IP don't fit into 340 octets",
        ),
        (
            good[..20].to_vec(),
            "the headers of IP don't fit into 10 octets",
        ),
        (
            good[..349].to_vec(),
            "the packet tells 340 octets, 339 were read",
        ),
        (octet(16, 0x20), "a superpacket is a fragment"),
        (
            routed,
            "a superpacket has a routing header with segments left",
        ),
        (
            octet(19, 17),
            "gso_type 0x01 doesn't go with IP version 4, protocol 17",
        ),
        (
            octet(1, 4),
            "gso_type 0x04 doesn't go with IP version 4, protocol 6",
        ),
        (
            octet(42, 0x40),
            "the transport header at 20 doesn't fit into 340 octets",
        ),
        (
            number(6, 24),
            "csum_start 24 and csum_offset 16 don't fit the packet",
        ),
        (
            number(8, 6),
            "csum_start 20 and csum_offset 6 don't fit the packet",
        ),
    ];
    for (read, text) in cases {
        let mut out = Packets::new();
        let fault = cut(&read, 64, &mut out).expect_err(text);
        assert_eq!(fault.to_string(), text);
        assert!(out.is_empty() && out.octets().is_empty());
    }
    let mut out = Packets::new();
    let many = Malformed::Many {
        packets: 3,
        limit: 2,
    };
    assert_eq!(cut(&good, 2, &mut out), Err(many));
    assert_eq!(
        many.to_string(),
        "a superpacket makes 3 packets, the limit is 2"
    );
    assert_eq!(cut(&good, 3, &mut out), Ok(3));
    // A checksum by itself: inside the IP header, beyond the packet.
    for (start, offset) in [(19, 16), (20, 319), (65_535, 65_535)] {
        let mut read = number(6, start);
        read[8..10].copy_from_slice(&u16::to_ne_bytes(offset));
        read[1] = 0;
        let fault = Malformed::Checksum { start, offset };
        assert_eq!(cut(&read, 64, &mut out), Err(fault));
    }
    assert_eq!(out.len(), 3);
}

/// Octets turned at random, and packets cut short, are a fault or packets, no panic.
#[test]
fn noise_is_never_a_panic() {
    let mut chance = Chance(11);
    let mut out = Packets::new();
    let mut joiner = Joiner::new(Offloads::ALL);
    for _ in 0..30_000 {
        let flow = Flow::any(&mut chance, 4000);
        let length = chance.below(300);
        let payload = chance.octets(length);
        let mut read = superpacket(flow.packet(1, 2, ACK, &payload), gso_type(&flow), 100);
        for _ in 0..chance.below(5) {
            // The headers more than the payload.
            let end = if chance.below(2) == 0 { 70 } else { read.len() };
            let at = chance.below(end.min(read.len()));
            read[at] = chance.next() as u8;
        }
        if chance.below(4) == 0 {
            read.truncate(chance.below(read.len() + 1));
        }
        out.clear();
        let count = cut(&read, 64, &mut out);
        assert_eq!(count.unwrap_or(0), out.len());
        let packet = read.get(10..).unwrap_or(&[]);
        out.clear();
        joiner.join(&[packet, packet], &mut out);
        assert!(out.len() <= 2);
    }
}

/// Flows between each other, with losses, marks and wrong checksums: cutting what was
/// joined gives the very packets back, those of one flow in order.
#[test]
fn cutting_what_was_joined_gives_the_packets_back() {
    let mut chance = Chance(3);
    let (mut given, mut written) = (0, 0);
    for round in 0..600 {
        let count = 1 + chance.below(4);
        let mut flows: Vec<(Flow, usize, u16, u32)> = (0..count)
            .map(|number| {
                let flow = Flow::any(&mut chance, 4000 + number as u16);
                let size = 1 + chance.below(1400);
                (flow, size, chance.next() as u16, chance.next() as u32)
            })
            .collect();
        let mut list = Vec::new();
        for _ in 0..1 + chance.below(64) {
            let which = chance.below(count);
            let (flow, size, id, sequence) = &mut flows[which];
            let mut length = *size;
            if chance.below(10) == 0 {
                length = chance.below(length + 2);
            }
            let mut flags = ACK;
            if chance.below(12) == 0 {
                flags |= 1 << chance.below(8);
            }
            if chance.below(20) == 0 {
                flow.class = chance.next() as u8;
            }
            let payload = chance.octets(length);
            let mut packet = flow.packet(*id, *sequence, flags, &payload);
            if chance.below(20) == 0 {
                let at = chance.below(packet.len());
                // Not what this test itself reads: lengths, fragments, protocols.
                if at >= 8 && ![9, 40, 41].contains(&at) {
                    packet[at] ^= 1 << chance.below(8);
                }
            }
            *id = id.wrapping_add(1);
            *sequence = sequence.wrapping_add(length as u32);
            if chance.below(20) > 0 {
                list.push(packet);
            }
        }
        let joined = join_all(Offloads::ALL, &list);
        given += list.len();
        written += joined.len();
        let back: Vec<Vec<u8>> = joined.iter().flat_map(|read| cut_all(read)).collect();
        let name = |packet: &Vec<u8>| {
            let (at, protocol) = transport(packet);
            let addresses = if packet[0] >> 4 == 4 { 12..20 } else { 8..40 };
            (
                protocol,
                packet[addresses].to_vec(),
                packet[at..at + 4].to_vec(),
            )
        };
        let mut names: Vec<_> = list.iter().map(name).collect();
        names.sort_unstable();
        names.dedup();
        assert_eq!(back.len(), list.len(), "round {round}");
        for own in names {
            let of = |packets: &[Vec<u8>]| -> Vec<Vec<u8>> {
                packets
                    .iter()
                    .filter(|packet| name(packet) == own)
                    .cloned()
                    .collect()
            };
            assert!(of(&back) == of(&list), "round {round}, flow {own:?}");
        }
    }
    assert!(
        written * 3 < given * 2,
        "{given} packets made {written} writes"
    );
}

/// A run is one write, whose header says all that the kernel wants to know.
#[test]
fn a_run_is_one_write() {
    for (v6, tcp) in [(false, false), (false, true), (true, false), (true, true)] {
        let flow = Flow {
            extra: Vec::new(),
            ..Flow::plain(v6, tcp)
        };
        let list: Vec<Vec<u8>> = (0..5)
            .map(|number: u16| {
                let length = if number == 4 { 33 } else { 101 };
                let flags = if number == 4 { ACK | PSH } else { ACK };
                flow.packet(9 + number, u32::from(number) * 101, flags, &vec![1; length])
            })
            .collect();
        let joined = join_all(Offloads::ALL, &list);
        assert_eq!(joined.len(), 1);
        let (header, packet) = VirtioHeader::split(&joined[0]).unwrap();
        let at = if v6 { 40 } else { 20 };
        let own = if tcp { 20 } else { 8 };
        let offset = if tcp { 16 } else { 6 };
        assert_eq!(
            header,
            VirtioHeader {
                flags: 1,
                gso_type: gso_type(&flow),
                hdr_len: at + own,
                gso_size: 101,
                csum_start: at,
                csum_offset: offset,
            }
        );
        let field = usize::from(at + offset);
        assert_eq!(packet[field..field + 2], pseudo(packet).to_be_bytes());
        let mut whole = packet.to_vec();
        packets::finish(&mut whole);
        assert!(right(&whole));
        whole[field..field + 2].copy_from_slice(&packet[field..field + 2]);
        assert_eq!(whole, packet, "lengths and the header's checksum");
        assert_eq!(packet.len(), usize::from(at + own) + 4 * 101 + 33);
    }
}

/// Two packets that agree are one write; each octet of the headers that is turned, the
/// checksums right, makes them two.
#[test]
fn what_differs_is_not_joined() {
    for (v6, tcp) in [(false, false), (false, true), (true, false), (true, true)] {
        let extra = if v6 {
            vec![0, 0, 1, 4, 0, 0, 0, 0]
        } else {
            vec![1; 4]
        };
        let flow = Flow {
            extra,
            options: vec![1; 4],
            class: 0xba,
            ..Flow::plain(v6, tcp)
        };
        let options = if tcp { flow.options.len() } else { 0 };
        let first = flow.packet(65_535, u32::MAX - 49, ACK, &[7; 100]);
        let second = flow.packet(0, 50, ACK, &[8; 100]);
        assert_eq!(writes(&[first.clone(), second.clone()]), 1);
        let (at, _) = transport(&first);
        let headers = at + options + if tcp { 20 } else { 8 };
        for place in 0..headers {
            for bit in 0..8 {
                let mut other = second.clone();
                other[place] ^= 1 << bit;
                // PSH is what may differ, and what is turned at random may be no packet.
                if tcp && place == at + 13 && 1 << bit == PSH {
                    continue;
                }
                let shape = [0, 6, 9, 40, 41].contains(&place) || place == at + 12;
                if !shape {
                    let before = other.clone();
                    packets::finish(&mut other);
                    // Lengths and checksums were mended: then it is the same again.
                    if other == second {
                        other = before;
                    }
                }
                let pair = [first.clone(), other];
                assert_eq!(
                    writes(&pair),
                    2,
                    "v6 {v6}, tcp {tcp}, octet {place}, bit {bit}"
                );
            }
        }
    }
}

/// Shorter, PSH, wrong checksums, acknowledgements, 65,535 octets: where a run ends.
#[test]
fn where_a_run_ends() {
    let flow = Flow::plain(false, true);
    let segment = |number: u16, length: usize, flags: u8| {
        flow.packet(number, u32::from(number) * 100, flags, &vec![5; length])
    };
    let run = |lengths: [usize; 4]| -> Vec<Vec<u8>> {
        (0..4)
            .map(|n| segment(n, lengths[usize::from(n)], ACK))
            .collect()
    };
    assert_eq!(writes(&run([100; 4])), 1);
    assert_eq!(writes(&run([100, 100, 99, 100])), 2);
    assert_eq!(
        writes(&run([100, 101, 100, 100])),
        3,
        "the longer, then a gap"
    );
    assert_eq!(writes(&run([0; 4])), 4, "no payload");

    let mut pushed = run([100; 4]);
    pushed[1] = segment(1, 100, ACK | PSH);
    assert_eq!(writes(&pushed), 2);

    // A wrong checksum is alone and as it was, and nothing overtakes it.
    let mut wrong = run([100; 4]);
    wrong[1][45] ^= 1;
    let joined = join_all(Offloads::ALL, &wrong);
    assert_eq!(joined.len(), 3);
    assert_eq!(joined[1], [&[0; 10][..], &wrong[1]].concat());
    let mut header = run([100; 4]);
    header[1][10] ^= 1;
    assert_eq!(writes(&header), 3);

    // 20 + 20 + 65 * 1000 are 65,040 octets; one more of 495 just fits, one of 496 not.
    for (last, count) in [(495, 1), (496, 2)] {
        let long: Vec<Vec<u8>> = (0..66)
            .map(|n| {
                let length = if n == 65 { last } else { 1000 };
                flow.packet(n, u32::from(n) * 1000, ACK, &vec![5; length])
            })
            .collect();
        assert_eq!(writes(&long), count);
    }
}

/// Flows between each other are a write each, others pass in between.
#[test]
fn flows_are_told_apart() {
    let (one, two) = (Flow::plain(true, false), Flow::plain(true, true));
    let three = Flow {
        port: 4001,
        ..two.clone()
    };
    let ping = [&[0x45, 0, 0, 28, 0, 0, 0, 0, 64, 1][..], &[9; 18]].concat();
    let mut list = Vec::new();
    for number in 0..10_u16 {
        for flow in [&one, &two, &three] {
            list.push(flow.packet(number, u32::from(number) * 10, ACK, &[6; 10]));
        }
        if number == 5 {
            list.push(ping.clone());
        }
    }
    let joined = join_all(Offloads::ALL, &list);
    assert_eq!(joined.len(), 4);
    assert_eq!(joined[3][10..], ping);
    // Without UDP's offloads its datagrams are alone; without any all are.
    assert_eq!(join_all(Offloads::TCP, &list).len(), 10 + 2 + 1);
    assert_eq!(join_all(Offloads::NONE, &list).len(), 31);
}

/// A kernel that refuses a set which has one of these flags.
struct FakeKernel {
    refuses: u32,
    asked: Vec<u32>,
    holds: u32,
}

impl FakeKernel {
    fn takes(&mut self, offloads: Offloads) -> bool {
        self.asked.push(offloads.bits());
        let takes = offloads.bits() & self.refuses == 0;
        if takes {
            self.holds = offloads.bits();
        }
        takes
    }
}

#[test]
fn what_remains_where_the_kernel_refuses() {
    // Refused flags, the sets that are asked for, what holds.
    let cases: [(u32, &[u32], Offloads); 5] = [
        (0, &[0x6f], Offloads::ALL),
        (0x20, &[0x6f, 0x0f], Offloads::TCP),
        (0x60, &[0x6f, 0x0f], Offloads::TCP),
        (0x02, &[0x6f, 0x0f], Offloads::NONE),
        (0xff, &[0x6f, 0x0f], Offloads::NONE),
    ];
    for (refuses, asked, holds) in cases {
        let mut kernel = FakeKernel {
            refuses,
            asked: Vec::new(),
            holds: 0,
        };
        assert_eq!(Offloads::agreed(|offloads| kernel.takes(offloads)), holds);
        assert_eq!(
            (kernel.asked.as_slice(), kernel.holds),
            (asked, holds.bits())
        );
        let refused = Offloads::from_bits(refuses);
        assert_eq!(
            Offloads::remaining(refused).has(Offloads::USO4),
            refuses == 0
        );
    }
    let without_ecn = Offloads::remaining(Offloads::TSO_ECN);
    assert_eq!(without_ecn.bits(), 0x67);
    assert_eq!(Offloads::remaining(Offloads::TSO6), Offloads::NONE);
}

/// A UDP checksum that comes to 0 is written as 0xffff (RFC 768): by itself, in a piece,
/// and of what is joined.
#[test]
fn a_checksum_of_nought_is_written_as_ones() {
    for v6 in [false, true] {
        let flow = Flow::plain(v6, false);
        let at = transport(&flow.packet(0, 0, 0, &[])).0;
        let nought: Vec<Vec<u8>> = (5..7)
            .map(|id| {
                // With its complement in the payload the sum is of ones alone.
                let open = flow.packet(id, 0, 0, &[0; 2]);
                flow.packet(id, 0, 0, &open[at + 6..at + 8])
            })
            .collect();
        assert_eq!(nought[0][at + 6..at + 8], [0xff, 0xff]);
        assert_eq!(cut_all(&superpacket(nought[0].clone(), 0, 0)), nought[..1]);
        let joined = join_all(Offloads::ALL, &nought);
        assert_eq!(joined.len(), 1);
        assert_eq!(cut_all(&joined[0]), nought);
    }
}

/// A superpacket of headers alone is one packet.
#[test]
fn no_payload_is_one_packet() {
    for (v6, tcp) in [(false, false), (false, true), (true, false), (true, true)] {
        let flow = Flow::plain(v6, tcp);
        let packet = flow.packet(7, 8, ACK | PSH, &[]);
        let read = superpacket(packet.clone(), gso_type(&flow), 100);
        assert_eq!(cut_all(&read), [packet]);
    }
}

/// Fragments, segments left in a routing header, UDP shorter than its packet: alone,
/// though their checksums are right and they follow each other.
#[test]
fn what_cutting_refuses_is_not_joined() {
    let pair = |flow: &Flow, change: &dyn Fn(&mut [u8])| -> usize {
        let list: Vec<Vec<u8>> = (0..2)
            .map(|number| {
                let mut packet = flow.packet(number, 0, 0, &[4; 100]);
                change(&mut packet);
                packet
            })
            .collect();
        writes(&list)
    };
    let v4 = Flow::plain(false, false);
    assert_eq!(pair(&v4, &|_| ()), 1);
    let fragment = |packet: &mut [u8]| {
        packet[6] = 0x20;
        packets::finish(packet);
    };
    assert_eq!(pair(&v4, &fragment), 2);
    let shorter = |packet: &mut [u8]| {
        // 50 octets less in its length, 50 more in its checksum.
        for (at, change) in [(24, 50_u16.wrapping_neg()), (26, 50)] {
            let value = u16::from_be_bytes([packet[at], packet[at + 1]]).wrapping_add(change);
            packet[at..at + 2].copy_from_slice(&value.to_be_bytes());
        }
    };
    assert_eq!(pair(&v4, &shorter), 2);
    for (left, count) in [(0, 1), (1, 2)] {
        let extra = vec![0, 0, 4, left, 0, 0, 0, 0];
        let v6 = Flow {
            extra,
            ..Flow::plain(true, false)
        };
        assert_eq!(pair(&v6, &|packet| packet[6] = 43), count);
    }
}
