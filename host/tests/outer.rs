//! The outer header, the path MTU, and what the raw socket gives.

mod packets;

use packets::{right, sum, Chance, Flow};
use std::net::Ipv4Addr;
use sukperind::path::outer::{
    fits, inner_mtu, leave_tunnel, sealed_length, too_big, Datagram, DatagramFault, Ecn, Left,
    OuterHeader, OVERHEAD,
};

const LEFT: Ipv4Addr = Ipv4Addr::new(192, 0, 2, 1);
const RIGHT: Ipv4Addr = Ipv4Addr::new(198, 51, 100, 2);

fn with_class(v6: bool, class: u8) -> Vec<u8> {
    let flow = Flow {
        class,
        ..Flow::plain(v6, false)
    };
    flow.packet(1, 0, 0, &[3; 20])
}

/// DSCP and ECN are copied, all 256 of both families; don't fragment; the checksum.
#[test]
fn the_outer_header_copies_the_class() {
    for v6 in [false, true] {
        for class in 0..=255 {
            let outer = OuterHeader::of(&with_class(v6, class)).unwrap();
            assert_eq!(outer.class, class);
            let header = outer.octets(LEFT, RIGHT, 1432).unwrap();
            assert_eq!(header[..2], [0x45, class]);
            assert_eq!(header[2..10], [5, 0xac, 0, 0, 0x40, 0, 64, 50]);
            assert_eq!(header[12..], [192, 0, 2, 1, 198, 51, 100, 2]);
            assert_eq!(sum(&[&header]), 0xffff);
        }
    }
    for none in [&[][..], &[0x45], &[0x50, 0], &[0, 0]] {
        assert_eq!(OuterHeader::of(none), None);
    }
    let outer = OuterHeader { class: 0 };
    assert!(outer.octets(LEFT, RIGHT, 65_515).is_some());
    assert_eq!(outer.octets(LEFT, RIGHT, 65_516), None);
    assert_eq!(outer.octets(LEFT, RIGHT, usize::MAX), None);
}

/// RFC 6040 section 4.2, figure 4: rows are the inner mark, columns the outer one, both
/// in the order Not-ECT, ECT(0), ECT(1), CE. `!` stands for an unusual pair.
#[test]
fn marks_leave_the_tunnel_by_the_table() {
    let order = [("n", 0), ("0", 2), ("1", 1), ("c", 3)];
    let table = [
        ["n", "n!", "n!", "drop"],
        ["0", "0", "1", "c"],
        ["1", "1!", "1", "c"],
        ["c", "c", "c!", "c"],
    ];
    for v6 in [false, true] {
        for ((_, inner), row) in order.iter().zip(table) {
            for ((_, outer), wanted) in order.iter().zip(row) {
                // DSCP stays, with all bits and with none.
                for dscp in [0xfc, 0x00, 0xb8] {
                    let mut packet = with_class(v6, dscp | inner);
                    let before = packet.clone();
                    let left = leave_tunnel(&mut packet, Ecn::of_class(*outer));
                    if wanted == "drop" {
                        assert_eq!((left, packet), (Left::Dropped, before));
                        continue;
                    }
                    let mark = order.iter().find(|(name, _)| wanted.starts_with(name));
                    let bits = mark.unwrap().1;
                    let unusual = wanted.ends_with('!');
                    let ecn = Ecn::of_class(bits);
                    assert_eq!(ecn.bits(), bits);
                    assert_eq!(left, Left::Passed { ecn, unusual });
                    assert_eq!(packet, with_class(v6, dscp | bits), "{inner} {outer}");
                }
            }
        }
    }
    for mut short in [vec![], vec![0x45; 19], vec![0x60; 39], vec![0x10; 60]] {
        let before = short.clone();
        assert_eq!(leave_tunnel(&mut short, Ecn::Ce), Left::NotIp);
        assert_eq!(short, before);
    }
}

/// The header whose checksum is b861 (a known example): with ECT(0) it is b85f, and CE
/// from outside takes it to b85e.
#[test]
fn the_checksum_is_mended() {
    let text = "45020073 00004000 4011b85f c0a80001 c0a800c7".replace(' ', "");
    let octet = |at: usize| u8::from_str_radix(&text[at..at + 2], 16).unwrap();
    let mut packet: Vec<u8> = (0..40).step_by(2).map(octet).collect();
    assert_eq!(sum(&[&packet]), 0xffff);
    leave_tunnel(&mut packet, Ecn::Ce);
    assert_eq!(packet[..2], [0x45, 3]);
    assert_eq!(packet[10..12], [0xb8, 0x5e]);
}

#[test]
fn what_fits_through_the_path() {
    assert_eq!(OVERHEAD, 49);
    assert_eq!(inner_mtu(1500), 1451);
    assert_eq!(inner_mtu(49), 0);
    assert_eq!(inner_mtu(0), 0);
    // 20 + 8 + 16, and payload and trailer up to a multiple of 4.
    for (length, outer) in [
        (0, 48),
        (1, 48),
        (2, 48),
        (3, 52),
        (1451, 1500),
        (1454, 1500),
    ] {
        assert_eq!(sealed_length(length), outer);
    }
    for outer in 49..=u16::MAX {
        let inner = usize::from(inner_mtu(outer));
        assert!(fits(inner, outer));
        assert!(!fits(inner + 4, outer));
        assert_eq!(sealed_length(inner) == usize::from(outer), outer % 4 == 0);
    }
    assert!(!fits(usize::MAX, u16::MAX));
}

/// RFC 1191 section 4: type 3, code 4, the MTU in the last two octets of the header.
#[test]
fn an_ipv4_packet_that_is_too_long_is_answered() {
    for (length, quoted) in [(20, 48), (520, 548), (521, 548), (1400, 548)] {
        let packet = Flow::plain(false, false).packet(1, 0, 0, &Chance(2).octets(length));
        let answer = too_big(&packet, 1371).unwrap();
        assert_eq!(answer.len(), 28 + quoted);
        assert_eq!(answer[..2], [0x45, 0xc0]);
        assert_eq!(answer[2..4], (28 + quoted as u16).to_be_bytes());
        assert_eq!(answer[4..10], [0, 0, 0, 0, 64, 1]);
        assert_eq!(answer[12..20], [10, 1, 0, 6, 10, 0, 0, 5]);
        assert_eq!(sum(&[&answer[..20]]), 0xffff);
        assert_eq!(answer[20..22], [3, 4]);
        assert_eq!(answer[24..28], [0, 0, 5, 0x5b]);
        assert_eq!(sum(&[&answer[20..]]), 0xffff);
        assert_eq!(answer[28..], packet[..quoted]);
    }
}

/// RFC 4443 section 3.2: type 2, code 0, the MTU in 32 bits.
#[test]
fn an_ipv6_packet_that_is_too_long_is_answered() {
    for (length, quoted) in [(20, 68), (1184, 1232), (1185, 1232), (1500, 1232)] {
        let packet = Flow::plain(true, false).packet(1, 0, 0, &Chance(2).octets(length));
        let answer = too_big(&packet, 1371).unwrap();
        assert_eq!(answer.len(), 48 + quoted);
        assert_eq!(answer[..4], [0x60, 0, 0, 0]);
        assert_eq!(answer[4..6], (8 + quoted as u16).to_be_bytes());
        assert_eq!(answer[6..8], [58, 64]);
        assert_eq!(answer[8..24], packet[24..40]);
        assert_eq!(answer[24..40], packet[8..24]);
        assert_eq!(answer[40..42], [2, 0]);
        assert_eq!(answer[44..48], [0, 0, 5, 0x5b]);
        let count = (answer.len() as u32 - 40).to_be_bytes();
        let parts = [&answer[8..40], &count, &[0, 58], &answer[40..]];
        assert_eq!(sum(&parts), 0xffff);
        assert_eq!(answer[48..], packet[..quoted]);
    }
}

/// An answer is due to a packet after these octets were set in it, or none is.
fn answered(v6: bool, changes: &[(usize, u8)]) -> bool {
    let mut packet = Flow::plain(v6, false).packet(1, 0, 0, &[0; 60]);
    for (at, octet) in changes {
        packet[*at] = *octet;
    }
    too_big(&packet, 100).is_some()
}

#[test]
fn none_where_none_may_be() {
    // IPv4: errors of ICMP, and what is none; fragments; addresses of no one station.
    for kind in 0..=255 {
        let error = [3, 4, 5, 11, 12].contains(&kind);
        assert_eq!(answered(false, &[(9, 1), (20, kind)]), !error);
    }
    assert!(answered(false, &[(6, 0)]), "without DF too");
    assert!(answered(false, &[(6, 0x20)]), "the first fragment");
    assert!(!answered(false, &[(7, 1)]), "another fragment");
    for first in [0, 127, 224, 239, 240, 255] {
        assert!(!answered(false, &[(12, first)]));
        assert!(!answered(false, &[(16, first)]));
    }
    // IPv6 alike; types below 128 are errors, 137 is a redirect.
    for kind in 0..=255 {
        let none = kind < 128 || kind == 137;
        assert_eq!(answered(true, &[(6, 58), (40, kind)]), !none);
        // Behind an extension header, and behind the header of a first fragment.
        let behind = [(6, 60), (40, 58), (41, 0), (48, kind)];
        assert_eq!(answered(true, &behind), !none);
        let first = [(6, 44), (40, 58), (42, 0), (43, 1), (48, kind)];
        assert_eq!(answered(true, &first), !none);
    }
    assert!(!answered(true, &[(6, 44), (40, 17), (42, 0), (43, 8)]));
    assert!(!answered(true, &[(8, 0xff)]));
    assert!(!answered(true, &[(24, 0xff)]));
    for low in [0, 1] {
        let source: Vec<(usize, u8)> = (8..23).map(|at| (at, 0)).chain([(23, low)]).collect();
        assert!(!answered(true, &source));
    }
    // What isn't a packet.
    let mut chance = Chance(9);
    for _ in 0..20_000 {
        let length = chance.below(80);
        let mut octets = chance.octets(length);
        if let Some(first) = octets.first_mut() {
            *first = if *first & 1 == 0 { 0x45 } else { 0x60 } | (*first & 2);
        }
        let _ = too_big(&octets, 100);
        if length < 20 {
            assert_eq!(too_big(&octets, 100), None);
        }
    }
    assert!(right(&with_class(false, 0)) && right(&with_class(true, 0)));
}

/// A datagram of ESP as a raw socket gives it.
fn datagram(class: u8, options: usize, esp: &[u8]) -> Vec<u8> {
    let outer = OuterHeader { class };
    let header = outer.octets(LEFT, RIGHT, options + esp.len()).unwrap();
    let mut octets = [&header[..], &vec![1; options], esp].concat();
    octets[0] = 0x45 + (options / 4) as u8;
    octets
}

#[test]
fn a_datagram_of_esp_is_told_apart() {
    for (class, ecn) in [
        (0xb8, Ecn::NotEct),
        (1, Ecn::Ect1),
        (2, Ecn::Ect0),
        (0xff, Ecn::Ce),
    ] {
        for options in [0, 4, 40] {
            let esp = Chance(4).octets(80);
            let mut octets = datagram(class, options, &esp);
            let wanted = Datagram {
                source: LEFT,
                ecn,
                esp: &esp,
            };
            assert_eq!(Datagram::of(&octets), Ok(wanted));
            octets.extend_from_slice(&[0; 6]);
            assert_eq!(
                Datagram::of(&octets),
                Ok(wanted),
                "what follows isn't the packet's"
            );
        }
    }
}

#[test]
fn a_malformed_datagram_has_a_name() {
    let good = datagram(0, 0, &[7; 8]);
    assert!(Datagram::of(&good).is_ok());
    let turned = |at: usize, octet: u8| {
        let mut octets = good.clone();
        octets[at] = octet;
        octets
    };
    let cases = [
        (
            good[..19].to_vec(),
            "19 octets are too few for an IPv4 header",
        ),
        (turned(0, 0x65), "version 6 instead of 4"),
        (turned(0, 0x44), "an IPv4 header of 16 octets in 28"),
        (turned(0, 0x48), "an IPv4 header of 32 octets in 28"),
        (
            turned(3, 19),
            "a total length of 19 with a header of 20, 28 octets came",
        ),
        (
            turned(3, 29),
            "a total length of 29 with a header of 20, 28 octets came",
        ),
        (turned(9, 17), "protocol 17 instead of 50"),
        (turned(6, 0x20), "a fragment"),
        (turned(7, 1), "a fragment"),
        (turned(3, 27), "7 octets are too few for ESP"),
    ];
    for (octets, text) in cases {
        let fault: DatagramFault = Datagram::of(&octets).expect_err(text);
        assert_eq!(fault.to_string(), text);
    }
    let mut chance = Chance(6);
    for _ in 0..20_000 {
        let length = chance.below(60);
        let mut octets = chance.octets(length);
        if let Some(first) = octets.first_mut() {
            *first = 0x40 | *first & 0xf;
        }
        if let Ok(datagram) = Datagram::of(&octets) {
            assert!(datagram.esp.len() >= 8);
        }
    }
}
