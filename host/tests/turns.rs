//! The daemon's loop, with a model of the core and a system without sockets.

mod double;
mod simulation;

use double::core::{close, decline, take_calls, Call};
use double::link::{config, read, End, Link, INSIDE_LEFT, INSIDE_RIGHT, LEFT, RIGHT};
use double::packets::{ike_at, inner, outer, read_of};
use double::system::Fake;
use simulation::core::{Body, Message};
use std::net::{Ipv4Addr, SocketAddrV4};
use sukperind::config::Config;
use sukperind::daemon::{Daemon, Stop};
use sukperind::status::Status;
use sukperind::system::Ready;

/// A link that is up, with nothing on the wire and no call of its core noted.
fn up() -> Link {
    let mut link = Link::new();
    link.pass(100);
    assert!(link.is_up(), "{:?}", link.ends[0].system.log);
    take_calls();
    link
}

fn to_right(payload: &[u8]) -> Vec<u8> {
    inner(INSIDE_LEFT, INSIDE_RIGHT, 0, payload)
}

/// A first request with this SPI of the one who begins.
fn first_request(spi: u64) -> Vec<u8> {
    let message = Message {
        from_spi: spi,
        to_spi: 0,
        number: 0,
        body: Body::Init,
    };
    double::message::octets_of(&message, true)
}

#[test]
fn two_daemons_come_up_and_carry_packets_both_ways() {
    let mut link = up();
    let there = inner(INSIDE_LEFT, INSIDE_RIGHT, 0xb8, b"there");
    let back = inner(INSIDE_RIGHT, INSIDE_LEFT, 0, b"and back");
    link.ends[0].system.inside_in.push_back(read_of(&there));
    link.ends[1].system.inside_in.push_back(read_of(&back));
    link.ends[0].turn_all();
    assert_eq!(
        link.ends[0].system.esp_out[0][0].0, 0xb8,
        "DSCP goes outside"
    );
    link.ends[1].turn_all();
    link.settle();
    assert_eq!(link.ends[1].system.inside_out, [read_of(&there)]);
    assert_eq!(link.ends[0].system.inside_out, [read_of(&back)]);
    let status = link.ends[0].status();
    let child = &status.peers[0].children[0];
    assert_eq!((child.last_sent, child.greatest_taken), (1, 1));
    assert_eq!((child.packets_out, child.packets_in), (1, 1));
    assert_eq!(child.octets_in, back.len() as u64);
}

#[test]
fn a_stranger_is_counted_and_never_reaches_the_core() {
    let mut link = up();
    let stranger = SocketAddrV4::new(Ipv4Addr::new(198, 51, 100, 9), 500);
    let end = &mut link.ends[1];
    for spi in 1..=200 {
        end.system.ike_in.push_back((stranger, first_request(spi)));
    }
    for _ in 0..4 {
        end.turn_all();
    }
    assert!(!take_calls().contains(&Call::Ike));
    assert_eq!(end.system.ike_out, []);
    let status = end.status();
    assert_eq!(status.unclaimed.strangers, 200);
    assert_eq!(status.unclaimed.last_stranger, Some(*stranger.ip()));
    assert_eq!(end.system.logged("no peer"), 1, "one line a minute");
}

#[test]
fn first_requests_are_limited_to_three_at_once_and_one_a_second() {
    let mut link = up();
    let end = &mut link.ends[1];
    end.system.now += 60_000;
    take_calls();
    let mut let_in = Vec::new();
    for _ in 0..5 {
        for _ in 0..20 {
            let spi = end.system.now << 8 | end.system.ike_in.len() as u64;
            end.system
                .ike_in
                .push_back((ike_at(LEFT), first_request(spi)));
        }
        end.turn_all();
        let ike = take_calls().into_iter().filter(|call| *call == Call::Ike);
        let_in.push(ike.count());
        end.system.now += 1_000;
    }
    assert_eq!(let_in, [3, 1, 1, 1, 1]);
    assert_eq!(end.status().peers[0].counters.first_requests_limited, 93);
}

#[test]
fn other_datagrams_of_the_peer_are_not_limited() {
    let mut link = up();
    let end = &mut link.ends[1];
    for _ in 0..60 {
        end.system
            .ike_in
            .push_back((ike_at(LEFT), b"noise".to_vec()));
    }
    end.turn_all();
    let ike = take_calls().into_iter().filter(|call| *call == Call::Ike);
    assert_eq!(ike.count(), 60);
    let refused = &end.status().peers[0].refusals[0];
    assert_eq!((refused.number, refused.count), (1, 60));
    assert_eq!(refused.words, "fewer octets than a header has");
}

#[test]
fn moments_are_told_before_each_datagram_order_and_list() {
    let mut link = Link::new();
    link.pass(30_000);
    for end in 0..2 {
        let packet = match end {
            0 => to_right(b"x"),
            _ => inner(INSIDE_RIGHT, INSIDE_LEFT, 0, b"x"),
        };
        link.ends[end].system.inside_in.push_back(read_of(&packet));
    }
    link.pass(30_000);
    // Each call of a turn is one of its moment, which the tick before it told.
    let calls = take_calls();
    let mut told = 0;
    let mut gateways = 0;
    for call in &calls {
        match call {
            Call::Open { .. } => gateways += 1,
            Call::Tick(moment) => told = *moment,
            Call::Order(_) | Call::Ike | Call::Esp(_) | Call::Outward(_) => assert!(told >= 1_000),
            Call::Secret => {}
        }
    }
    assert_eq!(gateways, 2);
    // A datagram that comes a while after anything else: the moment comes first.
    let end = &mut link.ends[1];
    end.system.now += 321;
    end.system
        .ike_in
        .push_back((ike_at(LEFT), b"noise".to_vec()));
    end.turn(&Ready {
        ike: true,
        ..Ready::default()
    });
    assert_eq!(take_calls(), [Call::Tick(end.system.now), Call::Ike]);
    end.system.now += 321;
    let packet = inner(INSIDE_RIGHT, INSIDE_LEFT, 0, b"x");
    end.system.inside_in.push_back(read_of(&packet));
    let inside = end.system.inside.keys().copied().collect();
    end.turn(&Ready {
        inside,
        ..Ready::default()
    });
    assert_eq!(take_calls(), [Call::Tick(end.system.now), Call::Outward(1)]);
}

#[test]
fn a_list_of_64_goes_out_in_one_run() {
    let mut link = up();
    let end = &mut link.ends[0];
    for number in 0..150u8 {
        end.system
            .inside_in
            .push_back(read_of(&to_right(&[number])));
    }
    for _ in 0..3 {
        end.turn_all();
    }
    let runs: Vec<usize> = end.system.esp_out.iter().map(Vec::len).collect();
    assert_eq!(runs, [64, 64, 22]);
    let outward: Vec<Call> = take_calls();
    let outward = outward
        .into_iter()
        .filter(|call| matches!(call, Call::Outward(_)));
    let expected = [64, 64, 22].map(Call::Outward);
    assert_eq!(outward.collect::<Vec<Call>>(), expected);
    link.settle();
    assert_eq!(link.ends[1].system.inside_out.len(), 150);
    let opened = take_calls()
        .into_iter()
        .filter(|call| *call == Call::Esp(64));
    assert_eq!(opened.count(), 2);
}

#[test]
fn a_full_socket_loses_packets_and_no_more() {
    let mut link = up();
    let end = &mut link.ends[0];
    end.system.faults.room = Some(10);
    for number in 0..64u8 {
        end.system
            .inside_in
            .push_back(read_of(&to_right(&[number])));
    }
    end.turn_all();
    let counters = end.status().peers[0].counters.clone();
    assert_eq!((counters.esp_out, counters.unsent_esp), (10, 54));
    // What the kernel took is counted; numbers were spent on all.
    let child = end.status().peers[0].children[0].clone();
    let octets = 10 * to_right(&[0]).len() as u64;
    assert_eq!((counters.octets_out, child.octets_out), (octets, octets));
    assert_eq!((child.packets_out, child.last_sent), (10, 64));
    assert_eq!(end.system.logged("aren't sent"), 1);
    end.system.faults.room = None;
    end.system.faults.send = Some(libc::ENETUNREACH);
    end.system.inside_in.push_back(read_of(&to_right(b"lost")));
    end.turn_all();
    assert_eq!(end.status().peers[0].counters.unsent_esp, 55);
    end.system.faults.send = None;
    end.system.inside_in.push_back(read_of(&to_right(b"again")));
    end.turn_all();
    link.settle();
    assert_eq!(link.ends[1].system.inside_out.len(), 11);
}

#[test]
fn an_interface_that_goes_is_made_again() {
    let mut link = up();
    let end = &mut link.ends[0];
    end.system.faults.read_inside = Some(libc::EBADFD);
    end.turn_all();
    assert!(end.system.inside.is_empty());
    assert!(end.daemon.readable().is_empty());
    let status = end.status();
    assert!(!status.peers[0].interface.as_ref().unwrap().there);
    assert!(status.peers[0].up.is_some(), "the peer notices nothing");
    end.system.faults.read_inside = None;
    end.system.faults.open_inside = true;
    link.pass(6_000);
    assert_eq!(link.ends[0].system.opened, 1);
    link.ends[0].system.faults.open_inside = false;
    link.pass(5_000);
    let end = &mut link.ends[0];
    assert_eq!(end.system.opened, 2);
    end.system.inside_in.push_back(read_of(&to_right(b"again")));
    end.turn_all();
    link.settle();
    assert_eq!(link.ends[1].system.inside_out.len(), 1);
}

#[test]
fn what_comes_while_the_interface_is_gone_is_dropped() {
    let mut link = up();
    link.ends[1].system.faults.write_inside = Some(libc::EBADFD);
    for _ in 0..3 {
        let packet = read_of(&to_right(b"lost"));
        link.ends[0].system.inside_in.push_back(packet);
    }
    link.ends[0].turn_all();
    link.settle();
    let end = &mut link.ends[1];
    let counters = end.status().peers[0].counters.clone();
    assert_eq!((counters.unwritten, counters.interfaces_gone), (3, 1));
    // While it can't be made, what comes is counted, and both reasons are told.
    end.system.faults.open_inside = true;
    link.pass(5_000);
    let packet = read_of(&to_right(b"lost too"));
    link.ends[0].system.inside_in.push_back(packet);
    link.ends[0].turn_all();
    link.settle();
    let end = &mut link.ends[1];
    let counters = end.status().peers[0].counters.clone();
    assert_eq!((counters.unwritten, counters.esp_in), (4, 4));
    assert_eq!(end.system.warned("the interface went"), 1);
    assert_eq!(end.system.warned("interface suk1: "), 1);
}

#[test]
fn an_interface_that_was_set_down_is_made_again() {
    // By the kernel's word.
    let mut link = up();
    let end = &mut link.ends[0];
    let down = Ready {
        gone: end.system.inside.keys().copied().collect(),
        ..Ready::default()
    };
    end.turn(&down);
    // What it says of one that is gone already changes nothing.
    end.turn(&down);
    assert!(end.system.inside.is_empty());
    assert!(end.daemon.readable().is_empty());
    let counters = end.status().peers[0].counters.clone();
    assert_eq!(counters.interfaces_gone, 1);
    assert_eq!(end.system.warned("it was set down or deleted"), 1);
    link.pass(4_999);
    assert_eq!(link.ends[0].system.opened, 1);
    link.pass(1);
    assert_eq!(link.ends[0].system.opened, 2);
    // By its not taking a packet.
    link.ends[0].system.faults.write_inside = Some(libc::EIO);
    let packet = read_of(&inner(INSIDE_RIGHT, INSIDE_LEFT, 0, b"lost"));
    link.ends[1].system.inside_in.push_back(packet);
    link.ends[1].turn_all();
    link.settle();
    assert!(link.ends[0].system.inside.is_empty());
    link.ends[0].system.faults.write_inside = None;
    link.pass(5_000);
    assert_eq!(link.ends[0].system.opened, 3);
}

#[test]
fn an_interface_that_cannot_be_read_is_told_once_a_minute() {
    let mut link = up();
    let end = &mut link.ends[0];
    end.system.faults.read_inside = Some(libc::EIO);
    for _ in 0..3 {
        end.turn_all();
    }
    let counters = end.status().peers[0].counters.clone();
    assert_eq!((counters.unread, counters.interfaces_gone), (3, 0));
    assert_eq!(end.system.warned("can't be read"), 1);
    let table = end.status().to_string();
    assert!(
        table.contains("3 errors of reading the interface"),
        "{table}"
    );
}

#[test]
fn packets_without_a_gateway_are_counted() {
    close(true);
    let mut end = End::new(0, config(0, ""));
    close(false);
    for number in 0..3 {
        let packet = read_of(&to_right(&[number]));
        end.system.inside_in.push_back(packet);
    }
    end.turn_all();
    let counters = end.status().peers[0].counters.clone();
    assert_eq!((counters.uncarried, counters.octets_out), (3, 0));
    assert_eq!(end.system.warned("no gateway to go by"), 1);
    let table = end.status().to_string();
    assert!(table.contains("3 packets without a gateway"), "{table}");
}

#[test]
fn nothing_ends_the_loop_but_a_signal() {
    let mut link = up();
    let end = &mut link.ends[0];
    let faults = &mut end.system.faults;
    faults.receive = Some(libc::ECONNREFUSED);
    faults.send = Some(libc::EPERM);
    faults.read_inside = Some(libc::EIO);
    faults.write_inside = Some(libc::EIO);
    let answer = Message {
        from_spi: 1,
        to_spi: 2,
        number: 7,
        body: Body::Empty,
    };
    let answer = double::message::octets_of(&answer, false);
    let mut ready = end.system.all();
    ready.reload = true;
    ready.status = true;
    for turn in 0..500u16 {
        let system = &mut end.system;
        system.faults.receive = (turn % 3 == 0).then_some(libc::ENOBUFS);
        let noise = vec![turn as u8; usize::from(turn % 70)];
        system.ike_in.push_back((ike_at(RIGHT), noise.clone()));
        system.ike_in.push_back((ike_at(RIGHT), answer.clone()));
        system.esp_in.push_back(noise.clone());
        system.esp_in.push_back(outer(RIGHT, LEFT, 0, &noise));
        system.inside_in.push_back(noise);
        system.script.push_back(ready.clone());
    }
    end.daemon.run(&mut end.system).unwrap();
    assert!(end.daemon.is_over());
    assert!(end.system.turns > 500);
    assert_eq!(
        end.system.logged("stays as it was"),
        500,
        "the file has a fault"
    );
    assert!(end.system.status.is_some());
}

#[test]
fn without_chance_it_ends() {
    let mut system = Fake::new(1);
    system.faults.draw = true;
    let daemon = Daemon::<double::core::Double>::new(config(0, ""), &mut system);
    assert!(matches!(daemon.err(), Some(Stop::NoChance(_))));
    let mut link = up();
    let end = &mut link.ends[0];
    end.system.faults.draw = true;
    end.system
        .ike_in
        .push_back((ike_at(RIGHT), b"noise".to_vec()));
    let ready = end.system.all();
    let stop = end.daemon.turn(&mut end.system, &ready);
    assert!(matches!(stop, Err(Stop::NoChance(_))));
    assert!(!take_calls().contains(&Call::Ike), "no input goes without");
}

#[test]
fn a_packet_too_long_for_the_path_is_answered_inside() {
    let mut link = up();
    let end = &mut link.ends[0];
    end.system.faults.path = Some(1_400);
    end.system
        .inside_in
        .push_back(read_of(&to_right(&[1; 100])));
    end.system
        .inside_in
        .push_back(read_of(&to_right(&[2; 1_400])));
    end.system
        .inside_in
        .push_back(read_of(&to_right(&[3; 100])));
    end.turn_all();
    let sent: Vec<usize> = end.system.esp_out.iter().map(Vec::len).collect();
    assert_eq!(sent, [1, 1], "before it and behind it");
    let answer = &end.system.inside_out[0][10..];
    // ICMP 'fragmentation needed', from the packet's destination, with the inner MTU.
    assert_eq!(answer[20..22], [3, 4]);
    assert_eq!(answer[12..16], INSIDE_RIGHT.octets());
    assert_eq!(u16::from_be_bytes([answer[26], answer[27]]), 1_400 - 49);
    // The next one isn't even sealed.
    end.system
        .inside_in
        .push_back(read_of(&to_right(&[4; 1_400])));
    end.turn_all();
    assert_eq!(end.system.inside_out.len(), 2);
    assert_eq!(end.status().peers[0].counters.too_long, 2);
    assert_eq!(
        end.status().peers[0].interface.as_ref().unwrap().outer_mtu,
        1_400
    );
    // After ten minutes the path is tried again.
    end.system.faults.path = None;
    link.pass(600_000);
    let end = &mut link.ends[0];
    end.system
        .inside_in
        .push_back(read_of(&to_right(&[5; 1_400])));
    end.turn_all();
    assert_eq!(end.system.inside_out.len(), 2);
    assert_eq!(end.system.esp_out.len(), 1);
}

#[test]
fn packets_wait_in_the_interface_while_the_peer_has_no_new_child_yet() {
    let timers = "timers = { child_age = 60, association_age = 3600 }";
    let mut link = Link::with(config(0, timers), config(1, timers));
    link.pass(59_000);
    let before = link.ends[1].status().peers[0].children[0].serial;
    // The left end asks for a new Child SA. Its answer is still on its way when the right
    // end has packets.
    let mut waited = false;
    for _ in 0..3_000 {
        for end in &mut link.ends {
            end.system.now += 1;
        }
        link.ends[0].turn_all();
        let asked = std::mem::take(&mut link.ends[0].system.ike_out);
        for (_, message) in asked {
            link.ends[1]
                .system
                .ike_in
                .push_back((ike_at(LEFT), message));
        }
        link.ends[1].turn_all();
        if link.ends[1].daemon.readable().is_empty() {
            waited = true;
            break;
        }
        link.settle();
    }
    assert!(waited, "the right end lets its packets wait");
    let packet = read_of(&inner(INSIDE_RIGHT, INSIDE_LEFT, 0, b"by the new child"));
    link.ends[1].system.inside_in.push_back(packet.clone());
    link.ends[1].turn_all();
    assert!(link.ends[1].system.esp_out.is_empty());
    assert!(
        link.ends[1].status().peers[0]
            .interface
            .as_ref()
            .unwrap()
            .waiting
    );
    // A hundred milliseconds at most, and the turn behind it.
    link.pass(101);
    assert_eq!(link.ends[0].system.inside_out, [packet]);
    let children = &link.ends[1].status().peers[0].children;
    let newest = children.iter().max_by_key(|child| child.serial).unwrap();
    assert!(
        newest.serial > before && newest.packets_out == 1,
        "{children:?}"
    );
    link.pass(10_000);
    assert_eq!(
        link.ends[0].status().peers[0].children.len(),
        1,
        "the old one went"
    );
}

#[test]
fn a_packet_that_comes_before_its_child_is_kept_and_given_again() {
    let mut link = Link::new();
    // The left end has asked for its first Child SA; the answer is on its way when the
    // right end, which has the child already, sends by it.
    for _ in 0..20 {
        for end in 0..2 {
            let ike = std::mem::take(&mut link.ends[end].system.ike_out);
            let from = ike_at(link.ends[end].address);
            for (_, message) in ike {
                link.ends[1 - end].system.ike_in.push_back((from, message));
            }
        }
        link.ends[1].turn_all();
        if link.ends[1].status().peers[0].up.is_some() {
            break;
        }
        link.ends[0].turn_all();
    }
    let packet = read_of(&inner(INSIDE_RIGHT, INSIDE_LEFT, 0, b"early"));
    link.ends[1].system.inside_in.push_back(packet.clone());
    link.ends[1].turn_all();
    let early = std::mem::take(&mut link.ends[1].system.esp_out);
    let early = outer(RIGHT, LEFT, 0, &early[0][0].1);
    let end = &mut link.ends[0];
    end.system.esp_in.push_back(early.clone());
    end.turn_all();
    assert!(end.system.inside_out.is_empty());
    assert_eq!(end.status().peers[0].counters.kept, 1);
    link.settle();
    assert_eq!(link.ends[0].system.inside_out, [packet]);
    // Where no Child SA is asked for, none is kept.
    let end = &mut link.ends[0];
    let mut unknown = early;
    unknown[23] ^= 0x80;
    end.system.esp_in.push_back(unknown);
    end.turn_all();
    let status = end.status();
    assert_eq!(status.peers[0].counters.kept, 1);
}

#[test]
fn an_esp_packet_of_no_gateway_reaches_no_core() {
    let mut link = up();
    let end = &mut link.ends[0];
    let spi: u32 = match take_first_spi(&end.status()) {
        spi if spi > 1 << 31 => spi - (1 << 24),
        spi => spi + (1 << 24),
    };
    let mut packet = spi.to_be_bytes().to_vec();
    packet.extend([0; 60]);
    end.system.esp_in.push_back(outer(RIGHT, LEFT, 0, &packet));
    end.system
        .esp_in
        .push_back(outer(RIGHT, LEFT, 0, &[1, 2, 3]));
    end.turn_all();
    assert!(!take_calls().iter().any(|call| matches!(call, Call::Esp(_))));
    let unclaimed = end.status().unclaimed;
    assert_eq!((unclaimed.unknown_spis, unclaimed.malformed), (1, 1));
}

fn take_first_spi(status: &Status) -> u32 {
    u32::from_str_radix(&status.peers[0].children[0].spi_in, 16).unwrap()
}

#[test]
fn first_spis_lie_apart() {
    let mut links: Vec<Link> = (0..50).map(|_| Link::new()).collect();
    for link in &mut links {
        link.pass(10);
    }
    for call in take_calls() {
        if let Call::Open { first_spi } = call {
            assert!((256..=u32::MAX - 65_535).contains(&first_spi));
        }
    }
}

#[test]
fn a_gateway_that_cannot_be_made_is_tried_again() {
    close(true);
    let mut link = Link::new();
    link.pass(3_000);
    assert!(!link.is_up());
    assert_eq!(link.ends[0].system.logged("makes no gateway"), 1);
    close(false);
    // The end that waits has no command that makes it try: a new configuration does.
    link.ends[1] = End::new(1, config(1, ""));
    link.ends[1].system.now = link.ends[0].system.now;
    link.pass(60_000);
    assert!(link.is_up());
}

#[test]
fn sigterm_deletes_at_the_peer_and_waits_two_seconds_at_most() {
    let mut link = up();
    let terminate = Ready {
        terminate: true,
        ..Ready::default()
    };
    link.ends[0].turn(&terminate);
    assert!(!link.ends[0].daemon.is_over(), "the peer answers first");
    link.settle();
    assert!(link.ends[0].daemon.is_over());
    assert!(link.ends[0].system.inside.is_empty());
    assert_eq!(link.ends[1].status().peers[0].up, None, "the peer knows");

    let mut link = up();
    link.cut = true;
    link.ends[0].turn(&terminate);
    link.pass(1_999);
    assert!(!link.ends[0].daemon.is_over());
    link.pass(1);
    assert!(link.ends[0].daemon.is_over());
}

#[test]
fn sighup_takes_what_changed_and_leaves_the_rest() {
    let mut link = up();
    let reload = Ready {
        reload: true,
        ..Ready::default()
    };
    // A fault changes nothing.
    link.ends[0].turn(&reload);
    assert_eq!(link.ends[0].system.logged("stays as it was: no file"), 1);
    // The same again neither.
    link.ends[0].system.configuration = Ok(config(0, ""));
    link.ends[0].turn(&reload);
    link.pass(10);
    assert!(link.is_up());
    let calls = take_calls();
    assert!(!calls.iter().any(|call| matches!(call, Call::Open { .. })));
    // Another window wants another gateway.
    link.ends[0].system.configuration = Ok(config(0, "window = 4"));
    link.ends[0].turn(&reload);
    let calls = take_calls();
    assert!(calls.iter().any(|call| matches!(call, Call::Open { .. })));
    // The old one still holds its SAs, but packets go by the new one, which has none yet.
    let status = link.ends[0].status();
    assert_eq!((status.peers[0].up, status.peers[0].carried), (None, 0));
    assert!(status.peers[0].children.iter().any(|child| child.live));
    link.pass(10_000);
    assert!(link.is_up());
    let packet = read_of(&to_right(b"by the new one"));
    link.ends[0].system.inside_in.push_back(packet.clone());
    link.ends[0].turn_all();
    link.settle();
    assert_eq!(link.ends[1].system.inside_out, [packet]);
    // Another address of this end can't be taken.
    link.ends[0].system.configuration = Ok(config(1, ""));
    link.ends[0].turn(&reload);
    assert_eq!(link.ends[0].system.logged("wants a restart"), 1);
    // Who isn't named any more is told that all ends, and who is new is begun with.
    let mut other = config(0, "");
    other.peers[0].name = "renamed".to_string();
    link.ends[0].system.configuration = Ok(other);
    link.ends[0].turn(&reload);
    link.pass(30_000);
    let names: Vec<String> = link.ends[0]
        .status()
        .peers
        .iter()
        .map(|peer| peer.name.clone())
        .collect();
    assert_eq!(names, ["renamed"]);
    assert!(link.is_up());
}

#[test]
fn a_peer_that_forgot_all_is_up_again_in_ten_seconds() {
    let mut link = up();
    link.pass(60_000);
    let now = link.ends[1].system.now;
    let mut end = End::new(1, config(1, ""));
    end.system.now = now;
    link.ends[1] = end;
    link.pass(10_000);
    assert!(link.is_up(), "{:?}", link.ends[0].system.log);
}

#[test]
fn the_status_goes_as_json_and_prints_as_a_table() {
    let mut link = up();
    link.ends[0]
        .system
        .inside_in
        .push_back(read_of(&to_right(b"x")));
    link.pass(5_000);
    let end = &mut link.ends[0];
    end.system.ike_in.push_back((ike_at(RIGHT), vec![0; 3]));
    end.turn(&Ready {
        ike: true,
        status: true,
        ..Ready::default()
    });
    let json = end.system.status.take().unwrap();
    let status = Status::of_json(&json).unwrap();
    assert_eq!(status, end.status());
    let table = status.to_string();
    for words in [
        "at 192.0.2.1, running for 5s",
        "peer other (192.0.2.2): up for 5s, 1 of 1 entries carried",
        "interface suk0: there, outer MTU 1500",
        "established  here     5s",
        "refused: 1 times E1, fewer octets than a header has, last 0s ago",
        "packets: 1 out, 0 in",
    ] {
        assert!(table.contains(words), "{words:?} in\n{table}");
    }
}

#[test]
fn a_forged_path_mtu_is_not_believed() {
    let mut link = up();
    let end = &mut link.ends[0];
    end.system.faults.forged = Some(552);
    for number in 0..3 {
        let packet = read_of(&to_right(&[number; 1_400]));
        end.system.inside_in.push_back(packet);
    }
    end.turn_all();
    assert!(!end.system.heeds);
    let sent: usize = end.system.esp_out.iter().map(Vec::len).sum();
    assert_eq!(sent, 3, "none is lost");
    assert!(end.system.inside_out.is_empty(), "nobody inside is told");
    let status = end.status();
    assert_eq!(status.peers[0].interface.as_ref().unwrap().outer_mtu, 1_500);
    assert_eq!(end.system.warned("MTU for 552, which isn't believed"), 1);
    // After ten minutes the kernel is asked again, and still not believed.
    link.pass(599_999);
    assert!(!link.ends[0].system.heeds);
    link.pass(1);
    let end = &mut link.ends[0];
    assert!(end.system.heeds);
    let packet = read_of(&to_right(&[9; 1_400]));
    end.system.inside_in.push_back(packet);
    end.turn_all();
    assert!(!end.system.heeds);
    assert_eq!(end.status().peers[0].counters.too_long, 0);
    // Where the first link takes no more, the inside is told the least that is believed.
    end.system.faults.path = Some(1_000);
    let packet = read_of(&to_right(&[9; 1_400]));
    end.system.inside_in.push_back(packet);
    end.turn_all();
    let answer = &end.system.inside_out[0][10..];
    assert_eq!(u16::from_be_bytes([answer[26], answer[27]]), 1_280);
}

#[test]
fn a_path_mtu_is_believed_from_the_least_on() {
    for (told, heeds) in [(1_329, true), (1_328, false)] {
        let mut link = up();
        let end = &mut link.ends[0];
        end.system.faults.forged = Some(told);
        let packet = read_of(&to_right(&[1; 1_400]));
        end.system.inside_in.push_back(packet);
        end.turn_all();
        assert_eq!(end.system.heeds, heeds, "{told}");
    }
}

#[test]
fn answers_to_the_inside_are_limited() {
    let mut link = up();
    let end = &mut link.ends[0];
    end.system.now += 60_000;
    end.system.faults.path = Some(1_400);
    let mut answered = Vec::new();
    for _ in 0..3 {
        for number in 0..150u8 {
            let packet = read_of(&to_right(&[number; 1_400]));
            end.system.inside_in.push_back(packet);
        }
        for _ in 0..3 {
            end.turn_all();
        }
        answered.push(end.system.inside_out.len());
        end.system.inside_out.clear();
        end.system.now += 1_000;
    }
    assert_eq!(answered, [100, 10, 10]);
    assert_eq!(end.status().peers[0].counters.too_long, 450);
}

/// The configuration of the left end with peers of these names, interfaces and routes.
fn peers(list: &[(&str, &str, &str)]) -> Config {
    let mut text = format!("local = \"{LEFT}\"\n");
    for (place, (name, tun, net)) in list.iter().enumerate() {
        text += &format!(
            "[[peers]]\n\
             name = \"{name}\"\n\
             address = \"192.0.2.{}\"\n\
             begins = true\n\
             own_identity = {{ type = \"fqdn\", value = \"left.example\" }}\n\
             peer_identity = {{ type = \"fqdn\", value = \"{name}.example\" }}\n\
             secret_file = \"secret\"\n\
             [[peers.entries]]\n\
             action = \"protect\"\n\
             local = \"10.0.0.0/24\"\n\
             remote = \"{net}\"\n\
             [peers.tun]\n\
             name = \"{tun}\"\n\
             routes = [\"{net}\"]\n",
            place + 2
        );
    }
    read(&text)
}

#[test]
fn interfaces_and_routes_change_hands_at_once() {
    let nets = ["10.1.0.0/24", "10.2.0.0/24"];
    let first = peers(&[("a", "suk0", nets[0]), ("b", "suk1", nets[1])]);
    let mut end = End::new(0, first);
    let cases = [
        // A peer is renamed and keeps its interface.
        [("c", "suk0", nets[0]), ("b", "suk1", nets[1])],
        // Two peers swap the names of their interfaces, then their routes.
        [("c", "suk1", nets[0]), ("b", "suk0", nets[1])],
        [("c", "suk1", nets[1]), ("b", "suk0", nets[0])],
        // Both peers are renamed, and swap their interfaces.
        [("d", "suk0", nets[1]), ("e", "suk1", nets[0])],
        // Who was let go comes back at once.
        [("c", "suk1", nets[1]), ("b", "suk0", nets[0])],
    ];
    for case in cases {
        end.system.configuration = Ok(peers(&case));
        end.turn(&Ready {
            reload: true,
            ..Ready::default()
        });
        let status = end.status();
        for (name, tun, net) in case {
            let mut told = status.peers.iter().rev();
            let told = told.find(|peer| peer.name == name).unwrap();
            let interface = told.interface.as_ref().unwrap();
            assert!(interface.there, "{name}: {:?}", end.system.log);
            assert_eq!(interface.name, tun);
            let mut held = end.system.inside.values();
            let held = held.find(|held| held.name == tun).unwrap();
            assert_eq!(held.routes[0].address.to_string() + "/24", net);
        }
        assert_eq!(end.system.inside.len(), 2);
    }
    assert_eq!(end.system.logged("so far)"), 0, "nothing went wrong");
}

/// A policy of two entries, of which both ends protect both.
const SECOND: &str = "timers = { child_age = 60, association_age = 3600 }\n\
    [[peers.entries]]\n\
    action = \"protect\"\n\
    local = \"172.16.0.0/24\"\n\
    remote = \"172.16.0.0/24\"";

#[test]
fn what_the_peer_asks_for_takes_nothing_of_what_is_asked_for_here() {
    let mut link = Link::with(config(0, SECOND), config(1, SECOND));
    link.pass(59_000);
    let status = link.ends[0].status();
    assert_eq!(status.peers[0].carried, 2);
    let ike = &status.peers[0].associations[0];
    let spi = |digits: &str| u64::from_str_radix(digits, 16).unwrap();
    let (own, other) = (spi(&ike.spi_initiator), spi(&ike.spi_responder));
    // The left end asks for another Child SA of an entry, and the answer is on its way.
    let mut asked = None;
    while asked.is_none() {
        link.settle();
        for end in &mut link.ends {
            end.system.now += 1;
        }
        link.ends[0].turn_all();
        let sent = &link.ends[0].system.ike_out;
        let messages = sent
            .iter()
            .map(|(_, message)| double::message::message_of(message));
        asked = messages.flatten().find_map(|message| match message.body {
            Body::Child { entry, .. } => Some(entry),
            _ => None,
        });
    }
    let asked = asked.unwrap();
    let request = std::mem::take(&mut link.ends[0].system.ike_out);
    // Meanwhile the peer asks for one of the other entry.
    let message = Message {
        from_spi: other,
        to_spi: own,
        number: 0,
        body: Body::Child {
            entry: 1 - asked,
            spi: 77,
        },
    };
    let message = double::message::octets_of(&message, false);
    let before = status.peers[0]
        .children
        .iter()
        .map(|child| child.serial)
        .max();
    let end = &mut link.ends[0];
    end.system.ike_in.push_back((ike_at(RIGHT), message));
    end.turn_all();
    let newest = |end: &mut End| {
        let children = end.status().peers[0].children.clone();
        children
            .into_iter()
            .max_by_key(|child| child.serial)
            .unwrap()
    };
    let made = newest(end);
    assert!(Some(made.serial) > before, "the peer's was taken");
    assert_eq!(made.entry, Some(1 - asked));
    // The answer comes after it.
    end.system.ike_out = request;
    link.settle();
    let answered = newest(&mut link.ends[0]);
    assert!(answered.serial > made.serial);
    assert_eq!(answered.entry, Some(asked));
}

#[test]
fn an_ike_sa_that_was_declined_is_a_warning_once_a_minute() {
    decline(true);
    let mut link = Link::new();
    link.pass(40_000);
    let words = [
        "the peer declined an IKE SA, or this end its proof",
        "an IKE SA that the peer began was declined",
    ];
    for (end, words) in link.ends.iter_mut().zip(words) {
        assert_eq!(end.system.warned(words), 1, "{:?}", end.system.log);
        assert_eq!(end.system.logged("declined"), 1);
        assert!(end.status().peers[0].counters.ike_in > 8, "again and again");
    }
    decline(false);
    link.pass(60_000);
    assert!(link.is_up());
}
