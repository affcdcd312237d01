//! The core of the library, as the daemon's loop calls it: lists of packets. It is run with the
//! feature `library`, where the library is there.
#![cfg(feature = "library")]

mod double;
mod simulation;

use double::link::{config, INSIDE_LEFT, INSIDE_RIGHT, LEFT, RIGHT};
use double::packets::inner;
use std::net::Ipv4Addr;
use std::ops::Range;
use sukperind::core::{Core, Fresh, LibraryCore, Outcome, Passage, Request, Terms};
use zeroize::Zeroizing;

/// Two ends, and a counter in place of randomness.
struct Two {
    ends: [LibraryCore; 2],
    drawn: u8,
}

impl Two {
    /// Both have a Child SA with serial 1, and a replay window of so many blocks.
    fn up(blocks: u32) -> Two {
        let open = |end: usize| {
            let config = config(end, &format!("blocks = {blocks}"));
            let terms = Terms {
                local: config.local,
                peer: &config.peers[0],
                first_spi: 4_096,
                cookie_secret: &[7; 32],
            };
            LibraryCore::open(&terms).unwrap()
        };
        let mut two = Two {
            ends: [open(0), open(1)],
            drawn: 0,
        };
        let fresh = two.fresh();
        let mut outcome = two.ends[0].order(Request::Start { entry: 0 }, fresh);
        let mut to = 1;
        loop {
            let (Outcome::Request { octets, .. } | Outcome::Reply { octets, .. }) = outcome else {
                let child = Some(1);
                assert!(matches!(outcome, Outcome::Counted { child: made, .. } if made == child));
                return two;
            };
            let fresh = two.fresh();
            outcome = two.ends[to].ike([LEFT, RIGHT][1 - to], &octets, fresh);
            to = 1 - to;
        }
    }

    fn fresh(&mut self) -> Fresh {
        self.drawn += 1;
        let seed = self.drawn;
        let octets = std::array::from_fn(|index| seed.wrapping_mul(31).wrapping_add(index as u8));
        Fresh::new(Box::new(Zeroizing::new(octets)))
    }
}

/// Packets in one buffer, with octets between them.
#[derive(Default)]
struct List {
    octets: Vec<u8>,
    places: Vec<Range<usize>>,
}

impl List {
    fn add(&mut self, packet: &[u8]) {
        self.octets.extend([0x45; 20]);
        let start = self.octets.len();
        self.octets.extend_from_slice(packet);
        self.places.push(start..self.octets.len());
    }
}

/// Packets of several lengths. Each seventh is for nobody, each ninth is cut.
fn packets(count: usize) -> List {
    let mut list = List::default();
    for index in 0..count {
        let to = match index % 7 {
            6 => Ipv4Addr::new(10, 8, 0, 1),
            _ => INSIDE_RIGHT,
        };
        let mut packet = inner(INSIDE_LEFT, to, 0, &vec![index as u8; index % 40]);
        packet.truncate(packet.len() - usize::from(index % 9 == 8));
        list.add(&packet);
    }
    list
}

#[test]
fn lists_go_through() {
    // So many blocks that the window holds all numbers.
    let mut two = Two::up(16);
    let (mut room, mut passed) = (Vec::new(), Vec::new());
    let mut numbers = 0;
    // Shorter and longer than the one before, and none.
    for count in [70, 3, 0, 1, 64, 200] {
        let out = packets(count);
        passed.clear();
        two.ends[0].outward(&out.octets, &out.places, &mut room, &mut passed);
        assert_eq!(passed.len(), count);
        let mut sealed = List::default();
        let mut carried = Vec::new();
        for (index, (passage, place)) in passed.iter().zip(&out.places).enumerate() {
            match passage {
                Passage::Sealed {
                    child: 1,
                    number,
                    place: of,
                } => {
                    numbers += 1;
                    assert_eq!(*number, numbers);
                    sealed.add(&room[of.clone()]);
                    carried.push(&out.octets[place.clone()]);
                }
                Passage::Discarded => assert!(index % 7 == 6 && index % 9 != 8),
                Passage::Refused { code: 21 } => assert_eq!(index % 9, 8),
                other => panic!("{other:?}"),
            }
        }
        for again in [false, true] {
            passed.clear();
            two.ends[1].esp(&sealed.octets, &sealed.places, &mut passed);
            assert_eq!(passed.len(), carried.len());
            for (passage, packet) in passed.iter().zip(&carried) {
                match passage {
                    Passage::Up {
                        child: 1, place, ..
                    } if !again => assert_eq!(&sealed.octets[place.clone()], *packet),
                    Passage::Refused { code: 16 } if again => {}
                    other => panic!("{other:?}"),
                }
            }
        }
    }
}

#[test]
fn replays_behind_the_window_are_refused() {
    let mut two = Two::up(2);
    let out = packets(200);
    let (mut room, mut passed) = (Vec::new(), Vec::new());
    two.ends[0].outward(&out.octets, &out.places, &mut room, &mut passed);
    let (mut sealed, mut last) = (List::default(), 0);
    for passage in &passed {
        if let Passage::Sealed { number, place, .. } = passage {
            sealed.add(&room[place.clone()]);
            last = *number;
        }
    }
    for again in [false, true] {
        passed.clear();
        two.ends[1].esp(&sealed.octets, &sealed.places, &mut passed);
        for (number, passage) in (1..=last).zip(&passed) {
            match passage {
                Passage::Up { number: told, .. } if !again => assert_eq!(*told, number),
                Passage::Refused { code: 16 } if again => assert!(number + 128 > last),
                // Of 64 bits, the number is then taken for the next 2^32 (RFC 4303 appendix A2.2).
                Passage::Refused { code: 18 } if again => assert!(number + 64 <= last),
                other => panic!("{other:?}"),
            }
        }
        assert_eq!(passed.len() as u64, last);
    }
}

#[test]
fn one_packet_of_a_list_is_refused_alone() {
    let mut two = Two::up(2);
    let out = packets(3);
    let (mut room, mut passed) = (Vec::new(), Vec::new());
    two.ends[0].outward(&out.octets, &out.places, &mut room, &mut passed);
    let mut sealed = List::default();
    for passage in &passed {
        let Passage::Sealed { place, .. } = passage else {
            panic!("{passage:?}");
        };
        sealed.add(&room[place.clone()]);
    }
    let end = sealed.places[1].end;
    sealed.octets[end - 1] ^= 1;
    sealed.places[2].end = sealed.octets.len() + 1;
    passed.clear();
    two.ends[1].esp(&sealed.octets, &sealed.places, &mut passed);
    assert!(matches!(passed[0], Passage::Up { number: 1, .. }));
    assert_eq!(passed[1], Passage::Refused { code: 18 });
    assert_eq!(passed[2], Passage::Refused { code: 109 });
}
