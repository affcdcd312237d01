//! The model of the core behind the calls that the loop makes.

use super::message::{message_of, octets_of};
use crate::simulation::core::{Came, Core as Model, Message, Phase as ModelPhase};
use std::cell::RefCell;
use std::net::{IpAddr, Ipv4Addr};
use std::ops::Range;
use sukperind::config::{Entry, Range as AddressRange};
use sukperind::core::{AssociationTold, ChildTold, Core, Fresh, Outcome, Passage, Phase};
use sukperind::core::{Request, Selector, Terms};
use sukperind::peer::Refusal;

/// A call that a core got.
#[derive(Clone, Copy, Debug, PartialEq, Eq)]
pub enum Call {
    Open { first_spi: u32 },
    Tick(u64),
    Ike,
    Order(Request),
    Esp(usize),
    Outward(usize),
    Secret,
}

thread_local! {
    /// The calls that the cores of this test got, in order.
    static CALLS: RefCell<Vec<Call>> = const { RefCell::new(Vec::new()) };
    /// Whether no gateway can be made.
    static CLOSED: RefCell<bool> = const { RefCell::new(false) };
    /// Whether each end declines the other's identity.
    static DECLINES: RefCell<bool> = const { RefCell::new(false) };
}

/// Takes the calls that were made so far.
pub fn take_calls() -> Vec<Call> {
    CALLS.with(|calls| calls.take())
}

/// Lets the core make no gateway, or make them again.
pub fn close(closed: bool) {
    CLOSED.with(|value| *value.borrow_mut() = closed);
}

/// Lets each core decline the other's identity, or take it again.
pub fn decline(declines: bool) {
    DECLINES.with(|value| *value.borrow_mut() = declines);
}

fn note(call: Call) {
    CALLS.with(|calls| calls.borrow_mut().push(call));
}

pub struct Double {
    model: Model,
    entries: Vec<Entry>,
    extended: bool,
    next_spi: u32,
    now: u64,
}

impl Double {
    fn fresh_spis(&mut self, fresh: &Fresh) -> (u64, u64) {
        let octets = fresh.octets();
        let ike = u64::from_be_bytes(octets[..8].try_into().unwrap());
        assert!(octets[8..].iter().any(|octet| *octet != 0), "all is drawn");
        let spi = self.next_spi;
        self.next_spi += 1;
        (ike, u64::from(spi))
    }

    fn octets(&self, message: &Message) -> Vec<u8> {
        let mut associations = self.model.associations.values();
        let begun_here = associations
            .find(|ike| ike.own_spi == message.from_spi)
            .is_some_and(|ike| ike.begun_here);
        octets_of(message, begun_here)
    }

    fn entry_of(&self, packet: &[u8]) -> Option<usize> {
        let (from, to) = match packet[0] >> 4 {
            4 => (v4_at(packet, 12), v4_at(packet, 16)),
            _ => (v6_at(packet, 8), v6_at(packet, 24)),
        };
        let holds = |range: AddressRange, address: IpAddr| match (range, address) {
            (AddressRange::V4(low, high), IpAddr::V4(address)) => (low..=high).contains(&address),
            (AddressRange::V6(low, high), IpAddr::V6(address)) => (low..=high).contains(&address),
            _ => false,
        };
        let of = |entry: &Entry| holds(entry.local, from) && holds(entry.remote, to);
        self.entries.iter().position(of)
    }
}

fn v4_at(packet: &[u8], at: usize) -> IpAddr {
    let octets: [u8; 4] = packet[at..at + 4].try_into().unwrap();
    octets.into()
}

fn v6_at(packet: &[u8], at: usize) -> IpAddr {
    let octets: [u8; 16] = packet[at..at + 16].try_into().unwrap();
    octets.into()
}

fn code_of(refusal: Refusal) -> u32 {
    match refusal {
        Refusal::Unprotected => 23,
        Refusal::Full => 25,
        Refusal::SpisSpent => 26,
        Refusal::Unknown => 28,
        Refusal::WrongPhase => 32,
        Refusal::Busy => 35,
        Refusal::NumbersSpent => 36,
        Refusal::BadFresh => 37,
        Refusal::Memory => 20,
    }
}

impl Core for Double {
    fn open(terms: &Terms<'_>) -> Result<Double, String> {
        if CLOSED.with(|closed| *closed.borrow()) {
            return Err("out of memory".to_string());
        }
        let first_spi = terms.first_spi;
        note(Call::Open { first_spi });
        Ok(Double {
            model: Model::new(0, 65_536, u32::from(terms.peer.window)),
            entries: terms.peer.entries.clone(),
            extended: terms.peer.extended,
            next_spi: first_spi,
            now: 0,
        })
    }

    fn ike(&mut self, _: Ipv4Addr, datagram: &[u8], fresh: Fresh) -> Outcome {
        note(Call::Ike);
        let Some(message) = message_of(datagram) else {
            return Outcome::Refused { code: 1 };
        };
        let (ike_spi, spi) = self.fresh_spis(&fresh);
        let (came, answer) = self.model.receive(self.now, &message, ike_spi, spi);
        let octets = answer
            .map(|answer| self.octets(&answer))
            .unwrap_or_default();
        let declines = DECLINES.with(|declines| *declines.borrow());
        match came {
            Came::Counted { ike, .. } if declines => {
                self.model.close(self.now, ike);
                Outcome::Counted {
                    ike,
                    child: None,
                    closed: true,
                }
            }
            Came::Admitted { ike, .. } if declines => {
                self.model.close(self.now, ike);
                Outcome::Reply {
                    octets,
                    child: None,
                    closed: Some(ike),
                }
            }
            Came::Dropped => Outcome::Refused { code: 28 },
            Came::Continued => Outcome::Request { ike: 0, octets },
            Came::Counted { ike, child, closed } => Outcome::Counted { ike, child, closed },
            Came::HalfOpened => Outcome::Reply {
                octets,
                child: None,
                closed: None,
            },
            Came::Admitted { child, .. } => Outcome::Reply {
                octets,
                child,
                closed: None,
            },
            Came::Replied {
                ike, child, closed, ..
            } => Outcome::Reply {
                octets,
                child,
                closed: closed.then_some(ike),
            },
            Came::Repeated { .. } => Outcome::Repeat { octets },
        }
    }

    fn order(&mut self, request: Request, fresh: Fresh) -> Outcome {
        note(Call::Order(request));
        let (ike_spi, spi) = self.fresh_spis(&fresh);
        let (now, model) = (self.now, &mut self.model);
        let told = match request {
            Request::Start { entry } => model.start(now, entry, ike_spi, spi),
            Request::Child { ike, entry } => model
                .child(now, ike, entry, spi)
                .map(|message| (ike, message)),
            Request::Probe { ike } => model.probe(now, ike).map(|message| (ike, message)),
            Request::DeleteChild { child } => {
                let ike = model.pairs.get(&child).map_or(0, |pair| pair.ike);
                model.delete_child(now, child).map(|message| (ike, message))
            }
            Request::DeleteIke { ike } => model.delete_ike(now, ike).map(|message| (ike, message)),
        };
        match told {
            Ok((ike, message)) => Outcome::Request {
                ike,
                octets: self.octets(&message),
            },
            Err(refusal) => Outcome::Refused {
                code: code_of(refusal),
            },
        }
    }

    fn new_secret(&mut self, secret: &[u8; 32]) -> Outcome {
        assert_ne!(secret, &[0; 32]);
        note(Call::Secret);
        Outcome::Done
    }

    fn tick(&mut self, moment: u64) -> Outcome {
        note(Call::Tick(moment));
        self.now = self.now.max(moment);
        let (again, closed) = self.model.tick(self.now);
        Outcome::Ticked {
            requests: again.iter().map(|message| self.octets(message)).collect(),
            closed,
        }
    }

    fn next_moment(&mut self) -> Option<u64> {
        self.model.next_moment()
    }

    fn esp(&mut self, octets: &[u8], places: &[Range<usize>], passed: &mut Vec<Passage>) {
        note(Call::Esp(places.len()));
        for place in places {
            let packet = &octets[place.clone()];
            let word = |at: usize| u32::from_be_bytes(packet[at..at + 4].try_into().unwrap());
            let mut pairs = self.model.pairs.iter_mut();
            let found = pairs.find(|(_, pair)| pair.own_spi == u64::from(word(0)));
            passed.push(match found {
                Some((child, pair)) => {
                    let number = u64::from(word(4));
                    pair.taken = pair.taken.max(number);
                    Passage::Up {
                        child: *child,
                        number,
                        place: place.start + 8..place.end - 16,
                    }
                }
                None => Passage::Refused { code: 28 },
            });
        }
    }

    fn outward(
        &mut self,
        octets: &[u8],
        places: &[Range<usize>],
        room: &mut Vec<u8>,
        passed: &mut Vec<Passage>,
    ) {
        note(Call::Outward(places.len()));
        room.clear();
        for place in places {
            let packet = &octets[place.clone()];
            let entry = self.entry_of(packet);
            let of_entry = |pair: &crate::simulation::core::Pair| {
                pair.live && Some(pair.entry as usize) == entry
            };
            let mut pairs = self.model.pairs.iter_mut().rev();
            let Some((child, pair)) = pairs.find(|(_, pair)| of_entry(pair)) else {
                passed.push(Passage::Refused { code: 28 });
                continue;
            };
            pair.sent += 1;
            let start = room.len();
            room.extend((pair.peer_spi as u32).to_be_bytes());
            room.extend((pair.sent as u32).to_be_bytes());
            room.extend(packet);
            room.extend([0; 16]);
            passed.push(Passage::Sealed {
                child: *child,
                number: pair.sent,
                place: start..room.len(),
            });
        }
    }

    fn children(&mut self) -> Vec<ChildTold> {
        let told = |(child, pair): (&u32, &crate::simulation::core::Pair)| {
            let entry = self.entries[pair.entry as usize];
            let selector = |addresses, ports| Selector {
                protocol: entry.protocol,
                addresses,
                ports,
            };
            ChildTold {
                child: *child,
                ike: pair.ike,
                spi_in: pair.own_spi as u32,
                spi_out: pair.peer_spi as u32,
                live: pair.live,
                extended: self.extended,
                locals: vec![selector(entry.local, entry.local_ports)],
                remotes: vec![selector(entry.remote, entry.remote_ports)],
            }
        };
        self.model.pairs.iter().map(told).collect()
    }

    fn associations(&mut self) -> Vec<AssociationTold> {
        let told = |(ike, held): (&u32, &crate::simulation::core::Ike)| {
            let (initiator, responder) = match held.begun_here {
                true => (held.own_spi, held.peer_spi),
                false => (held.peer_spi, held.own_spi),
            };
            AssociationTold {
                ike: *ike,
                begun_here: held.begun_here,
                phase: match held.phase {
                    ModelPhase::Established => Phase::Established,
                    ModelPhase::Closed => Phase::Closed,
                    _ => Phase::Beginning,
                },
                spi_initiator: initiator,
                spi_responder: responder,
            }
        };
        self.model.associations.iter().map(told).collect()
    }
}
