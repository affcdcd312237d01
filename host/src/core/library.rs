//! The core of the library `sukperin`.

use super::{AssociationTold, ChildTold, Core, Fresh, Outcome, Passage, Phase, Request};
use super::{Selector, Terms};
use crate::config::{Action, Entry, Identity, PeerConfig, Range as AddressRange};
use std::net::{IpAddr, Ipv4Addr};
use std::ops::Range;
use sukperin::{Output, Place, Record};

/// One gateway of the library.
#[derive(Debug)]
pub struct LibraryCore {
    gateway: sukperin::Gateway,
    /// The places and the records of the last list. They are kept for the next one, so
    /// that none is allocated anew.
    places: Vec<Place>,
    records: Vec<Record>,
}

impl LibraryCore {
    /// Lays out a list for one call of the library, with a record for each packet.
    fn list(&mut self, places: &[Range<usize>]) {
        self.places.clear();
        self.places.extend(places.iter().cloned().map(Place::from));
        self.records.clear();
        self.records.resize(places.len(), Record::default());
    }

    /// Adds what came of each packet of the list.
    fn tell(
        &self,
        told: Result<(), sukperin::Error>,
        octets: &[u8],
        room: &[u8],
        passed: &mut Vec<Passage>,
    ) {
        let listed = self.places.iter().zip(&self.records);
        passed.extend(listed.map(|(place, record)| {
            let output = told.and_then(|()| record.output(*place, octets, room));
            passage(output, octets, room)
        }));
    }
}

impl Core for LibraryCore {
    fn open(terms: &Terms<'_>) -> Result<LibraryCore, String> {
        let peer = terms.peer;
        let own_octets = peer.own_identity.octets();
        let peer_octets = peer.peer_identity.octets();
        let end = |identity, address| sukperin::End {
            identity,
            address,
            secret: peer.secret.octets(),
        };
        let config = sukperin::Config {
            own: end(identity_of(&peer.own_identity, &own_octets), terms.local),
            peer: end(identity_of(&peer.peer_identity, &peer_octets), peer.address),
            extended: peer.extended,
            window: peer.window,
            blocks: peer.blocks,
            first_spi: terms.first_spi,
            cookie_secret: terms.cookie_secret,
        };
        sukperin::Gateway::new(&config, &policy_of(peer))
            .map(|gateway| LibraryCore {
                gateway,
                places: Vec::new(),
                records: Vec::new(),
            })
            .map_err(|error| error.to_string())
    }

    fn ike(&mut self, from: Ipv4Addr, datagram: &[u8], fresh: Fresh) -> Outcome {
        outcome(self.gateway.ike(from, datagram, fresh_of(&fresh)))
    }

    fn order(&mut self, request: Request, fresh: Fresh) -> Outcome {
        let fresh = fresh_of(&fresh);
        let gateway = &mut self.gateway;
        outcome(match request {
            Request::Start { entry } => gateway.start(None, entry, fresh),
            Request::Child { ike, entry } => gateway.start(Some(ike), entry, fresh),
            Request::Probe { ike } => gateway.probe(ike, fresh),
            Request::DeleteChild { child } => gateway.delete_child(child, fresh),
            Request::DeleteIke { ike } => gateway.delete_ike(ike, fresh),
        })
    }

    fn new_secret(&mut self, secret: &[u8; 32]) -> Outcome {
        outcome(self.gateway.secret(secret))
    }

    fn tick(&mut self, moment: u64) -> Outcome {
        outcome(self.gateway.tick(moment))
    }

    fn next_moment(&mut self) -> Option<u64> {
        self.gateway.next_moment().ok().flatten()
    }

    fn esp(&mut self, octets: &[u8], places: &[Range<usize>], passed: &mut Vec<Passage>) {
        self.list(places);
        let told = self
            .gateway
            .esp_all(octets, &self.places, &mut self.records);
        self.tell(told, octets, &[], passed);
    }

    fn outward(
        &mut self,
        octets: &[u8],
        places: &[Range<usize>],
        room: &mut Vec<u8>,
        passed: &mut Vec<Passage>,
    ) {
        self.list(places);
        let each = places.iter().map(|place| sukperin::room_for(place.len()));
        let needed = each.sum();
        if room.len() < needed {
            room.resize(needed, 0);
        }
        let told = self
            .gateway
            .outward_all(octets, &self.places, room, &mut self.records);
        self.tell(told, octets, room, passed);
    }

    fn children(&mut self) -> Vec<ChildTold> {
        let children = self.gateway.children().unwrap_or_default();
        let told = |child: sukperin::Child| ChildTold {
            child: child.serial,
            ike: child.ike,
            spi_in: child.spi_in,
            spi_out: child.spi_out,
            live: child.live,
            extended: child.extended,
            locals: child.locals.iter().map(selector_of).collect(),
            remotes: child.remotes.iter().map(selector_of).collect(),
        };
        children.into_iter().map(told).collect()
    }

    fn associations(&mut self) -> Vec<AssociationTold> {
        let associations = self.gateway.associations().unwrap_or_default();
        let told = |association: sukperin::Association| AssociationTold {
            ike: association.serial,
            begun_here: association.role == sukperin::Role::Initiator,
            phase: match association.phase {
                sukperin::Phase::Established => Phase::Established,
                sukperin::Phase::Closed => Phase::Closed,
                _ => Phase::Beginning,
            },
            spi_initiator: association.spi_initiator,
            spi_responder: association.spi_responder,
        };
        associations.into_iter().map(told).collect()
    }
}

fn identity_of<'a>(identity: &'a Identity, octets: &'a [u8]) -> sukperin::Identity<'a> {
    match identity {
        Identity::Fqdn(name) => sukperin::Identity::Name(name),
        Identity::Email(name) => sukperin::Identity::Mail(name),
        Identity::Address(IpAddr::V4(address)) => sukperin::Identity::Ipv4(*address),
        Identity::Address(IpAddr::V6(address)) => sukperin::Identity::Ipv6(*address),
        Identity::KeyId(_) => sukperin::Identity::Other {
            kind: identity.kind(),
            data: octets,
        },
    }
}

fn policy_of(peer: &PeerConfig) -> Vec<sukperin::Entry> {
    let range = |range: AddressRange| match range {
        AddressRange::V4(start, end) => sukperin::Range::V4(start, end),
        AddressRange::V6(start, end) => sukperin::Range::V6(start, end),
    };
    let entry = |entry: &Entry| sukperin::Entry {
        action: match entry.action {
            Action::Protect => sukperin::Action::Protect,
            Action::Bypass => sukperin::Action::Bypass,
            Action::Discard => sukperin::Action::Discard,
        },
        protocol: entry.protocol,
        local: range(entry.local),
        local_ports: entry.local_ports,
        remote: range(entry.remote),
        remote_ports: entry.remote_ports,
    };
    peer.entries.iter().map(entry).collect()
}

fn selector_of(selector: &sukperin::Selector) -> Selector {
    Selector {
        protocol: selector.protocol,
        addresses: match selector.addresses {
            sukperin::Range::V4(start, end) => AddressRange::V4(start, end),
            sukperin::Range::V6(start, end) => AddressRange::V6(start, end),
        },
        ports: selector.ports,
    }
}

fn fresh_of(fresh: &Fresh) -> sukperin::Fresh {
    sukperin::Fresh::from_octets(fresh.octets())
}

type Told<'a> = Result<Output<'a>, sukperin::Error>;

fn outcome(told: Told<'_>) -> Outcome {
    let output = match told {
        Ok(output) => output,
        Err(error) => return Outcome::Refused { code: error.code() },
    };
    match output {
        Output::Reply {
            octets,
            child,
            closed,
            ..
        } => Outcome::Reply {
            octets,
            child,
            closed,
        },
        Output::Repeat { octets } => Outcome::Repeat { octets },
        Output::Request { ike, octets } => Outcome::Request { ike, octets },
        Output::Counted { ike, child, closed } => Outcome::Counted {
            ike,
            child,
            closed: closed.is_some(),
        },
        Output::Ticked { requests, closed } => Outcome::Ticked {
            requests: requests.into_iter().map(|sent| sent.octets).collect(),
            closed,
        },
        Output::Dropped { reason } | Output::Refused { reason } => Outcome::Refused {
            code: u32::from(reason.number()),
        },
        // None of these comes of a message, a command or a moment.
        Output::Done
        | Output::Up { .. }
        | Output::Dummy { .. }
        | Output::Sealed { .. }
        | Output::Clear { .. }
        | Output::Discarded => Outcome::Done,
    }
}

fn passage(told: Told<'_>, octets: &[u8], room: &[u8]) -> Passage {
    match told {
        Ok(Output::Up {
            child,
            number,
            packet,
        }) => Passage::Up {
            child,
            number,
            place: place_of(packet, octets),
        },
        Ok(Output::Sealed {
            child,
            number,
            octets: sealed,
        }) => Passage::Sealed {
            child,
            number,
            place: place_of(sealed, room),
        },
        Ok(Output::Dummy { child, number }) => Passage::Dummy { child, number },
        Ok(Output::Clear { .. }) => Passage::Clear,
        Ok(Output::Dropped { reason } | Output::Refused { reason }) => Passage::Refused {
            code: u32::from(reason.number()),
        },
        // Nothing else comes of a packet.
        Ok(_) => Passage::Discarded,
        Err(error) => Passage::Refused { code: error.code() },
    }
}

/// Where a part of octets begins and ends in them. Addresses are compared, and nothing
/// is read by them.
fn place_of(part: &[u8], whole: &[u8]) -> Range<usize> {
    let start = (part.as_ptr() as usize).saturating_sub(whole.as_ptr() as usize);
    start..start + part.len()
}
