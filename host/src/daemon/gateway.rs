//! One gateway, and what is known of its IKE SAs and Child SAs.

use super::around::SPIS;
use super::heading::Heading;
use crate::config::{Action, Entry, Range};
use crate::core::{AssociationTold, ChildTold, Core, Selector};
use crate::peer::NewChild;
use std::collections::BTreeMap;

/// What one Child SA has carried.
#[derive(Clone, Debug, PartialEq, Eq)]
pub(super) struct Carried {
    pub(super) entry: u32,
    pub(super) made_at: u64,
    /// The last number sent, and the greatest taken.
    pub(super) sent: u64,
    pub(super) taken: u64,
    pub(super) packets_out: u64,
    pub(super) packets_in: u64,
    pub(super) octets_out: u64,
    pub(super) octets_in: u64,
    /// When something came by it last, in milliseconds.
    pub(super) last_in: Option<u64>,
    ike: u32,
    extended: bool,
}

/// What an input changed in the table of Child SAs.
#[derive(Clone, Debug, Default, PartialEq, Eq)]
pub(super) struct Change {
    /// The Child SAs that came, with their IKE SAs' serials.
    pub(super) made: Vec<(u32, NewChild)>,
    /// The serials of those that went, with their IKE SAs'.
    pub(super) gone: Vec<(u32, u32)>,
}

/// A gateway.
pub(super) struct Gateway<C> {
    pub(super) number: u32,
    pub(super) first_spi: u32,
    pub(super) core: C,
    /// The last moment that it was told.
    pub(super) told: Option<u64>,
    /// The established IKE SAs, and since when.
    pub(super) established: BTreeMap<u32, u64>,
    pub(super) children: BTreeMap<u32, Carried>,
    /// The entry of the Child SA that is asked for under an IKE SA.
    pub(super) asked: BTreeMap<u32, u32>,
}

impl<C: Core> Gateway<C> {
    pub(super) fn new(number: u32, first_spi: u32, core: C) -> Gateway<C> {
        Gateway {
            number,
            first_spi,
            core,
            told: None,
            established: BTreeMap::new(),
            children: BTreeMap::new(),
            asked: BTreeMap::new(),
        }
    }

    /// Whether an SPI is one of those that it gives.
    pub(super) fn has_spi(&self, spi: u32) -> bool {
        spi.checked_sub(self.first_spi)
            .is_some_and(|place| place < SPIS)
    }

    /// Whether a message is for one of its IKE SAs.
    pub(super) fn has_association(&mut self, heading: &Heading) -> bool {
        let own = heading.own_spi();
        self.core.associations().iter().any(|association| {
            let spi = match association.begun_here {
                true => association.spi_initiator,
                false => association.spi_responder,
            };
            spi == own
        })
    }

    /// The IKE SA with these SPIs.
    pub(super) fn association_of(&mut self, heading: &Heading) -> Option<AssociationTold> {
        self.core.associations().into_iter().find(|association| {
            association.spi_initiator == heading.spi_initiator
                && association.spi_responder == heading.spi_responder
        })
    }

    /// Compares the table of Child SAs with what was known of it, after an answer to this
    /// end's request under an IKE SA, or after something else. Of what the peer asked for
    /// nothing is known but its selectors: what this end asks for is still under way.
    pub(super) fn look(&mut self, entries: &[Entry], now: u64, answered: Option<u32>) -> Change {
        let table = self.core.children();
        let mut change = Change::default();
        self.children.retain(|serial, carried| {
            let there = table.iter().any(|child| child.child == *serial);
            if !there {
                change.gone.push((carried.ike, *serial));
            }
            there
        });
        for child in &table {
            if self.children.contains_key(&child.child) {
                continue;
            }
            let asked = answered.filter(|ike| *ike == child.ike);
            let asked = asked.and_then(|ike| self.asked.remove(&ike));
            let entry = asked.or_else(|| entry_of(child, entries));
            // A Child SA of no entry is cared for as one that nothing is asked of.
            let entry = entry.unwrap_or(u32::MAX);
            let told = NewChild {
                child: child.child,
                entry,
                extended: child.extended,
            };
            self.children
                .insert(child.child, Carried::new(child, entry, now));
            change.made.push((child.ike, told));
        }
        change
    }

    /// The Child SAs whose numbers are all sent.
    pub(super) fn ended(&self) -> Vec<u32> {
        let is_last = |carried: &Carried| {
            let last = match carried.extended {
                true => u64::MAX,
                false => u64::from(u32::MAX),
            };
            carried.sent >= last
        };
        let ended = self.children.iter().filter(|(_, carried)| is_last(carried));
        ended.map(|(serial, _)| *serial).collect()
    }
}

impl Carried {
    fn new(child: &ChildTold, entry: u32, now: u64) -> Carried {
        Carried {
            entry,
            made_at: now,
            sent: 0,
            taken: 0,
            packets_out: 0,
            packets_in: 0,
            octets_out: 0,
            octets_in: 0,
            last_in: None,
            ike: child.ike,
            extended: child.extended,
        }
    }
}

impl Change {
    /// The Child SA that was made under an IKE SA.
    pub(super) fn made_under(&self, ike: u32) -> Option<NewChild> {
        let mut made = self.made.iter();
        made.find(|(under, _)| *under == ike)
            .map(|(_, child)| *child)
    }

    /// The Child SAs of an IKE SA that went.
    pub(super) fn gone_under(&self, ike: u32) -> Vec<u32> {
        let gone = self.gone.iter().filter(|(under, _)| *under == ike);
        gone.map(|(_, serial)| *serial).collect()
    }
}

/// The first entry that protects and holds a Child SA that the peer asked for, by the
/// first selector of each side: what was agreed lies within one entry.
pub(super) fn entry_of(child: &ChildTold, entries: &[Entry]) -> Option<u32> {
    let (local, remote) = (child.locals.first()?, child.remotes.first()?);
    let place = entries.iter().position(|entry| {
        entry.action == Action::Protect
            && holds(entry.protocol, entry.local, entry.local_ports, local)
            && holds(entry.protocol, entry.remote, entry.remote_ports, remote)
    })?;
    u32::try_from(place).ok()
}

fn holds(protocol: u8, range: Range, ports: (u16, u16), selector: &Selector) -> bool {
    let addresses = match (range, selector.addresses) {
        (Range::V4(low, high), Range::V4(from, to)) => low <= from && to <= high,
        (Range::V6(low, high), Range::V6(from, to)) => low <= from && to <= high,
        _ => false,
    };
    let protocols = protocol == 0 || protocol == selector.protocol;
    let ports = ports.0 <= selector.ports.0 && selector.ports.1 <= ports.1;
    addresses && protocols && ports
}
