//! Datagrams of IKE.

use super::around::Around;
use super::heading::Heading;
use super::site::{Site, Trouble};
use super::{Daemon, Stop};
use crate::core::{Core, Outcome, Phase};
use crate::peer::{AssociationName, Event};
use crate::system::linux::IKE_PORT;
use crate::system::{Level, System};
use std::collections::btree_map::Entry;
use std::io;
use std::net::SocketAddrV4;

/// The kind of the tally under which strangers are counted.
const STRANGER: u32 = 1;
/// The kind under which errors of reading are counted.
const UNREAD: u32 = 2;

impl<C: Core> Daemon<C> {
    /// Takes a list of datagrams. Only those from a peer's address reach a core.
    pub(super) fn take_ike<S: System>(&mut self, system: &mut S) -> Result<(), Stop> {
        self.ike.clear();
        if let Err(error) = system.receive_ike(&mut self.ike) {
            self.note_unread(system, "UDP port 500", &error);
        }
        for received in self.ike.received() {
            let datagram = &self.ike.octets()[received.place.clone()];
            let from = received.from;
            let of_peer = |site: &&mut Site<C>| site.config.address == *from.ip();
            match self.sites.iter_mut().find(of_peer) {
                Some(site) => {
                    let mut around = Around::new(system, &mut self.shared);
                    site.take_ike(&mut around, from, datagram)?;
                }
                None => {
                    let unclaimed = &mut self.unclaimed;
                    unclaimed.strangers += 1;
                    unclaimed.last_stranger = Some(*from.ip());
                    let now = system.now();
                    if let Some(count) = unclaimed.log.note(STRANGER, now) {
                        let line = format!("IKE of {from}, who is no peer ({count} of strangers)");
                        system.log(Level::Warning, &line);
                    }
                }
            }
        }
        Ok(())
    }

    /// An error of a socket says of itself nothing but that a datagram went amiss.
    pub(super) fn note_unread<S: System>(&mut self, system: &mut S, what: &str, error: &io::Error) {
        if matches!(
            error.kind(),
            io::ErrorKind::WouldBlock | io::ErrorKind::Interrupted
        ) {
            return;
        }
        self.unclaimed.unread += 1;
        let now = system.now();
        if let Some(count) = self.unclaimed.log.note(UNREAD, now) {
            system.log(
                Level::Warning,
                &format!("reading {what}: {error} ({count} so far)"),
            );
        }
    }
}

impl<C: Core> Site<C> {
    /// Takes a datagram of IKE from this peer's address.
    fn take_ike<S: System>(
        &mut self,
        around: &mut Around<'_, S>,
        from: SocketAddrV4,
        datagram: &[u8],
    ) -> Result<(), Stop> {
        self.counters.ike_in += 1;
        self.tell_time(around)?;
        let heading = Heading::of(datagram);
        let first = heading.is_some_and(|heading| heading.is_first_request());
        if first && !self.first_requests.admit(around.now) {
            self.counters.first_requests_limited += 1;
            self.note_trouble(around, Trouble::FirstRequests, "too many first requests");
            return Ok(());
        }
        let Some(place) = self.gateway_for(heading, first) else {
            return Ok(());
        };
        let fresh = around.fresh()?;
        let gateway = &mut self.gateways[place];
        let number = gateway.number;
        match gateway.core.ike(*from.ip(), datagram, fresh) {
            Outcome::Reply { octets, closed, .. } => {
                self.send_ike(around, from, &octets);
                self.replied(around, place, heading, closed.is_some())
            }
            Outcome::Repeat { octets } => {
                self.send_ike(around, from, &octets);
                self.repeated(around, place, heading)
            }
            Outcome::Request { octets, .. } => {
                self.send_to_peer(around, &octets);
                Ok(())
            }
            Outcome::Counted { ike, child, closed } => {
                self.counted(around, number, ike, child, closed)
            }
            Outcome::Refused { code } => {
                self.note_refusal(around, "a datagram of IKE", code);
                Ok(())
            }
            Outcome::Ticked { .. } | Outcome::Done => Ok(()),
        }
    }

    /// The gateway that a datagram is for: the newest for a first request and for what
    /// is for none.
    fn gateway_for(&mut self, heading: Option<Heading>, first: bool) -> Option<usize> {
        let newest = self.gateways.len().checked_sub(1)?;
        let heading = heading.filter(|_| newest > 0 && !first);
        let place = heading.and_then(|heading| {
            let mut gateways = self.gateways.iter_mut();
            gateways.position(|gateway| gateway.has_association(&heading))
        });
        Some(place.unwrap_or(newest))
    }

    /// A request of the peer took effect. What it made, the tables tell.
    fn replied<S: System>(
        &mut self,
        around: &mut Around<'_, S>,
        place: usize,
        heading: Option<Heading>,
        closed: bool,
    ) -> Result<(), Stop> {
        let gateway = &mut self.gateways[place];
        let change = gateway.look(&self.config.entries, around.now, None);
        // Of a first request there is none with these SPIs.
        let association = heading.and_then(|heading| gateway.association_of(&heading));
        let Some(association) = association else {
            return Ok(());
        };
        let ike = association.ike;
        let name = AssociationName {
            gateway: gateway.number,
            ike,
        };
        let closed = closed || association.phase == Phase::Closed;
        let known = gateway.established.contains_key(&ike);
        if closed {
            gateway.established.remove(&ike);
        }
        let child = change.made_under(ike);
        if known {
            let gone = change.gone_under(ike);
            let event = Event::Replied {
                association: name,
                child,
                gone,
                closed,
            };
            if closed {
                self.log_change(around, "the peer ended an IKE SA");
            }
            return self.tell(around, event);
        }
        if association.phase != Phase::Established {
            if closed {
                let what = "an IKE SA that the peer began was declined: secret or identities";
                self.note_trouble(around, Trouble::Declined, what);
            }
            return Ok(());
        }
        gateway.established.insert(ike, around.now);
        self.log_change(around, "an IKE SA that the peer began");
        let association = name;
        self.tell(around, Event::Admitted { association, child })
    }

    fn repeated<S: System>(
        &mut self,
        around: &mut Around<'_, S>,
        place: usize,
        heading: Option<Heading>,
    ) -> Result<(), Stop> {
        let gateway = &mut self.gateways[place];
        let association = heading.and_then(|heading| gateway.association_of(&heading));
        let known = association.filter(|told| gateway.established.contains_key(&told.ike));
        let Some(association) = known else {
            return Ok(());
        };
        let association = AssociationName {
            gateway: gateway.number,
            ike: association.ike,
        };
        self.tell(around, Event::Repeated { association })
    }

    fn counted<S: System>(
        &mut self,
        around: &mut Around<'_, S>,
        number: u32,
        ike: u32,
        child: Option<u32>,
        closed: bool,
    ) -> Result<(), Stop> {
        let now = around.now;
        let entries = &self.config.entries;
        let mut gateways = self.gateways.iter_mut();
        let Some(gateway) = gateways.find(|gateway| gateway.number == number) else {
            return Ok(());
        };
        let change = gateway.look(entries, now, Some(ike));
        gateway.asked.remove(&ike);
        let child = child.and_then(|_| change.made_under(ike));
        let mut said = None;
        let mut declined = false;
        if closed {
            declined = gateway.established.remove(&ike).is_none();
            said = (!declined).then_some("an IKE SA is ended");
        } else if let Entry::Vacant(vacant) = gateway.established.entry(ike) {
            vacant.insert(now);
            said = Some(match child {
                Some(_) => "an IKE SA that this end began",
                None => "an IKE SA without a Child SA: the peer declined it",
            });
        }
        if let Some(said) = said {
            self.log_change(around, said);
        }
        if declined {
            let what = "the peer declined an IKE SA, or this end its proof";
            self.note_trouble(around, Trouble::Declined, what);
        }
        let association = AssociationName {
            gateway: number,
            ike,
        };
        let event = Event::Counted {
            association,
            child,
            closed,
        };
        self.tell(around, event)
    }

    fn log_change<S: System>(&self, around: &mut Around<'_, S>, what: &str) {
        around.log(Level::Info, &format!("peer {}: {what}", self.config.name));
    }

    /// Sends a message to where the request came from that it answers.
    fn send_ike<S: System>(
        &mut self,
        around: &mut Around<'_, S>,
        to: SocketAddrV4,
        message: &[u8],
    ) {
        match around.system.send_ike(to, message) {
            Ok(()) => self.counters.ike_out += 1,
            Err(error) => {
                // It comes again: the peer asks again, or the core does.
                self.counters.unsent_ike += 1;
                let what = format!("IKE to {to} isn't sent: {error}");
                self.note_trouble(around, Trouble::UnsentIke, &what);
            }
        }
    }

    /// Sends a request of this end.
    pub(super) fn send_to_peer<S: System>(&mut self, around: &mut Around<'_, S>, message: &[u8]) {
        let to = SocketAddrV4::new(self.config.address, IKE_PORT);
        self.send_ike(around, to, message);
    }
}
