//! The status of the daemon.

use super::refusals::words_of;
use super::site::Site;
use super::Daemon;
use crate::core::{Core, Phase};
use crate::peer::Role;
use crate::status::{Association, Child, Interface, PeerStatus, Refusal, Status, Unclaimed};
use crate::system::System;
use std::collections::BTreeSet;

impl<C: Core> Daemon<C> {
    /// What the daemon tells of itself now.
    pub fn status<S: System>(&mut self, system: &mut S) -> Status {
        let now = system.now();
        let unclaimed = &self.unclaimed;
        Status {
            version: env!("CARGO_PKG_VERSION").to_string(),
            local: self.shared.local,
            running: seconds(self.begun_at, now),
            ending: self.leaving,
            unclaimed: Unclaimed {
                strangers: unclaimed.strangers,
                last_stranger: unclaimed.last_stranger,
                unknown_spis: unclaimed.spis,
                malformed: unclaimed.malformed,
                unread: unclaimed.unread,
            },
            peers: self.sites.iter_mut().map(|site| site.status(now)).collect(),
        }
    }
}

fn seconds(since: u64, now: u64) -> u64 {
    now.saturating_sub(since) / 1_000
}

impl<C: Core> Site<C> {
    fn status(&mut self, now: u64) -> PeerStatus {
        let associations = self.associations(now);
        let children = self.children(now);
        let settings = self.config.settings();
        // Packets go out by one gateway. What another one still holds, as after a reload, carries none.
        let carrier = self.carrier;
        let live: BTreeSet<u32> = children
            .iter()
            .filter(|child| child.live && Some(child.gateway) == carrier)
            .filter_map(|child| child.entry)
            .collect();
        let carried = settings.entries.iter().filter(|entry| live.contains(entry));
        let refusals = self.refusals.counts().map(|(number, counted)| Refusal {
            number,
            words: words_of(number).to_string(),
            count: counted.count,
            last: seconds(counted.last, now),
        });
        PeerStatus {
            name: self.config.name.clone(),
            address: self.config.address,
            begins: settings.role == Role::Begins,
            up: associations
                .iter()
                .filter(|told| Some(told.gateway) == carrier)
                .filter_map(|told| told.since)
                .max(),
            entries: settings.entries.len() as u64,
            carried: carried.count() as u64,
            last_probe: self.last_probe.map(|at| seconds(at, now)),
            interface: self.config.tun.as_ref().map(|tun| Interface {
                name: tun.name.clone(),
                there: self.inside.is_open(),
                outer_mtu: self.outer_mtu(),
                waiting: !self.held.is_empty(),
            }),
            refusals: refusals.collect(),
            counters: self.counters.clone(),
            associations,
            children,
        }
    }

    fn associations(&mut self, now: u64) -> Vec<Association> {
        let mut told = Vec::new();
        for gateway in &mut self.gateways {
            for association in gateway.core.associations() {
                let since = gateway.established.get(&association.ike);
                told.push(Association {
                    gateway: gateway.number,
                    serial: association.ike,
                    begun_here: association.begun_here,
                    phase: match association.phase {
                        Phase::Beginning => "beginning",
                        Phase::Established => "established",
                        Phase::Closed => "closed",
                    }
                    .to_string(),
                    since: since.map(|since| seconds(*since, now)),
                    spi_initiator: format!("{:016x}", association.spi_initiator),
                    spi_responder: format!("{:016x}", association.spi_responder),
                });
            }
        }
        told
    }

    fn children(&mut self, now: u64) -> Vec<Child> {
        let mut told = Vec::new();
        for gateway in &mut self.gateways {
            for child in gateway.core.children() {
                let Some(carried) = gateway.children.get(&child.child) else {
                    continue;
                };
                told.push(Child {
                    gateway: gateway.number,
                    serial: child.child,
                    association: child.ike,
                    entry: Some(carried.entry).filter(|entry| *entry != u32::MAX),
                    spi_in: format!("{:08x}", child.spi_in),
                    spi_out: format!("{:08x}", child.spi_out),
                    live: child.live,
                    extended: child.extended,
                    since: seconds(carried.made_at, now),
                    last_sent: carried.sent,
                    greatest_taken: carried.taken,
                    packets_out: carried.packets_out,
                    packets_in: carried.packets_in,
                    octets_out: carried.octets_out,
                    octets_in: carried.octets_in,
                    last_in: carried.last_in.map(|at| seconds(at, now)),
                });
            }
        }
        told
    }
}
