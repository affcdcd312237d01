//! One peer: its care, its gateways, its interface.

use super::allowance::Allowance;
use super::around::Around;
use super::gateway::Gateway;
use super::refusals::words_of;
use super::tally::Tally;
use super::Stop;
use crate::config::PeerConfig;
use crate::core::{Core, Outcome, Passage};
use crate::path::offload::{Joiner, Packets};
use crate::path::outer::OVERHEAD;
use crate::peer::{AssociationName, Event, Peer};
use crate::status::Counters;
use crate::system::{Level, SiteKey, System};
use std::collections::{BTreeMap, BTreeSet};

/// First requests of a peer that are let in at once, and one more after each interval.
const FIRST_REQUESTS: (u64, u64) = (3, 1_000);

/// Answers to the inside that something is too long: so many at once, and one more after each
/// interval.
const ANSWERS: (u64, u64) = (100, 100);

/// How long after an interface went it is made anew, in milliseconds.
const AGAIN: u64 = 5_000;

/// How long a path's smaller MTU is believed (RFC 1191 section 6.3), in milliseconds.
pub(super) const MTU_LASTS: u64 = 600_000;

/// The longest read of the interface: a virtio header and a packet.
const LONGEST_READ: usize = 10 + 65_535;

/// The interface of a site.
#[derive(Debug)]
pub(super) enum Inside {
    /// The configuration has none.
    None,
    /// It is there, and joins what it is given.
    Open(Joiner),
    /// It went or couldn't be made, and is to be made at a moment.
    Gone(u64),
}

/// What went wrong besides the core's refusals, for the log. The numbers are below those
/// of no E number.
#[derive(Clone, Copy, Debug, PartialEq, Eq)]
pub(super) enum Trouble {
    UnsentIke = 1_000,
    UnsentEsp,
    Unwritten,
    Malformed,
    Interface,
    /// An interface can't be made.
    NoInterface,
    NoGateway,
    FirstRequests,
    Bypassed,
    /// An IKE SA was declined, at either end.
    Declined,
    /// The interface can't be read.
    Unread,
    /// Packets have no gateway to go by.
    Uncarried,
    /// The kernel's idea of the path's MTU isn't believed.
    Path,
}

/// Memory that is used again for each list.
#[derive(Debug)]
pub(super) struct Buffers {
    pub(super) read: Vec<u8>,
    pub(super) cut: Packets,
    pub(super) room: Vec<u8>,
    pub(super) passed: Vec<Passage>,
    pub(super) joined: Packets,
}

/// A site.
pub(super) struct Site<C> {
    key: SiteKey,
    pub(super) config: PeerConfig,
    pub(super) peer: Peer,
    pub(super) gateways: Vec<Gateway<C>>,
    pub(super) carrier: Option<u32>,
    pub(super) held: BTreeSet<u32>,
    pub(super) kept: BTreeMap<u64, Vec<u8>>,
    pub(super) next_packet: u64,
    pub(super) first_requests: Allowance,
    pub(super) answers: Allowance,
    pub(super) inside: Inside,
    /// A path's MTU that is below the configured one, and until when it holds.
    pub(super) narrow: Option<(u16, u64)>,
    pub(super) counters: Counters,
    /// When the peer was last asked whether it is there.
    pub(super) last_probe: Option<u64>,
    pub(super) refusals: Tally,
    troubles: Tally,
    pub(super) buffers: Option<Buffers>,
    leaving: bool,
}

impl Buffers {
    fn new() -> Buffers {
        Buffers {
            read: vec![0; LONGEST_READ],
            cut: Packets::new(),
            room: Vec::new(),
            passed: Vec::new(),
            joined: Packets::new(),
        }
    }
}

impl<C: Core> Site<C> {
    pub(super) fn new(key: SiteKey, config: PeerConfig, now: u64) -> Site<C> {
        let allowance = |(most, interval)| Allowance::new(most, interval);
        Site {
            key,
            peer: Peer::new(config.settings(), now),
            config,
            gateways: Vec::new(),
            carrier: None,
            held: BTreeSet::new(),
            kept: BTreeMap::new(),
            next_packet: 1,
            first_requests: allowance(FIRST_REQUESTS),
            answers: allowance(ANSWERS),
            inside: Inside::None,
            narrow: None,
            counters: Counters::default(),
            last_probe: None,
            refusals: Tally::default(),
            troubles: Tally::default(),
            buffers: Some(Buffers::new()),
            leaving: false,
        }
    }

    pub(super) fn key(&self) -> SiteKey {
        self.key
    }

    /// Whether its care has ended.
    pub(super) fn is_stopped(&self) -> bool {
        self.peer.is_stopped()
    }

    /// Whether it was told to end.
    pub(super) fn is_leaving(&self) -> bool {
        self.leaving
    }

    /// Lets its IKE SAs end at the peer.
    pub(super) fn leave<S: System>(&mut self, around: &mut Around<'_, S>) -> Result<(), Stop> {
        self.leaving = true;
        self.tell_time(around)?;
        self.tell(around, Event::Leave)
    }

    /// Whether its interface is to be read: not while packets wait, since what isn't
    /// read waits in the interface's queue, in its order.
    pub(super) fn is_readable(&self) -> bool {
        matches!(self.inside, Inside::Open(_)) && self.held.is_empty()
    }

    /// The moment of its next turn.
    pub(super) fn next_moment(&mut self) -> Option<u64> {
        let cores = self.gateways.iter_mut();
        let cores = cores.filter_map(|gateway| gateway.core.next_moment()).min();
        let again = match self.inside {
            Inside::Gone(again) => Some(again),
            _ => None,
        };
        let moments = [cores, self.peer.next_moment(), again];
        moments.into_iter().flatten().min()
    }

    /// Time passed.
    pub(super) fn take_moment<S: System>(
        &mut self,
        around: &mut Around<'_, S>,
    ) -> Result<(), Stop> {
        if matches!(self.inside, Inside::Gone(again) if again <= around.now) {
            self.open_inside(around);
        }
        if matches!(self.narrow, Some((_, until)) if until <= around.now) {
            self.narrow = None;
        }
        self.tell_time(around)?;
        if self
            .peer
            .next_moment()
            .is_some_and(|moment| moment <= around.now)
        {
            self.tell(around, Event::Moment)?;
        }
        Ok(())
    }

    /// Tells each gateway the moment, if it wasn't told it yet: before each datagram of
    /// IKE, each command and each list of packets.
    pub(super) fn tell_time<S: System>(&mut self, around: &mut Around<'_, S>) -> Result<(), Stop> {
        let numbers: Vec<u32> = self.gateways.iter().map(|gateway| gateway.number).collect();
        for number in numbers {
            self.tell_time_to(around, number)?;
        }
        Ok(())
    }

    fn tell_time_to<S: System>(
        &mut self,
        around: &mut Around<'_, S>,
        number: u32,
    ) -> Result<(), Stop> {
        let now = around.now;
        let Some(gateway) = self.gateway(number) else {
            return Ok(());
        };
        if gateway.told == Some(now) {
            return Ok(());
        }
        gateway.told = Some(now);
        match gateway.core.tick(now) {
            Outcome::Ticked { requests, closed } => {
                for message in &requests {
                    self.send_to_peer(around, message);
                }
                for ike in closed {
                    self.unanswered(around, number, ike)?;
                }
            }
            Outcome::Refused { code } => self.note_refusal(around, "a moment", code),
            _ => {}
        }
        Ok(())
    }

    fn unanswered<S: System>(
        &mut self,
        around: &mut Around<'_, S>,
        number: u32,
        ike: u32,
    ) -> Result<(), Stop> {
        let now = around.now;
        if let Some(gateway) = self
            .gateways
            .iter_mut()
            .find(|other| other.number == number)
        {
            gateway.asked.remove(&ike);
            let stood = gateway.established.remove(&ike).is_some();
            gateway.look(&self.config.entries, now, None);
            let what = if stood { "an IKE SA" } else { "a start" };
            let line = format!("peer {}: {what} ended without an answer", self.config.name);
            around.log(Level::Warning, &line);
        }
        let association = AssociationName {
            gateway: number,
            ike,
        };
        self.tell(around, Event::Unanswered { association })
    }

    /// Tells the care of this peer what happened, and carries out what it commands.
    pub(super) fn tell<S: System>(
        &mut self,
        around: &mut Around<'_, S>,
        event: Event,
    ) -> Result<(), Stop> {
        self.peer.take(around.now, event);
        self.carry_out(around)
    }

    pub(super) fn gateway(&mut self, number: u32) -> Option<&mut Gateway<C>> {
        self.gateways
            .iter_mut()
            .find(|gateway| gateway.number == number)
    }

    /// The MTU outside that the configuration leaves room for.
    pub(super) fn configured_mtu(&self) -> u16 {
        let inner = self.config.tun.as_ref().map_or(0, |tun| tun.mtu);
        inner.saturating_add(OVERHEAD)
    }

    /// The MTU outside: what the configuration leaves room for, or less by the path.
    pub(super) fn outer_mtu(&self) -> u16 {
        let outer = self.configured_mtu();
        self.narrow.map_or(outer, |(mtu, _)| mtu.min(outer))
    }

    /// Makes the interface, if the configuration has one.
    pub(super) fn open_inside<S: System>(&mut self, around: &mut Around<'_, S>) {
        let Some(tun) = &self.config.tun else {
            self.let_inside_go(around);
            return;
        };
        match around.system.open_inside(self.key, tun) {
            Ok(offloads) => {
                let name = &tun.name;
                let line = format!("peer {}: interface {name} is there", self.config.name);
                around.log(Level::Info, &line);
                self.inside = Inside::Open(Joiner::new(offloads));
            }
            Err(error) => {
                let what = format!("interface {}: {error}", tun.name);
                self.inside = Inside::Gone(around.now.saturating_add(AGAIN));
                self.note_trouble(around, Trouble::NoInterface, &what);
            }
        }
    }

    /// Lets the interface go, and makes it no more by itself.
    pub(super) fn let_inside_go<S: System>(&mut self, around: &mut Around<'_, S>) {
        around.system.close_inside(self.key);
        self.inside = Inside::None;
    }

    /// The interface was set down or deleted. Set up again it would still lack its routes and
    /// its addresses of IPv6, so it is made anew.
    pub(super) fn take_gone<S: System>(&mut self, around: &mut Around<'_, S>) {
        if self.inside.is_open() {
            let error = std::io::Error::other("it was set down or deleted");
            self.lose_inside(around, &error);
        }
    }

    /// The interface is no more there.
    pub(super) fn lose_inside<S: System>(
        &mut self,
        around: &mut Around<'_, S>,
        error: &std::io::Error,
    ) {
        around.system.close_inside(self.key);
        self.inside = Inside::Gone(around.now.saturating_add(AGAIN));
        self.counters.interfaces_gone += 1;
        self.note_trouble(
            around,
            Trouble::Interface,
            &format!("the interface went: {error}"),
        );
    }

    /// All is over.
    pub(super) fn end<S: System>(&mut self, around: &mut Around<'_, S>) {
        around.system.close_inside(self.key);
        for gateway in self.gateways.drain(..) {
            around.shared.free_spis(gateway.first_spi);
        }
        let line = format!("peer {}: ended", self.config.name);
        around.log(Level::Info, &line);
    }

    /// Counts what the core refused, and logs it now and then.
    pub(super) fn note_refusal<S: System>(
        &mut self,
        around: &mut Around<'_, S>,
        what: &str,
        code: u32,
    ) {
        if let Some(count) = self.refusals.note(code, around.now) {
            let words = words_of(code);
            let line = format!(
                "peer {}: {what} refused: E{code}, {words} ({count} so far)",
                self.config.name
            );
            around.log(Level::Warning, &line);
        }
    }

    /// Logs something else that went wrong, now and then.
    pub(super) fn note_trouble<S: System>(
        &mut self,
        around: &mut Around<'_, S>,
        trouble: Trouble,
        what: &str,
    ) {
        if let Some(count) = self.troubles.note(trouble as u32, around.now) {
            let line = format!("peer {}: {what} ({count} so far)", self.config.name);
            around.log(Level::Warning, &line);
        }
    }
}
