//! The care of one peer: all timers and commands in one place, without a system call.
//!
//! [`Peer`] is told [`Event`]s and gives [`Order`]s. It owns no clock and no socket:
//! each event comes with its moment, in milliseconds from any beginning, and
//! [`Peer::next_moment`] tells when to come again if nothing happens before. So the
//! daemon's loop is short:
//!
//! ```
//! use sukperind::peer::{AssociationName, Event, Order, Peer, Role, Settings};
//! use sukperind::peer::{Limits, Timers};
//!
//! let settings = Settings {
//!     role: Role::Begins,
//!     entries: vec![0],
//!     timers: Timers::DEFAULT,
//!     limits: Limits::DEFAULT,
//! };
//! let mut peer = Peer::new(settings, 0);
//! while let Some(order) = peer.next_order() {
//!     // The daemon carries the order out, and tells of `Start` what came of it.
//!     if let Order::Start { gateway, .. } = order {
//!         let association = AssociationName { gateway, ike: 1 };
//!         peer.take(0, Event::Begun { association });
//!     }
//! }
//! assert_eq!(peer.next_moment(), Some(180_000)); // a new secret for cookies
//! ```

mod association;
mod backoff;
mod child;
mod event;
mod gateways;
mod holds;
mod kept;
mod name;
mod order;
mod refusals;
mod review;
mod settings;

pub use event::{Event, Refusal};
pub use name::{AssociationName, ChildName, NewChild};
pub use order::Order;
pub use settings::{Limits, Role, Settings, Timers};

use association::{Asked, Association};
use backoff::Backoff;
use child::Child;
use gateways::Gateways;
use holds::Holds;
use kept::Kept;
use std::collections::VecDeque;

/// The IKE SA that this end begins. There is one at most.
#[derive(Clone, Debug, PartialEq, Eq)]
struct Beginning {
    gateway: u32,
    entry: u32,
    /// Its serial, once the command was carried out.
    ike: Option<u32>,
    /// The IKE SAs that stood when it was begun, in whose place it is.
    replaces: Vec<AssociationName>,
}

/// The care of one peer.
#[derive(Clone, Debug)]
pub struct Peer {
    settings: Settings,
    now: u64,
    gateways: Gateways,
    associations: Vec<Association>,
    beginning: Option<Beginning>,
    backoff: Backoff,
    holds: Holds,
    kept: Kept,
    /// Until when deletions are waited for, once the daemon ends.
    leaving_until: Option<u64>,
    stopped: bool,
    orders: VecDeque<Order>,
}

impl Peer {
    /// The care of a peer from a moment on, in milliseconds. Its first commands open a
    /// gateway and, if this end begins, an IKE SA.
    pub fn new(settings: Settings, now: u64) -> Peer {
        let mut peer = Peer {
            settings,
            now,
            gateways: Gateways::default(),
            associations: Vec::new(),
            beginning: None,
            backoff: Backoff::default(),
            holds: Holds::default(),
            kept: Kept::default(),
            leaving_until: None,
            stopped: false,
            orders: VecDeque::new(),
        };
        peer.open_gateway();
        peer.review();
        peer
    }

    /// Tells what happened at a moment, in milliseconds. An earlier moment than before
    /// counts as the one before.
    pub fn take(&mut self, now: u64, event: Event) {
        self.now = self.now.max(now);
        if self.stopped {
            return;
        }
        self.settle();
        self.note(event);
        self.review();
    }

    /// The next command, to be carried out at once.
    pub fn next_order(&mut self) -> Option<Order> {
        self.orders.pop_front()
    }

    /// Whether `Order::Stop` was given.
    pub fn is_stopped(&self) -> bool {
        self.stopped
    }

    fn note(&mut self, event: Event) {
        match event {
            Event::Moment => {}
            Event::Begun { association } => self.begun(association),
            Event::Refused { order, refusal } => self.refused(order, refusal),
            Event::Counted {
                association,
                child,
                closed,
            } => self.counted(association, child, closed),
            Event::Admitted { association, child } => self.admitted(association, child),
            Event::Replied {
                association,
                child,
                gone,
                closed,
            } => self.replied(association, child, &gone, closed),
            Event::Repeated { association } => self.heard(association),
            Event::Unanswered { association } => self.closed(association),
            Event::Sealed {
                child,
                number,
                octets,
            } => self.sealed(child, number, octets),
            Event::Opened {
                child,
                number,
                octets,
            } => self.opened(child, number, octets),
            Event::NumbersEnded { child } => self.numbers_ended(child),
            Event::UnknownSpi { packet } => self.unknown_spi(packet),
            Event::Configured { settings, anew } => self.configured(settings, anew),
            Event::Leave => self.leave(),
        }
    }

    fn begun(&mut self, name: AssociationName) {
        if let Some(beginning) = &mut self.beginning {
            beginning.ike = Some(name.ike);
            self.gateways.spend(name.gateway);
        }
    }

    fn counted(&mut self, name: AssociationName, child: Option<NewChild>, closed: bool) {
        if self.is_beginning(name) {
            self.began(name, child, closed);
        } else if closed {
            self.closed(name);
        } else if self.find(name).is_some() {
            self.answered(name, child);
        } else {
            self.surplus(name);
        }
    }

    /// The IKE SA that this end began is established, or was declined.
    fn began(&mut self, name: AssociationName, child: Option<NewChild>, closed: bool) {
        let Some(beginning) = self.beginning.take() else {
            return;
        };
        if closed {
            self.backoff.fail(self.now, &self.settings.timers);
            return;
        }
        let mut association = Association::new(self.now, name);
        association.replaces = beginning.replaces;
        match child {
            Some(child) => association.children.push(Child::new(self.now, child)),
            None => association.decline(self.now, beginning.entry, &self.settings, false),
        }
        self.associations.push(association);
        if child.is_some() {
            self.kept.give_again(&mut self.orders);
        }
    }

    /// An IKE SA that was given up is established all the same: away with it.
    fn surplus(&mut self, name: AssociationName) {
        let mut association = Association::new(self.now, name);
        association.end_at(self.now);
        self.associations.push(association);
    }

    /// The answer to the request under way came.
    fn answered(&mut self, name: AssociationName, told: Option<NewChild>) {
        let now = self.now;
        let delete_at = now.saturating_add(self.settings.timers.overlap);
        let Some(association) = find_mut(&mut self.associations, name) else {
            return;
        };
        association.heard_at = now;
        let asked = association.request.take().map(|request| request.asked);
        match (asked, told) {
            (Some(Asked::Child { entry, replaces }), Some(told)) => {
                association.accept(now, entry);
                association.children.push(Child::new(now, told));
                for serial in replaces {
                    if let Some(child) = association.child_mut(serial) {
                        child.delete_at = Some(delete_at);
                        child.replaced_by = Some(told.child);
                    }
                }
                self.kept.give_again(&mut self.orders);
            }
            (Some(Asked::Child { entry, replaces }), None) => {
                association.decline(now, entry, &self.settings, !replaces.is_empty());
            }
            (Some(Asked::DeleteChild { child }), _) => self.child_gone(name, child),
            (Some(Asked::Probe | Asked::DeleteIke) | None, _) => {}
        }
    }

    fn admitted(&mut self, name: AssociationName, child: Option<NewChild>) {
        self.holds.release_all(&mut self.orders);
        // The peer is there and knows us, so a failure of ours is of no account.
        self.backoff.clear();
        let mut association = Association::new(self.now, name);
        association.delete_at = self.leaving_until.map(|_| self.now);
        // Begun before a new configuration, in a gateway that carries no more: away with
        // it, by which the peer learns that it has to begin anew.
        if self.gateways.is_outlived(name.gateway) {
            association.end_at(self.now);
        }
        // Its end is no failure of ours, and its lasting no success.
        association.settled = true;
        self.associations.push(association);
        if let Some(child) = child {
            self.made_by_peer(name, child);
        }
    }

    fn replied(
        &mut self,
        name: AssociationName,
        child: Option<NewChild>,
        gone: &[u32],
        closed: bool,
    ) {
        self.heard(name);
        self.holds.release_all(&mut self.orders);
        for serial in gone {
            self.deleted_by_peer(name, *serial);
        }
        if closed {
            self.closed(name);
        } else if let Some(child) = child {
            self.made_by_peer(name, child);
        }
    }

    /// A Child SA that the peer asked for is there. The peer has it only with our reply,
    /// so packets wait if they went out by another child until now.
    fn made_by_peer(&mut self, name: AssociationName, told: NewChild) {
        let went_out = self
            .associations
            .iter()
            .any(|other| other.carries(told.entry));
        let Some(association) = find_mut(&mut self.associations, name) else {
            return;
        };
        association.children.push(Child::new(self.now, told));
        let child = association.child_name(told.child);
        self.gateways.spend(name.gateway);
        if went_out && self.leaving_until.is_none() {
            let until = self.now.saturating_add(self.settings.timers.hold);
            self.holds.hold(told.entry, child, until, &mut self.orders);
        }
    }

    /// The peer deleted a Child SA. If it does so again and again, the next one waits.
    fn deleted_by_peer(&mut self, name: AssociationName, serial: u32) {
        let young = self.now.saturating_sub(self.settings.timers.settled);
        if let Some(association) = find_mut(&mut self.associations, name) {
            let entry = association
                .child_mut(serial)
                .filter(|child| child.is_current() && child.made_at > young)
                .map(|child| child.entry);
            if let Some(entry) = entry {
                association.decline(self.now, entry, &self.settings, false);
            }
        }
        self.child_gone(name, serial);
    }

    fn child_gone(&mut self, name: AssociationName, serial: u32) {
        if let Some(association) = find_mut(&mut self.associations, name) {
            association.remove_child(serial);
            let child = association.child_name(serial);
            self.holds.release_child(child, &mut self.orders);
        }
    }

    /// An IKE SA is closed, and its Child SAs are gone.
    fn closed(&mut self, name: AssociationName) {
        if self.is_beginning(name) {
            self.beginning = None;
            self.backoff.fail(self.now, &self.settings.timers);
            return;
        }
        let Some(place) = self.find(name) else {
            return;
        };
        let association = self.associations.remove(place);
        for other in &mut self.associations {
            other.outlive(name, association.replaced_by);
        }
        for child in &association.children {
            let child = association.child_name(child.serial);
            self.holds.release_child(child, &mut self.orders);
        }
        let wanted = association.delete_at.is_none() && !association.is_ending();
        if wanted && !association.settled {
            self.backoff.fail(self.now, &self.settings.timers);
        }
    }

    /// Something that the core checked came under an IKE SA.
    fn heard(&mut self, name: AssociationName) {
        if let Some(association) = find_mut(&mut self.associations, name) {
            association.heard_at = self.now;
        }
    }

    fn sealed(&mut self, name: ChildName, number: u64, octets: u64) {
        if let Some((_, child)) = self.find_child(name) {
            child.carried(number, octets);
        }
    }

    fn opened(&mut self, name: ChildName, number: u64, octets: u64) {
        let now = self.now;
        if let Some((heard_at, child)) = self.find_child(name) {
            *heard_at = now;
            child.carried(number, octets);
        }
        self.holds.release_child(name, &mut self.orders);
    }

    fn numbers_ended(&mut self, name: ChildName) {
        if let Some((_, child)) = self.find_child(name) {
            child.numbers_ended();
        }
    }

    fn unknown_spi(&mut self, packet: u64) {
        if self.asks_child() {
            self.kept.keep(packet, &mut self.orders);
        }
    }

    /// A new configuration. Where the gateway is made anew, what the new policy
    /// protects must not go out by the old one, so the new one carries at once. What
    /// stands by the old configuration ends: where this end waits at once, by which
    /// the peer learns that it has to begin anew, and else after a while at most.
    fn configured(&mut self, settings: Settings, anew: bool) {
        if self.leaving_until.is_some() {
            return;
        }
        self.settings = settings;
        if !anew {
            return;
        }
        self.backoff.clear();
        self.beginning = None;
        self.open_gateway();
        let stays = match self.settings.role {
            Role::Begins => self.settings.timers.patience,
            Role::Waits => 0,
        };
        for association in &mut self.associations {
            association.end_at(self.now.saturating_add(stays));
        }
    }

    fn leave(&mut self) {
        if self.leaving_until.is_some() {
            return;
        }
        self.leaving_until = Some(self.now.saturating_add(self.settings.timers.leaving));
        self.beginning = None;
        self.holds.release_all(&mut self.orders);
        for association in &mut self.associations {
            association.end_at(self.now);
        }
    }

    fn open_gateway(&mut self) {
        let Peer {
            gateways,
            settings,
            orders,
            ..
        } = self;
        gateways.open(self.now, settings, orders);
        gateways.carry_by_newest(orders);
    }

    fn is_beginning(&self, name: AssociationName) -> bool {
        self.beginning.as_ref().is_some_and(|beginning| {
            beginning.gateway == name.gateway && beginning.ike == Some(name.ike)
        })
    }

    /// Whether a Child SA is asked for anywhere.
    fn asks_child(&self) -> bool {
        self.beginning.is_some() || self.associations.iter().any(Association::asks_child)
    }

    fn find(&self, name: AssociationName) -> Option<usize> {
        self.associations
            .iter()
            .position(|association| association.name == name)
    }

    /// A Child SA, and the moment at which its IKE SA was last heard of.
    fn find_child(&mut self, name: ChildName) -> Option<(&mut u64, &mut Child)> {
        self.associations
            .iter_mut()
            .filter(|association| association.name.gateway == name.gateway)
            .find_map(|association| {
                let heard_at = &mut association.heard_at;
                let child = association
                    .children
                    .iter_mut()
                    .find(|child| child.serial == name.child)?;
                Some((heard_at, child))
            })
    }
}

fn find_mut(associations: &mut [Association], name: AssociationName) -> Option<&mut Association> {
    associations
        .iter_mut()
        .find(|association| association.name == name)
}
