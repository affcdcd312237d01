//! What follows where the core refuses a command.

use super::event::Refusal;
use super::name::AssociationName;
use super::order::Order;
use super::{find_mut, Peer};

impl Peer {
    pub(super) fn refused(&mut self, order: Order, refusal: Refusal) {
        match order {
            Order::Start { gateway, entry } => self.start_refused(gateway, entry, refusal),
            Order::Child { association, entry } => {
                if refusal == Refusal::SpisSpent {
                    self.gateways.exhaust(association.gateway);
                }
                if refusal == Refusal::Unprotected {
                    self.drop_entry(entry);
                }
                self.request_refused(association, refusal);
            }
            Order::DeleteChild { association, child } => {
                self.deletion_refused(association, child, refusal);
            }
            Order::Probe { association } | Order::DeleteIke { association } => {
                self.request_refused(association, refusal);
            }
            _ => {}
        }
    }

    fn start_refused(&mut self, gateway: u32, entry: u32, refusal: Refusal) {
        self.beginning = None;
        match refusal {
            Refusal::Unprotected => self.drop_entry(entry),
            Refusal::SpisSpent | Refusal::NumbersSpent => self.gateways.exhaust(gateway),
            _ => self.backoff.fail(self.now, &self.settings.timers),
        }
    }

    /// A command under an IKE SA was refused, and may be given again later.
    fn request_refused(&mut self, name: AssociationName, refusal: Refusal) {
        if refusal == Refusal::Unknown {
            self.closed(name);
            return;
        }
        let now = self.now;
        if let Some(association) = find_mut(&mut self.associations, name) {
            association.request = None;
            association.worn |= refusal == Refusal::NumbersSpent;
            association.pause(now);
        }
    }

    /// A Child SA's deletion was refused: it is gone, or still to be deleted.
    fn deletion_refused(&mut self, name: AssociationName, serial: u32, refusal: Refusal) {
        if refusal == Refusal::Unknown {
            self.child_gone(name, serial);
        } else {
            self.request_refused(name, refusal);
        }
        if let Some(association) = find_mut(&mut self.associations, name) {
            association.request = None;
            if let Some(child) = association.child_mut(serial) {
                child.deleting = false;
            }
        }
    }

    /// The core says that an entry can't be asked for: it never is again.
    fn drop_entry(&mut self, entry: u32) {
        self.settings.entries.retain(|other| *other != entry);
    }
}
