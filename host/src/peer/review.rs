//! What is due: asked after each event, and for the next moment.
//!
//! Each wish has the moment from which on it is due. The review grants those that
//! are, and the next moment is the least of those that aren't: both ask the same
//! functions, so that no wish is forgotten and none is waited for in vain.

use super::association::{Asked, Association};
use super::name::AssociationName;
use super::order::Order;
use super::settings::Role;
use super::{Beginning, Peer};

impl Peer {
    /// The moment at which to tell [`Event::Moment`](super::Event), if nothing else
    /// comes before, in milliseconds. It is later than the last one told, as long as
    /// no command waits.
    pub fn next_moment(&self) -> Option<u64> {
        if self.stopped {
            return None;
        }
        let wishes = self.associations.iter().flat_map(|association| {
            let primary = self.is_primary(association);
            association.wishes(&self.settings, primary)
        });
        wishes
            .map(|(moment, _)| moment)
            .chain(self.begin_moment())
            .chain(self.leaving_until)
            .chain(self.holds.moments())
            .chain(self.gateways_moments())
            .chain(self.associations.iter().filter_map(|a| self.patience_of(a)))
            .chain(self.associations.iter().filter_map(|a| self.settles_at(a)))
            .min()
    }

    /// When something of the gateways is due: nothing more once the daemon ends.
    fn gateways_moments(&self) -> Option<u64> {
        let lasting = self.leaving_until.is_none();
        let moments = lasting.then(|| self.gateways.moments(&self.settings))?;
        moments.min()
    }

    /// Grants all that is due.
    pub(super) fn review(&mut self) {
        if self.leaving_until.is_none() {
            self.review_gateways();
            self.replace_associations();
        }
        self.ask_all();
        self.begin();
        self.holds.release_due(self.now, &mut self.orders);
        if !self.asks_child() {
            self.kept.forget(&mut self.orders);
        }
        self.stop();
    }

    /// An IKE SA that stood for long enough shows that beginning works. It
    /// counts once, or a lasting one would let failures beside it go on without a
    /// wait.
    pub(super) fn settle(&mut self) {
        for association in &mut self.associations {
            let settles_at = association
                .established_at
                .saturating_add(self.settings.timers.settled);
            if !association.settled && settles_at <= self.now {
                association.settled = true;
                self.backoff.clear();
            }
        }
    }

    fn settles_at(&self, association: &Association) -> Option<u64> {
        let moment = association
            .established_at
            .saturating_add(self.settings.timers.settled);
        (!association.settled).then_some(moment)
    }

    fn review_gateways(&mut self) {
        if self.gateways.is_spent(&self.settings) {
            self.gateways
                .open(self.now, &self.settings, &mut self.orders);
        }
        if self.gateways.is_changing() && self.newest_carries_all() {
            self.gateways.carry_by_newest(&mut self.orders);
        }
        self.gateways
            .renew_secrets(self.now, &self.settings, &mut self.orders);
        let associations = &self.associations;
        let beginning = &self.beginning;
        let has_association = |gateway| {
            associations.iter().any(|a| a.name.gateway == gateway)
                || beginning.as_ref().is_some_and(|b| b.gateway == gateway)
        };
        self.gateways
            .end_empty(self.now, &self.settings, has_association, &mut self.orders);
    }

    /// Whether the newest gateway carries each entry that the carrier does.
    fn newest_carries_all(&self) -> bool {
        let newest = self.gateways.newest();
        self.settings.entries.iter().all(|entry| {
            let carries = |gateway| {
                self.associations
                    .iter()
                    .any(|a| a.name.gateway == gateway && a.carries(*entry))
            };
            carries(newest) || !self.gateways.carrier().is_some_and(carries)
        })
    }

    /// Lets IKE SAs end in whose place others carry.
    fn replace_associations(&mut self) {
        let delete_at = self.now.saturating_add(self.settings.timers.overlap);
        let ready: Vec<usize> = (0..self.associations.len())
            .filter(|place| self.is_in_place(&self.associations[*place]))
            .collect();
        for place in ready {
            let replaced = std::mem::take(&mut self.associations[place].replaces);
            let name = self.associations[place].name;
            for association in &mut self.associations {
                if replaced.contains(&association.name) {
                    association.replace(delete_at, name);
                }
            }
        }
    }

    /// Whether an IKE SA carries all that those before it carried or are about to
    /// carry, or something for so long that what lacks is given up.
    fn is_in_place(&self, association: &Association) -> bool {
        if association.replaces.is_empty() {
            return false;
        }
        let carries_all = self.settings.entries.iter().all(|entry| {
            let carried = self
                .associations
                .iter()
                .any(|old| association.replaces.contains(&old.name) && old.is_to_carry(*entry));
            association.carries(*entry) || !carried
        });
        let over = self
            .patience_of(association)
            .is_some_and(|moment| moment <= self.now);
        carries_all || over
    }

    /// When an IKE SA that carries something is no more waited for.
    fn patience_of(&self, association: &Association) -> Option<u64> {
        let carries = association.children.iter().any(|child| child.is_live());
        let waited = carries && !association.replaces.is_empty() && self.leaving_until.is_none();
        waited.then(|| {
            association
                .established_at
                .saturating_add(self.settings.timers.patience)
        })
    }

    /// Gives each IKE SA's most urgent command that is due.
    fn ask_all(&mut self) {
        for place in 0..self.associations.len() {
            let association = &self.associations[place];
            let primary = self.is_primary(association);
            let wishes = association.wishes(&self.settings, primary);
            let due = wishes.into_iter().find(|(moment, _)| *moment <= self.now);
            if let Some((_, asked)) = due {
                if let Asked::Child { .. } = asked {
                    self.gateways.spend(association.name.gateway);
                }
                let order = self.associations[place].ask(self.now, asked);
                self.orders.push_back(order);
            }
        }
    }

    /// The IKE SA under which Child SAs are asked for: the newest in the newest
    /// gateway that is to stay.
    fn primary(&self) -> Option<&Association> {
        let newest = self.gateways.newest();
        self.associations
            .iter()
            .filter(|a| a.name.gateway == newest && a.delete_at.is_none())
            .max_by_key(|a| (a.established_at, a.name))
    }

    fn is_primary(&self, association: &Association) -> bool {
        self.primary().is_some_and(|a| a.name == association.name)
    }

    /// When another IKE SA is to be begun, if one is wanted and none is begun
    /// already.
    fn begin_moment(&self) -> Option<u64> {
        let wanted = self.settings.role == Role::Begins
            && self.leaving_until.is_none()
            && self.beginning.is_none()
            && self.first_entry().is_some();
        if !wanted {
            return None;
        }
        let reason = self.primary().map_or(0, |a| self.replaced_at(a));
        Some(reason.max(self.backoff.not_before()))
    }

    /// When another IKE SA is begun beside one: by age, by doubt, or since it
    /// is worn.
    fn replaced_at(&self, association: &Association) -> u64 {
        if association.worn {
            return 0;
        }
        let aged = association
            .established_at
            .saturating_add(self.settings.timers.association_age);
        let doubtful = association.doubtful_at(&self.settings);
        doubtful.map_or(aged, |moment| moment.min(aged))
    }

    fn begin(&mut self) {
        let due = self.begin_moment().is_some_and(|moment| moment <= self.now);
        if let (true, Some(entry)) = (due, self.first_entry()) {
            let gateway = self.gateways.newest();
            let replaces: Vec<AssociationName> = self.associations.iter().map(|a| a.name).collect();
            self.beginning = Some(Beginning {
                gateway,
                entry,
                ike: None,
                replaces,
            });
            self.orders.push_back(Order::Start { gateway, entry });
        }
    }

    /// The entry of a new IKE SA's first Child SA.
    fn first_entry(&self) -> Option<u32> {
        self.settings.entries.first().copied()
    }

    /// Ends, once all IKE SAs are deleted or waiting is over.
    fn stop(&mut self) {
        let Some(until) = self.leaving_until else {
            return;
        };
        if self.associations.is_empty() || until <= self.now {
            self.stopped = true;
            self.holds.release_all(&mut self.orders);
            self.kept.forget(&mut self.orders);
            self.orders.push_back(Order::Stop);
        }
    }
}
