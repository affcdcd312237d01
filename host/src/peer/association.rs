//! One established IKE SA, as its care sees it.

use super::backoff::Backoff;
use super::child::Child;
use super::name::{AssociationName, ChildName};
use super::order::Order;
use super::settings::{Role, Settings};

/// How often in a row a Child SA's replacement may be declined until the whole
/// IKE SA is replaced.
const DECLINES: u32 = 3;

/// How long to wait after a command that was refused for a reason that passes,
/// in milliseconds.
const PAUSE: u64 = 1_000;

/// What a request under way asks for.
#[derive(Clone, Debug, PartialEq, Eq)]
pub(super) enum Asked {
    /// An additional Child SA, in place of these.
    Child { entry: u32, replaces: Vec<u32> },
    /// Whether the peer is there.
    Probe,
    /// That a Child SA ends.
    DeleteChild { child: u32 },
    /// That the IKE SA ends.
    DeleteIke,
}

/// The request under way. There is one at most, so that none is refused as E35
/// whatever window the peer told.
#[derive(Clone, Debug, PartialEq, Eq)]
pub(super) struct Request {
    pub(super) asked: Asked,
    pub(super) at: u64,
}

/// An entry of which a Child SA was declined.
#[derive(Clone, Debug, PartialEq, Eq)]
struct Declined {
    entry: u32,
    backoff: Backoff,
    /// When a Child SA was made all the same.
    accepted_at: Option<u64>,
}

/// An established IKE SA.
#[derive(Clone, Debug, PartialEq, Eq)]
pub(super) struct Association {
    pub(super) name: AssociationName,
    pub(super) established_at: u64,
    pub(super) heard_at: u64,
    pub(super) request: Option<Request>,
    pub(super) children: Vec<Child>,
    /// The IKE SAs in whose place it was begun.
    pub(super) replaces: Vec<AssociationName>,
    /// When it is to be deleted, once another one is in its place.
    pub(super) delete_at: Option<u64>,
    /// The one in its place. If that one is closed before, this one stays.
    pub(super) replaced_by: Option<AssociationName>,
    /// Whether Child SAs can't be replaced under it any more.
    pub(super) worn: bool,
    /// Whether it stood long enough for beginning it to be a success.
    pub(super) settled: bool,
    declined: Vec<Declined>,
    paused_until: u64,
}

impl Association {
    pub(super) fn new(now: u64, name: AssociationName) -> Association {
        Association {
            name,
            established_at: now,
            heard_at: now,
            request: None,
            children: Vec::new(),
            replaces: Vec::new(),
            delete_at: None,
            replaced_by: None,
            worn: false,
            settled: false,
            declined: Vec::new(),
            paused_until: 0,
        }
    }

    pub(super) fn child_mut(&mut self, serial: u32) -> Option<&mut Child> {
        self.children
            .iter_mut()
            .find(|child| child.serial == serial)
    }

    /// A Child SA is gone: what it replaced stays, unless it was replaced itself.
    pub(super) fn remove_child(&mut self, serial: u32) {
        let heir = self.child_mut(serial).and_then(|child| child.replaced_by);
        self.children.retain(|child| child.serial != serial);
        for child in &mut self.children {
            if child.replaced_by == Some(serial) {
                child.replaced_by = heir;
                child.delete_at = heir.and(child.delete_at);
            }
        }
    }

    /// It is to be deleted at a moment, whatever else is there.
    pub(super) fn end_at(&mut self, moment: u64) {
        self.delete_at = Some(moment);
        self.replaced_by = None;
    }

    /// Another IKE SA is in its place: it is to be deleted at a moment, or before.
    pub(super) fn replace(&mut self, moment: u64, by: AssociationName) {
        let ends_anyway = self.delete_at.is_some() && self.replaced_by.is_none();
        self.delete_at = Some(self.delete_at.map_or(moment, |before| before.min(moment)));
        if !ends_anyway {
            self.replaced_by = Some(by);
        }
    }

    /// Another IKE SA is closed. If that one replaced this one, this one stays,
    /// unless that one was replaced itself, by the heir.
    pub(super) fn outlive(&mut self, closed: AssociationName, heir: Option<AssociationName>) {
        if self.replaced_by == Some(closed) {
            self.replaced_by = heir;
            self.delete_at = heir.and(self.delete_at);
        }
    }

    /// The name of one of its Child SAs.
    pub(super) fn child_name(&self, serial: u32) -> ChildName {
        ChildName {
            gateway: self.name.gateway,
            child: serial,
        }
    }

    /// The newest Child SA of an entry that nothing took the place of.
    pub(super) fn current(&self, entry: u32) -> Option<&Child> {
        self.children
            .iter()
            .filter(|child| child.entry == entry && child.is_current())
            .max_by_key(|child| child.serial)
    }

    /// Whether packets of an entry go out by one of its Child SAs.
    pub(super) fn carries(&self, entry: u32) -> bool {
        self.children
            .iter()
            .any(|child| child.entry == entry && child.is_live())
    }

    /// Whether packets of an entry go out by one of its Child SAs, or will as soon as
    /// an answer comes.
    pub(super) fn is_to_carry(&self, entry: u32) -> bool {
        let asks = self.request.as_ref().is_some_and(
            |request| matches!(request.asked, Asked::Child { entry: of, .. } if of == entry),
        );
        asks || self.carries(entry)
    }

    /// Whether a Child SA is asked for.
    pub(super) fn asks_child(&self) -> bool {
        self.request
            .as_ref()
            .is_some_and(|request| matches!(request.asked, Asked::Child { .. }))
    }

    /// Whether its deletion was commanded.
    pub(super) fn is_ending(&self) -> bool {
        self.request
            .as_ref()
            .is_some_and(|request| request.asked == Asked::DeleteIke)
    }

    /// The moment from which on it is doubtful.
    pub(super) fn doubtful_at(&self, settings: &Settings) -> Option<u64> {
        let request = self.request.as_ref()?;
        let since = request.at.max(self.heard_at);
        Some(since.saturating_add(settings.timers.doubt))
    }

    /// A Child SA of an entry was declined, or went again soon.
    pub(super) fn decline(&mut self, now: u64, entry: u32, settings: &Settings, replacing: bool) {
        let place = self.declined.iter().position(|other| other.entry == entry);
        let place = place.unwrap_or_else(|| {
            self.declined.push(Declined {
                entry,
                backoff: Backoff::default(),
                accepted_at: None,
            });
            self.declined.len() - 1
        });
        let declined = &mut self.declined[place];
        let settled = |at: u64| at.saturating_add(settings.timers.settled) <= now;
        if declined.accepted_at.take().is_some_and(settled) {
            declined.backoff.clear();
        }
        declined.backoff.fail(now, &settings.timers);
        // Only what the peer had accepted before shows that the IKE SA, and
        // not the policy, is at fault.
        if replacing && declined.backoff.failures() >= DECLINES {
            self.worn = true;
        }
    }

    /// A Child SA of an entry was made. If it lasts, what was declined before is of no
    /// account.
    pub(super) fn accept(&mut self, now: u64, entry: u32) {
        for declined in &mut self.declined {
            if declined.entry == entry {
                declined.accepted_at = Some(now);
            }
        }
    }

    /// A command was refused for a reason that passes.
    pub(super) fn pause(&mut self, now: u64) {
        self.paused_until = now.saturating_add(PAUSE);
    }

    /// The moment before which no Child SA of an entry is asked for.
    fn not_before(&self, entry: u32) -> u64 {
        self.declined
            .iter()
            .find(|declined| declined.entry == entry)
            .map_or(0, |declined| declined.backoff.not_before())
    }

    /// What it wants to ask, each with the moment from which on, the more urgent
    /// first. Nothing while a request is under way. Only the primary IKE SA
    /// asks for Child SAs.
    pub(super) fn wishes(&self, settings: &Settings, primary: bool) -> Vec<(u64, Asked)> {
        let mut wishes = Vec::new();
        if self.request.is_some() {
            return wishes;
        }
        if let Some(moment) = self.delete_at {
            wishes.push((moment, Asked::DeleteIke));
        } else if primary {
            for entry in &settings.entries {
                wishes.extend(self.wish_for(*entry, settings));
            }
        }
        for child in &self.children {
            if let (Some(moment), true) = (child.delete_at, child.is_live()) {
                let child = child.serial;
                wishes.push((moment, Asked::DeleteChild { child }));
            }
        }
        // Who waits asks an eighth later: where nothing else comes, the other's probe
        // does before, and one end's probes are enough.
        let silence = settings.role.limit(settings.timers.silence);
        wishes.push((self.heard_at.saturating_add(silence), Asked::Probe));
        for (moment, _) in &mut wishes {
            *moment = (*moment).max(self.paused_until);
        }
        wishes
    }

    /// Whether and when it wants a Child SA of an entry: a missing one at once, if this
    /// end begins, and another one in time.
    fn wish_for(&self, entry: u32, settings: &Settings) -> Option<(u64, Asked)> {
        let due = match self.current(entry) {
            Some(child) => child.due(settings),
            None if settings.role == Role::Begins => 0,
            None => return None,
        };
        let replaces = self
            .children
            .iter()
            .filter(|child| child.entry == entry && child.is_current())
            .map(|child| child.serial)
            .collect();
        let moment = due.max(self.not_before(entry));
        Some((moment, Asked::Child { entry, replaces }))
    }

    /// Takes note of a request, and tells the command for it.
    pub(super) fn ask(&mut self, now: u64, asked: Asked) -> Order {
        let association = self.name;
        let order = match &asked {
            Asked::Child { entry, .. } => Order::Child {
                association,
                entry: *entry,
            },
            Asked::Probe => Order::Probe { association },
            Asked::DeleteChild { child } => {
                if let Some(child) = self.child_mut(*child) {
                    child.deleting = true;
                }
                Order::DeleteChild {
                    association,
                    child: *child,
                }
            }
            Asked::DeleteIke => Order::DeleteIke { association },
        };
        self.request = Some(Request { asked, at: now });
        order
    }
}
