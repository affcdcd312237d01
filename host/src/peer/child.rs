//! One Child SA, as its care sees it.

use super::name::NewChild;
use super::settings::Settings;

/// A Child SA that carries packets, or did.
#[derive(Clone, Debug, PartialEq, Eq)]
pub(super) struct Child {
    pub(super) serial: u32,
    pub(super) entry: u32,
    extended: bool,
    pub(super) made_at: u64,
    number: u64,
    octets: u64,
    /// When it is to be deleted, once another one is in its place.
    pub(super) delete_at: Option<u64>,
    /// The one in its place. If that one is gone before, this one stays.
    pub(super) replaced_by: Option<u32>,
    /// Whether its deletion was commanded: it carries nothing outward any more.
    pub(super) deleting: bool,
}

impl Child {
    pub(super) fn new(now: u64, told: NewChild) -> Child {
        Child {
            serial: told.child,
            entry: told.entry,
            extended: told.extended,
            made_at: now,
            number: 0,
            octets: 0,
            delete_at: None,
            replaced_by: None,
            deleting: false,
        }
    }

    /// Counts packets, of either direction.
    pub(super) fn carried(&mut self, number: u64, octets: u64) {
        self.number = self.number.max(number);
        self.octets = self.octets.saturating_add(octets);
    }

    /// No number is left: it is to be replaced at once.
    pub(super) fn numbers_ended(&mut self) {
        self.number = u64::MAX;
    }

    /// Whether packets go out by it.
    pub(super) fn is_live(&self) -> bool {
        !self.deleting
    }

    /// Whether it is Live and nothing took its place.
    pub(super) fn is_current(&self) -> bool {
        self.is_live() && self.delete_at.is_none()
    }

    /// The moment at which it is to be replaced.
    pub(super) fn due(&self, settings: &Settings) -> u64 {
        let limits = &settings.limits;
        let number = if self.extended {
            limits.extended_number
        } else {
            limits.plain_number
        };
        if self.number >= settings.role.limit(number)
            || self.octets >= settings.role.limit(limits.octets)
        {
            return self.made_at;
        }
        self.made_at
            .saturating_add(settings.role.limit(settings.timers.child_age))
    }
}
