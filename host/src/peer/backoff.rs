//! Waiting ever longer after failures.

use super::settings::Timers;

/// When something may be tried again.
#[derive(Clone, Debug, Default, PartialEq, Eq)]
pub(super) struct Backoff {
    failures: u32,
    not_before: u64,
}

impl Backoff {
    /// The moment before which nothing is tried.
    pub(super) fn not_before(&self) -> u64 {
        self.not_before
    }

    /// How often it failed since it last succeeded.
    pub(super) fn failures(&self) -> u32 {
        self.failures
    }

    /// It failed now: the wait doubles, up to the longest.
    pub(super) fn fail(&mut self, now: u64, timers: &Timers) {
        let doubled = timers
            .first_backoff
            .saturating_mul(1 << self.failures.min(30));
        self.failures = self.failures.saturating_add(1);
        self.not_before = now.saturating_add(doubled.min(timers.longest_backoff));
    }

    /// It succeeded: nothing waits.
    pub(super) fn clear(&mut self) {
        *self = Backoff::default();
    }
}
