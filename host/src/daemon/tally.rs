//! Counts of what was refused or went wrong, and which of it is worth a line of the log.

use std::collections::BTreeMap;

/// How long nothing more of a kind is logged after a line, in milliseconds.
const QUIET: u64 = 60_000;

/// What was counted of one kind.
#[derive(Clone, Copy, Debug, PartialEq, Eq)]
pub(super) struct Counted {
    pub(super) count: u64,
    /// When it happened last, in milliseconds.
    pub(super) last: u64,
    logged_at: u64,
    logged: u64,
}

/// Counts by kind: an E number, or what the caller makes of it.
#[derive(Clone, Debug, Default, PartialEq, Eq)]
pub(super) struct Tally {
    counts: BTreeMap<u32, Counted>,
}

impl Tally {
    /// Counts one. Where a line of the log is due, tells how many it is to speak of:
    /// those since the last line.
    pub(super) fn note(&mut self, kind: u32, now: u64) -> Option<u64> {
        let counted = self.counts.entry(kind).or_insert(Counted {
            count: 0,
            last: 0,
            logged_at: 0,
            logged: 0,
        });
        counted.count += 1;
        counted.last = now;
        let due = counted.logged == 0 || counted.logged_at.saturating_add(QUIET) <= now;
        let since = counted.count - counted.logged;
        if due {
            counted.logged_at = now;
            counted.logged = counted.count;
        }
        due.then_some(since)
    }

    /// All kinds with their counts.
    pub(super) fn counts(&self) -> impl Iterator<Item = (u32, Counted)> + '_ {
        self.counts.iter().map(|(kind, counted)| (*kind, *counted))
    }
}

#[cfg(test)]
mod tests {
    use super::Tally;

    #[test]
    fn a_line_a_minute_speaks_of_all_since_the_last() {
        let mut tally = Tally::default();
        assert_eq!(tally.note(18, 5), Some(1));
        for now in 6..100 {
            assert_eq!(tally.note(18, now), None);
        }
        assert_eq!(tally.note(28, 7), Some(1));
        assert_eq!(tally.note(18, 60_005), Some(95));
        let counts: Vec<(u32, u64)> = tally.counts().map(|(kind, c)| (kind, c.count)).collect();
        assert_eq!(counts, [(18, 96), (28, 1)]);
    }
}
