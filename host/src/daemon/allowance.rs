//! How often something may happen.

/// Several at once, and then so many in a time: a bucket that fills again.
#[derive(Clone, Debug, PartialEq, Eq)]
pub(super) struct Allowance {
    most: u64,
    interval: u64,
    left: u64,
    /// When what is left began to grow.
    since: u64,
}

impl Allowance {
    /// So many at once, and one more after each interval, in milliseconds.
    pub(super) fn new(most: u64, interval: u64) -> Allowance {
        Allowance {
            most,
            interval,
            left: most,
            since: 0,
        }
    }

    /// Whether it may happen now. Then it counts.
    pub(super) fn admit(&mut self, now: u64) -> bool {
        let grown = now.saturating_sub(self.since) / self.interval;
        self.since += grown * self.interval;
        self.left = self.left.saturating_add(grown).min(self.most);
        if self.left == self.most {
            self.since = now;
        }
        let admitted = self.left > 0;
        self.left = self.left.saturating_sub(1);
        admitted
    }
}

#[cfg(test)]
mod tests {
    use super::Allowance;

    #[test]
    fn three_at_once_and_then_one_a_second() {
        let mut allowance = Allowance::new(3, 1_000);
        let admitted =
            |allowance: &mut Allowance, now| (0..9).filter(|_| allowance.admit(now)).count();
        assert_eq!(admitted(&mut allowance, 50_000), 3);
        assert_eq!(admitted(&mut allowance, 50_999), 0);
        assert_eq!(admitted(&mut allowance, 51_000), 1);
        assert_eq!(admitted(&mut allowance, 51_500), 0);
        assert_eq!(admitted(&mut allowance, 52_000), 1);
        assert_eq!(admitted(&mut allowance, 90_000), 3);
        let all = (0..100_000u64)
            .filter(|step| allowance.admit(100_000 + step))
            .count();
        assert_eq!(all, 3 + 99);
    }
}
