//! How one peer is cared for.

/// Who begins IKE SAs: one end of a link, never both.
#[derive(Clone, Copy, Debug, PartialEq, Eq)]
pub enum Role {
    /// This end begins them, and replaces them and their Child SAs in time.
    Begins,
    /// This end waits for the peer's. It replaces a Child SA only where the peer is
    /// late with it, so that numbers never end.
    Waits,
}

/// How one peer is cared for.
#[derive(Clone, Debug, PartialEq, Eq)]
pub struct Settings {
    /// Who begins.
    pub role: Role,
    /// The places of the policy's entries that protect, from 0, in the order in
    /// which Child SAs are asked for.
    pub entries: Vec<u32>,
    /// When.
    pub timers: Timers,
    /// How much.
    pub limits: Limits,
}

/// The timers, in milliseconds.
#[derive(Clone, Copy, Debug, PartialEq, Eq)]
pub struct Timers {
    /// The wait after a first failure.
    pub first_backoff: u64,
    /// The longest wait after a failure; each one is twice the one before.
    pub longest_backoff: u64,
    /// The age at which a Child SA is replaced.
    pub child_age: u64,
    /// The age at which an IKE SA is replaced.
    pub association_age: u64,
    /// How long nothing may come before the peer is asked whether it is there.
    pub silence: u64,
    /// How long an answer may be missing, and nothing come, before another
    /// IKE SA is begun beside.
    pub doubt: u64,
    /// How long what was replaced stays, for what is still on its way by it.
    pub overlap: u64,
    /// How long secrets of cookies last.
    pub secret: u64,
    /// How long packets wait at most for the peer to have a Child SA that it asked for.
    pub hold: u64,
    /// How long deletions are waited for at the end.
    pub leaving: u64,
    /// How long an IKE SA has to stand until beginning it counts as a success.
    pub settled: u64,
    /// How long a new IKE SA that carries something has to carry all that
    /// the ones before carried. After it they are deleted all the same.
    pub patience: u64,
    /// How long a gateway stays after its last IKE SA, to answer retransmissions.
    pub linger: u64,
}

/// The limits at which something is replaced.
#[derive(Clone, Copy, Debug, PartialEq, Eq)]
pub struct Limits {
    /// Octets that a Child SA carries, both directions together.
    pub octets: u64,
    /// The number of a Child SA without ESN. The last is 2^32 - 1.
    pub plain_number: u64,
    /// The number of a Child SA with ESN. The last is 2^64 - 1.
    pub extended_number: u64,
    /// The SPIs that a gateway gives. The last is the 65,536th.
    pub spis: u32,
}

impl Timers {
    /// What holds where the configuration doesn't say otherwise.
    pub const DEFAULT: Timers = Timers {
        first_backoff: 1_000,
        longest_backoff: 300_000,
        child_age: 8 * 3_600_000,
        association_age: 24 * 3_600_000,
        silence: 4_000,
        doubt: 5_000,
        overlap: 5_000,
        secret: 180_000,
        hold: 100,
        leaving: 2_000,
        settled: 30_000,
        patience: 60_000,
        linger: 60_000,
    };
}

impl Limits {
    /// What holds where the configuration doesn't say otherwise. A quarter of the
    /// numbers is left for the time that a replacement may take.
    pub const DEFAULT: Limits = Limits {
        octets: u64::MAX,
        plain_number: 3 << 30,
        extended_number: 3 << 62,
        spis: 65_536 - 1_024,
    };
}

impl Role {
    /// A limit as this role has it. Who waits comes an eighth later, so that both
    /// ends don't replace the same Child SA at once.
    pub(super) fn limit(self, limit: u64) -> u64 {
        match self {
            Role::Begins => limit,
            Role::Waits => limit.saturating_add(limit / 8),
        }
    }
}
