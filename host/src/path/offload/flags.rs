//! Which offloads are asked of the kernel, and what remains where it refuses some.

/// A set of the flags of `TUNSETOFFLOAD` (linux/if_tun.h).
#[derive(Clone, Copy, Debug, PartialEq, Eq)]
pub struct Offloads(u32);

impl Offloads {
    /// `TUN_F_CSUM`: packets without their checksum.
    pub const CSUM: Offloads = Offloads(0x01);
    /// `TUN_F_TSO4`: TCP over IPv4.
    pub const TSO4: Offloads = Offloads(0x02);
    /// `TUN_F_TSO6`: TCP over IPv6.
    pub const TSO6: Offloads = Offloads(0x04);
    /// `TUN_F_TSO_ECN`: TCP whose first segment has CWR.
    pub const TSO_ECN: Offloads = Offloads(0x08);
    /// `TUN_F_USO4`: UDP over IPv4, since Linux 6.2.
    pub const USO4: Offloads = Offloads(0x20);
    /// `TUN_F_USO6`: UDP over IPv6. The kernel takes both of UDP or neither.
    pub const USO6: Offloads = Offloads(0x40);

    /// No offload: each packet by itself, with its checksum.
    pub const NONE: Offloads = Offloads(0);
    /// Those of TCP.
    pub const TCP: Offloads = Offloads(0x0f);
    /// All that this host knows.
    pub const ALL: Offloads = Offloads(0x6f);

    /// A set by its bits; those that this host doesn't know are left out.
    pub fn from_bits(bits: u32) -> Offloads {
        Offloads(bits & Self::ALL.0)
    }

    /// The bits, as `TUNSETOFFLOAD` takes them.
    pub fn bits(self) -> u32 {
        self.0
    }

    /// True where each of `others` is in this set.
    pub fn has(self, others: Offloads) -> bool {
        self.0 & others.0 == others.0
    }

    /// The flags of both sets.
    pub fn with(self, others: Offloads) -> Offloads {
        Offloads(self.0 | others.0)
    }

    /// What remains where the kernel refuses these: without one of UDP those of TCP,
    /// without a checksum or one of TCP none. CWR alone can be done without.
    pub fn remaining(refused: Offloads) -> Offloads {
        let any = |flags: Offloads| refused.0 & flags.0 != 0;
        if any(Self::CSUM.with(Self::TSO4).with(Self::TSO6)) {
            return Self::NONE;
        }
        let without_udp = if any(Self::USO4.with(Self::USO6)) {
            Self::TCP
        } else {
            Self::ALL
        };
        Offloads(without_udp.0 & !(refused.0 & Self::TSO_ECN.0))
    }

    /// Asks the kernel, which tells of a whole set alone whether it takes it: for all,
    /// then for those of TCP. What it took last is what holds.
    pub fn agreed(mut takes: impl FnMut(Offloads) -> bool) -> Offloads {
        for refused in [Self::NONE, Self::USO4.with(Self::USO6)] {
            let offloads = Self::remaining(refused);
            if takes(offloads) {
                return offloads;
            }
        }
        Self::NONE
    }
}
