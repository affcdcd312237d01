//! What the daemon is asked to do for a peer.

use super::name::AssociationName;

/// What is to be done. The daemon carries each command out at once, in the order
/// in which they are given, and tells its outcome before it asks for the next one:
/// [`Event::Begun`](super::Event) of `Start`, `Refused` of whichever the core
/// refused, and nothing of others.
#[derive(Clone, Copy, Debug, PartialEq, Eq)]
pub enum Order {
    /// Make a gateway by the present configuration, with a first SPI 65,536 or more
    /// away from every other one. The peer's first requests go to it from now on.
    OpenGateway {
        /// Its number, by which all other commands name it.
        gateway: u32,
    },
    /// Give packets on their way out to this gateway from now on.
    CarryBy {
        /// The gateway's number.
        gateway: u32,
    },
    /// End a gateway: its IKE SAs are gone.
    EndGateway {
        /// The gateway's number.
        gateway: u32,
    },
    /// Give a gateway a new random secret for its cookies.
    NewSecret {
        /// The gateway's number.
        gateway: u32,
    },
    /// Begin an IKE SA, with a first Child SA by an entry.
    Start {
        /// The gateway's number.
        gateway: u32,
        /// The entry's place in the policy, from 0.
        entry: u32,
    },
    /// Ask for an additional Child SA under an IKE SA.
    Child {
        /// The IKE SA.
        association: AssociationName,
        /// The entry's place in the policy, from 0.
        entry: u32,
    },
    /// Ask whether the peer is there.
    Probe {
        /// The IKE SA.
        association: AssociationName,
    },
    /// Delete a Child SA at both ends.
    DeleteChild {
        /// The IKE SA that the Child SA is of.
        association: AssociationName,
        /// The Child SA's serial.
        child: u32,
    },
    /// Delete an IKE SA with its Child SAs at both ends.
    DeleteIke {
        /// The IKE SA.
        association: AssociationName,
    },
    /// Let packets on their way out by an entry wait.
    Hold {
        /// The entry's place in the policy, from 0.
        entry: u32,
    },
    /// Give on what waited by an entry, and let nothing wait any more.
    Release {
        /// The entry's place in the policy, from 0.
        entry: u32,
    },
    /// Keep an ESP packet that had no Child SA. Without this command it is dropped.
    Keep {
        /// The packet's number.
        packet: u64,
    },
    /// Give a kept ESP packet to its gateway once more.
    GiveAgain {
        /// The packet's number.
        packet: u64,
    },
    /// Drop a kept ESP packet.
    Forget {
        /// The packet's number.
        packet: u64,
    },
    /// All is done: the daemon may end.
    Stop,
}
