//! What the daemon tells of a peer.

use super::name::{AssociationName, ChildName, NewChild};
use super::order::Order;
use super::settings::Settings;

/// Why the core refused a command, in words for its E numbers.
#[derive(Clone, Copy, Debug, PartialEq, Eq)]
pub enum Refusal {
    /// The entry is none, or doesn't protect (E23).
    Unprotected,
    /// The table or the list of IKE SAs is full (E25).
    Full,
    /// All SPIs of the gateway were given (E26).
    SpisSpent,
    /// There is no such IKE SA or Child SA (E28).
    Unknown,
    /// The IKE SA isn't established, or the Child SA is being deleted (E32).
    WrongPhase,
    /// As many requests wait as the peer takes at once (E35).
    Busy,
    /// The IKE SA's or the gateway's numbers are spent (E36).
    NumbersSpent,
    /// The fresh SPI was zero or in use (E37).
    BadFresh,
    /// It was out of memory (E10, E20, E24, E27).
    Memory,
}

/// What happened. Only what the core checked is told here: a datagram that it
/// refused proves nothing of the peer, and neither does a first request. Nor is
/// told what goes out: the outputs `Request` and `Done`, and what goes out again.
#[derive(Clone, Debug, PartialEq, Eq)]
pub enum Event {
    /// Nothing but time passed.
    Moment,
    /// `Order::Start` was carried out, as this IKE SA of the command's gateway.
    Begun {
        /// The IKE SA that waits for its first answer.
        association: AssociationName,
    },
    /// A command was refused, and changed nothing.
    Refused {
        /// The command, as it was given.
        order: Order,
        /// Why.
        refusal: Refusal,
    },
    /// An answer was counted (the output `Counted`).
    Counted {
        /// The IKE SA whose request it answers.
        association: AssociationName,
        /// The Child SA that it made.
        child: Option<NewChild>,
        /// Whether it closed the IKE SA.
        closed: bool,
    },
    /// A request of IKE_AUTH took effect and established an IKE SA that the
    /// peer began (a `Reply`).
    Admitted {
        /// The IKE SA.
        association: AssociationName,
        /// The Child SA that was made with it.
        child: Option<NewChild>,
    },
    /// A later request of the peer took effect (a `Reply`).
    Replied {
        /// The IKE SA under which it came.
        association: AssociationName,
        /// The Child SA that it made.
        child: Option<NewChild>,
        /// The serials of the Child SAs that it deleted.
        gone: Vec<u32>,
        /// Whether it closed the IKE SA.
        closed: bool,
    },
    /// A retransmission of a request of the peer was answered again (a `Repeat`).
    Repeated {
        /// The IKE SA under which it came.
        association: AssociationName,
    },
    /// The core closed an IKE SA, since no answer came (`Ticked.closed`).
    Unanswered {
        /// The IKE SA.
        association: AssociationName,
    },
    /// Packets went out by a Child SA.
    Sealed {
        /// The Child SA.
        child: ChildName,
        /// The last number sent.
        number: u64,
        /// Octets since this was last told.
        octets: u64,
    },
    /// Packets came by a Child SA and were opened.
    Opened {
        /// The Child SA.
        child: ChildName,
        /// The greatest number taken.
        number: u64,
        /// Octets since this was last told.
        octets: u64,
    },
    /// A Child SA has sent all its numbers (E12).
    NumbersEnded {
        /// The Child SA.
        child: ChildName,
    },
    /// An ESP packet came whose SPI the gateway doesn't know (E28). One that was
    /// given again and still isn't known is dropped, and not told.
    UnknownSpi {
        /// The daemon's number for the packet, greater than each one before.
        packet: u64,
    },
    /// The configuration was read anew (SIGHUP).
    Configured {
        /// How the peer is cared for from now on.
        settings: Settings,
        /// Whether the gateway has to be made anew: its identities, secret,
        /// policy, window or blocks are others than before.
        anew: bool,
    },
    /// The daemon is to end (SIGTERM).
    Leave,
}
