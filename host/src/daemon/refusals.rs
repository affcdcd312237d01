//! What the core's E numbers say, and what the care of a peer is told of them.

use crate::peer::Refusal;

/// A Child SA has sent all its numbers.
pub(super) const NUMBERS_ENDED: u32 = 12;
/// There is no such SPI, IKE SA or Child SA.
pub(super) const UNKNOWN: u32 = 28;

/// What an E number says of what was refused.
pub fn words_of(code: u32) -> &'static str {
    match code {
        1 => "fewer octets than a header has",
        2 => "the length field is not the length of the datagram",
        3 => "the version is not supported",
        4 => "the chain of payloads is broken",
        5 => "a proposal is malformed",
        6 => "a traffic selector is malformed",
        7 => "the nonce has a wrong length",
        8 => "a field is malformed",
        9 => "the message is too long",
        10 | 20 | 24 | 27 => "out of memory",
        11 => "more than 8160 octets of key material",
        12 => "a Child SA has sent all its numbers",
        13 => "the packet has more than 16384 octets",
        14 => "an ESP packet of a length that none has",
        15 => "its number lies below the replay window",
        16 => "its number was taken already",
        17 => "its number can't be",
        18 => "the ICV is wrong",
        19 => "the padding is wrong",
        21 => "not a whole IP packet",
        22 => "a fragment of a packet",
        23 => "outside what the Child SA carries, or no entry that protects",
        25 => "too many IKE SAs or Child SAs",
        26 => "the gateway's SPIs are spent",
        28 => "no such SPI, IKE SA or Child SA",
        29 => "the message doesn't open",
        30 => "a request that was answered long ago",
        31 => "the number lies outside the window",
        32 => "another phase, or not its turn",
        33 => "the message claims this end's role",
        34 => "too many IKE SAs are half open or held",
        35 => "the peer's window is full, or the IKE SA is being deleted",
        36 => "the numbers are spent",
        37 => "the fresh SPI is zero or in use",
        38 => "no room for an answer",
        39 => "a packet with an extension header",
        103 => "no room for the sealed packet",
        109 => "a packet's place isn't in the buffer",
        _ => "unknown",
    }
}

/// What an E number says of a command that was refused.
pub(super) fn refusal_of(code: u32) -> Refusal {
    match code {
        23 => Refusal::Unprotected,
        25 => Refusal::Full,
        26 => Refusal::SpisSpent,
        28 => Refusal::Unknown,
        32 => Refusal::WrongPhase,
        35 => Refusal::Busy,
        36 => Refusal::NumbersSpent,
        37 => Refusal::BadFresh,
        // Out of memory, or what can't come: it is tried again later.
        _ => Refusal::Memory,
    }
}
