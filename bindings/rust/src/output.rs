//! What comes of an input.

use crate::Refusal;

/// What comes of an input. IKE SAs and Child SAs are named by their serials, from 1.
///
/// Octets of ESP packets and of what they carry are lent: parts of the packet that was given, or of the room. Messages of IKE are
/// the output's own.
#[derive(Clone, Debug, PartialEq, Eq)]
pub enum Output<'a> {
    /// A request of IKE took effect. The octets answer it: by UDP, to where it came from.
    Reply {
        /// The message, of at most 3000 octets.
        octets: Vec<u8>,
        /// The IKE SA under whose keys it is sent; none of an answer to IKE_SA_INIT.
        ike: Option<u32>,
        /// The Child SA that it made.
        child: Option<u32>,
        /// The IKE SA that it closed.
        closed: Option<u32>,
    },
    /// A retransmission of a request that took effect before is answered by the same octets again.
    Repeat {
        /// The message.
        octets: Vec<u8>,
    },
    /// A request of this end goes out, by UDP, to the peer.
    Request {
        /// The IKE SA.
        ike: u32,
        /// The message.
        octets: Vec<u8>,
    },
    /// A response was counted.
    Counted {
        /// The IKE SA.
        ike: u32,
        /// The Child SA that it made.
        child: Option<u32>,
        /// The IKE SA that it closed.
        closed: Option<u32>,
    },
    /// What a moment brought.
    Ticked {
        /// The requests that go out again, by rising serial of their IKE SA and rising number.
        requests: Vec<Resent>,
        /// The IKE SAs that were closed, since no answer came.
        closed: Vec<u32>,
    },
    /// A command was carried out.
    Done,
    /// What an ESP packet carried goes up, inside. It is checked: it doesn't go through [`Gateway::inward`](crate::Gateway::inward).
    Up {
        /// The Child SA that it came by.
        child: u32,
        /// The packet's sequence number.
        number: u64,
        /// The packet in it.
        packet: &'a [u8],
    },
    /// An ESP packet carried nothing (RFC 4303 section 2.6).
    Dummy {
        /// The Child SA that it came by.
        child: u32,
        /// Its sequence number.
        number: u64,
    },
    /// A packet goes out protected: by IP, as protocol 50, to the peer.
    Sealed {
        /// The Child SA that it goes by.
        child: u32,
        /// Its sequence number.
        number: u64,
        /// The ESP packet, a part of the room.
        octets: &'a [u8],
    },
    /// A packet goes on as it is.
    Clear {
        /// The packet that was given.
        packet: &'a [u8],
    },
    /// A packet doesn't go on, by the policy.
    Discarded,
    /// What came, or was to go out, is dropped.
    Dropped {
        /// Why.
        reason: Refusal,
    },
    /// The input is refused, and nothing has changed.
    Refused {
        /// Why.
        reason: Refusal,
    },
}

impl Output<'_> {
    /// Why something is dropped or refused; none where it isn't.
    pub fn reason(&self) -> Option<Refusal> {
        match self {
            Output::Dropped { reason } | Output::Refused { reason } => Some(*reason),
            _ => None,
        }
    }

    /// The messages of IKE to send, in their order.
    pub fn messages(&self) -> Vec<&[u8]> {
        match self {
            Output::Reply { octets, .. }
            | Output::Repeat { octets }
            | Output::Request { octets, .. } => vec![octets],
            Output::Ticked { requests, .. } => requests
                .iter()
                .map(|resent| resent.octets.as_slice())
                .collect(),
            _ => Vec::new(),
        }
    }
}

/// A request that goes out again.
#[derive(Clone, Debug, PartialEq, Eq)]
pub struct Resent {
    /// The IKE SA.
    pub ike: u32,
    /// The message.
    pub octets: Vec<u8>,
}
