//! The calls of the core that the daemon's loop makes.
//!
//! [`Core`] is one gateway. The feature `library` has it for `sukperin::Gateway`; tests
//! have one of their own, so that the loop is tested without the library.

#[cfg(feature = "library")]
mod library;

#[cfg(feature = "library")]
pub use library::LibraryCore;

use crate::config::PeerConfig;
use crate::config::Range as AddressRange;
use std::net::Ipv4Addr;
use std::ops::Range;
use zeroize::Zeroizing;

/// The random octets that an input of IKE takes, never used twice. They are boxed, so that
/// no move leaves a copy, and wiped when they are dropped.
pub struct Fresh(Box<Zeroizing<[u8; Fresh::OCTETS]>>);

impl Fresh {
    /// An SPI of 8, a nonce of 32, a secret of 32, and 16 for sealing.
    pub const OCTETS: usize = 88;

    /// Of octets that were just drawn.
    pub fn new(octets: Box<Zeroizing<[u8; Fresh::OCTETS]>>) -> Fresh {
        Fresh(octets)
    }

    /// The octets. Whoever takes them makes one input of them.
    pub fn octets(&self) -> &[u8; Fresh::OCTETS] {
        &self.0
    }
}

/// What one gateway is made of.
pub struct Terms<'a> {
    /// This end's address outside.
    pub local: Ipv4Addr,
    /// The peer.
    pub peer: &'a PeerConfig,
    /// Its first inbound SPI, of 65,536.
    pub first_spi: u32,
    /// The first secret of its cookies.
    pub cookie_secret: &'a [u8; 32],
}

/// A command to a gateway. Each takes random octets.
#[derive(Clone, Copy, Debug, PartialEq, Eq)]
pub enum Request {
    /// Another IKE SA with a Child SA by an entry.
    Start {
        /// The entry's place in the policy, from 0.
        entry: u32,
    },
    /// An additional Child SA under an IKE SA.
    Child {
        /// The IKE SA's serial.
        ike: u32,
        /// The entry's place in the policy, from 0.
        entry: u32,
    },
    /// Whether the peer is there.
    Probe {
        /// The IKE SA's serial.
        ike: u32,
    },
    /// That a Child SA ends.
    DeleteChild {
        /// The Child SA's serial.
        child: u32,
    },
    /// That an IKE SA ends.
    DeleteIke {
        /// The IKE SA's serial.
        ike: u32,
    },
}

/// What came of a datagram of IKE, of a command or of a moment.
#[derive(Clone, Debug, PartialEq, Eq)]
pub enum Outcome {
    /// A request of the peer took effect, and these octets answer it.
    Reply {
        /// The message.
        octets: Vec<u8>,
        /// The Child SA that it made, where that is told.
        child: Option<u32>,
        /// The IKE SA that it closed.
        closed: Option<u32>,
    },
    /// A request of the peer came again, and these octets answer it again.
    Repeat {
        /// The message.
        octets: Vec<u8>,
    },
    /// A request of this end goes out.
    Request {
        /// The IKE SA's serial.
        ike: u32,
        /// The message.
        octets: Vec<u8>,
    },
    /// An answer was counted.
    Counted {
        /// The IKE SA's serial.
        ike: u32,
        /// The Child SA that it made.
        child: Option<u32>,
        /// Whether it closed the IKE SA.
        closed: bool,
    },
    /// What a moment brought.
    Ticked {
        /// The requests that go out again.
        requests: Vec<Vec<u8>>,
        /// The IKE SAs that were closed, since no answer came.
        closed: Vec<u32>,
    },
    /// A command was carried out, and nothing goes out.
    Done,
    /// It was dropped or refused, for the reason with this E number.
    Refused {
        /// The number.
        code: u32,
    },
}

/// What came of one packet of a list.
#[derive(Clone, Debug, PartialEq, Eq)]
pub enum Passage {
    /// What an ESP packet carried goes up.
    Up {
        /// The Child SA that it came by.
        child: u32,
        /// Its number.
        number: u64,
        /// Where the packet is in the octets that were given.
        place: Range<usize>,
    },
    /// An ESP packet carried nothing.
    Dummy {
        /// The Child SA that it came by.
        child: u32,
        /// Its number.
        number: u64,
    },
    /// A packet goes out protected.
    Sealed {
        /// The Child SA that it goes by.
        child: u32,
        /// Its number.
        number: u64,
        /// Where the ESP packet is in the room.
        place: Range<usize>,
    },
    /// The policy lets a packet go in the clear.
    Clear,
    /// The policy lets a packet not go.
    Discarded,
    /// It was dropped or refused, for the reason with this E number.
    Refused {
        /// The number.
        code: u32,
    },
}

/// How far an IKE SA is.
#[derive(Clone, Copy, Debug, PartialEq, Eq)]
pub enum Phase {
    /// Not yet established.
    Beginning,
    /// Both ends know each other.
    Established,
    /// Closed, and held for what may still come.
    Closed,
}

/// An IKE SA, as a gateway tells of it.
#[derive(Clone, Debug, PartialEq, Eq)]
pub struct AssociationTold {
    /// Its serial.
    pub ike: u32,
    /// Whether this end began it.
    pub begun_here: bool,
    /// How far it is.
    pub phase: Phase,
    /// The SPI of the end that began it.
    pub spi_initiator: u64,
    /// The SPI of the other end, 0 while it isn't known.
    pub spi_responder: u64,
}

/// A selector of a Child SA.
#[derive(Clone, Copy, Debug, PartialEq, Eq)]
pub struct Selector {
    /// The IP protocol, 0 for any.
    pub protocol: u8,
    /// The addresses.
    pub addresses: AddressRange,
    /// The ports, both ends included.
    pub ports: (u16, u16),
}

/// A Child SA, as a gateway tells of it.
#[derive(Clone, Debug, PartialEq, Eq)]
pub struct ChildTold {
    /// Its serial.
    pub child: u32,
    /// The serial of its IKE SA.
    pub ike: u32,
    /// The SPI by which packets come.
    pub spi_in: u32,
    /// The SPI by which packets go out.
    pub spi_out: u32,
    /// Whether packets go out by it.
    pub live: bool,
    /// Whether its numbers have 64 bits.
    pub extended: bool,
    /// What it carries on this side.
    pub locals: Vec<Selector>,
    /// What it carries on the peer's side.
    pub remotes: Vec<Selector>,
}

/// One gateway of the core. No call waits, and none fails but by an E number.
pub trait Core: Sized {
    /// Makes a gateway, or tells in words why it can't be.
    fn open(terms: &Terms<'_>) -> Result<Self, String>;

    /// Takes a datagram of IKE.
    fn ike(&mut self, from: Ipv4Addr, datagram: &[u8], fresh: Fresh) -> Outcome;

    /// Takes a command.
    fn order(&mut self, request: Request, fresh: Fresh) -> Outcome;

    /// Takes a new secret for cookies.
    fn new_secret(&mut self, secret: &[u8; 32]) -> Outcome;

    /// Takes a moment, in milliseconds.
    fn tick(&mut self, moment: u64) -> Outcome;

    /// The moment at which something is due.
    fn next_moment(&mut self) -> Option<u64>;

    /// Takes ESP packets at places of `octets`, in order, and adds what came of each.
    fn esp(&mut self, octets: &[u8], places: &[Range<usize>], passed: &mut Vec<Passage>);

    /// Takes packets on their way out at places of `octets`, in order, seals them into
    /// `room`, which is overwritten, and adds what came of each.
    fn outward(
        &mut self,
        octets: &[u8],
        places: &[Range<usize>],
        room: &mut Vec<u8>,
        passed: &mut Vec<Passage>,
    );

    /// The Child SAs, by rising serial.
    fn children(&mut self) -> Vec<ChildTold>;

    /// The IKE SAs, those not yet established and those closed among them.
    fn associations(&mut self) -> Vec<AssociationTold>;
}
