//! A safe interface to `libsukperin`, the proved core of an IPsec gateway: IKEv2, and ESP tunnels with NULL encryption and
//! HMAC-SHA-256-128, with one peer.
//!
//! A [`Gateway`] has no socket, clock, thread or random source of its own. The host gives it what came ([`Gateway::ike`],
//! [`Gateway::esp`], [`Gateway::outward`], [`Gateway::inward`]), commands ([`Gateway::start`] and the calls below it) and the time
//! ([`Gateway::tick`]), and carries out what each [`Output`] says. docs/EMBEDDING.md of the repository tells what is left to
//! the host.
//!
//! Each input either is taken, and then it gives an [`Output`] (that something is dropped is an output too), or it fails with an
//! [`Error`] and has done nothing. By the way that this crate uses the library, [`Error::NoEnd`] and [`Error::InUse`] never come.
//!
//! [`Sender`] and [`Receiver`] are the two ends of one ESP SA under a key that is given: for tests, and to judge packets of
//! another stack.
//!
//! ```no_run
//! use std::net::Ipv4Addr;
//! use sukperin::{Config, End, Entry, Fresh, Gateway, Identity, Output, Range};
//!
//! # fn main() -> Result<(), sukperin::Error> {
//! # let octets_of_the_system = [0; Fresh::OCTETS];
//! let own = End {
//!     identity: Identity::Name("a.example"),
//!     address: Ipv4Addr::new(192, 0, 2, 1),
//!     secret: b"a long secret that both ends know",
//! };
//! let peer = End {
//!     identity: Identity::Name("b.example"),
//!     address: Ipv4Addr::new(192, 0, 2, 2),
//!     secret: b"a long secret that both ends know",
//! };
//! let config = Config::new(own, peer, &[9; 32]);
//! let local = Range::v4_prefix(Ipv4Addr::new(10, 0, 0, 0), 24)?;
//! let remote = Range::v4_prefix(Ipv4Addr::new(10, 1, 0, 0), 24)?;
//! let mut gateway = Gateway::new(&config, &[Entry::protect(local, remote)])?;
//!
//! gateway.tick(0)?;
//! let fresh = Fresh::from_octets(&octets_of_the_system);
//! if let Output::Request { octets, .. } = gateway.start(None, 0, fresh)? {
//!     // to the peer, by UDP, from port 500 to port 500
//! #   drop(octets);
//! }
//! # Ok(())
//! # }
//! ```
#![deny(unsafe_op_in_unsafe_fn)]
#![deny(unsafe_code)]
#![deny(missing_docs)]

#[allow(unsafe_code)]
mod calls;
#[allow(unsafe_code)]
mod ffi;

mod association;
mod error;
mod gateway;
mod list;
mod output;
mod settings;
mod tables;

pub use association::{Opened, Receiver, Sealed, Sender};
pub use error::{Error, Refusal};
pub use gateway::Gateway;
pub use list::{Place, Record};
pub use output::{Output, Resent};
pub use settings::{Action, Config, End, Entry, Fresh, Identity, Range};
pub use tables::{Association, Child, Keys, Phase, Role, Selector};

/// The most octets that an ESP packet adds to the packet in it: 8 before it, up to 5 and 16 behind it.
pub const ESP_OCTETS: usize = 29;

/// So long a room is always enough for a packet of so many octets on its way out.
pub const fn room_for(packet_octets: usize) -> usize {
    packet_octets + ESP_OCTETS
}
