//! The path of a packet, as far as it needs no core, no socket and no root.
//!
//! [`offload`] cuts what the TUN device gives and joins what it gets; [`outer`] is the
//! IPv4 header outside, the path MTU and the answer to a packet that is too long.
//! All are functions over octets: none keeps a clock, a descriptor or a secret.

mod checksum;
mod ip;
mod octets;
pub mod offload;
pub mod outer;
