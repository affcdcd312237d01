//! The IPv4 header outside, the path MTU, and what a raw socket of protocol 50 gives.
//!
//! | File | Has |
//! |---|---|
//! | `outer/header.rs` | the header of a packet on its way out (RFC 4301 section 5.1.2) |
//! | `outer/ecn.rs` | congestion marks, both ways (RFC 6040) |
//! | `outer/mtu.rs` | what ESP adds, and which packet is too long |
//! | `outer/too_big.rs` | the answer to a packet that is too long |
//! | `outer/datagram.rs` | ESP out of what the raw socket gives |

mod datagram;
mod ecn;
mod header;
mod mtu;
mod too_big;

pub use datagram::{Datagram, DatagramFault};
pub use ecn::{leave_tunnel, Ecn, Left};
pub use header::OuterHeader;
pub use mtu::{fits, inner_mtu, sealed_length, OVERHEAD};
pub use too_big::too_big;
