//! The TUN device's offloads: superpackets are cut before the core seals them, and
//! what comes up is joined before it is written.
//!
//! The device is opened with `IFF_VNET_HDR`, so before each packet stands a
//! [`VirtioHeader`] of 10 octets. [`cut`] makes packets of one read, a [`Joiner`] makes
//! writes of a list of packets, and cutting what was joined gives the very packets back.
//! Both fill [`Packets`], whose memory is used again, so that no packet costs an
//! allocation.

mod cut;
mod flags;
mod join;
mod malformed;
mod packets;
mod virtio;

pub use cut::cut;
pub use flags::Offloads;
pub use join::Joiner;
pub use malformed::Malformed;
pub use packets::Packets;
pub use virtio::VirtioHeader;
