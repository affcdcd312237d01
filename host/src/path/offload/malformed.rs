//! What can be wrong with what the TUN device gave.

use thiserror::Error;

/// Why a read of the TUN device can't be cut. Nothing was written for it.
#[derive(Clone, Copy, Debug, PartialEq, Eq, Error)]
pub enum Malformed {
    /// Less than a virtio header, or nothing behind it.
    #[error("{length} octets are too few for a virtio header and a packet")]
    Short {
        /// The octets that were read.
        length: usize,
    },
    /// A `gso_type` that wasn't asked for, or none at all.
    #[error("gso_type {gso_type:#04x} is unknown")]
    Type {
        /// The header's `gso_type`.
        gso_type: u8,
    },
    /// A superpacket without the length of its pieces.
    #[error("gso_size is 0 in a superpacket")]
    Size,
    /// Not IP, or headers that reach beyond the packet.
    #[error("the headers of IP don't fit into {length} octets")]
    Ip {
        /// The packet's octets.
        length: usize,
    },
    /// The packet's own length is another than that of the read.
    #[error("the packet tells {told} octets, {length} were read")]
    Length {
        /// The length by the IP header.
        told: usize,
        /// The octets behind the virtio header.
        length: usize,
    },
    /// A fragment, which no superpacket can be.
    #[error("a superpacket is a fragment")]
    Fragment,
    /// A routing header with segments left, whose pseudo header isn't known here.
    #[error("a superpacket has a routing header with segments left")]
    Routed,
    /// Family or protocol is another than `gso_type` says.
    #[error("gso_type {gso_type:#04x} doesn't go with IP version {version}, protocol {protocol}")]
    Mismatch {
        /// The header's `gso_type`.
        gso_type: u8,
        /// The version of IP.
        version: u8,
        /// The transport protocol.
        protocol: u8,
    },
    /// A TCP or UDP header that is too short or reaches beyond the packet.
    #[error("the transport header at {at} doesn't fit into {length} octets")]
    Transport {
        /// Where the transport header begins.
        at: usize,
        /// The packet's octets.
        length: usize,
    },
    /// A place for the checksum outside the packet, inside the IP header, or another
    /// than the transport header of a superpacket has.
    #[error("csum_start {start} and csum_offset {offset} don't fit the packet")]
    Checksum {
        /// The header's `csum_start`.
        start: u16,
        /// The header's `csum_offset`.
        offset: u16,
    },
    /// More packets than the caller takes.
    #[error("a superpacket makes {packets} packets, the limit is {limit}")]
    Many {
        /// The packets it would make.
        packets: usize,
        /// The caller's limit.
        limit: usize,
    },
}
