//! What a gateway holds: its Child SAs, and its IKE SAs with their keys.

use crate::ffi;
use crate::Range;
use std::fmt;
use std::net::{Ipv4Addr, Ipv6Addr};

/// A Child SA: one inbound and one outbound SA of ESP.
#[derive(Clone, Debug, PartialEq, Eq)]
pub struct Child {
    /// Its serial, from 1.
    pub serial: u32,
    /// The serial of its IKE SA.
    pub ike: u32,
    /// The SPI under which this end receives.
    pub spi_in: u32,
    /// The SPI under which it sends.
    pub spi_out: u32,
    /// False once its end was announced: then it carries nothing outward.
    pub live: bool,
    /// Whether its sequence numbers have 64 bits.
    pub extended: bool,
    /// The last sequence number that it sent, 0 where there is none.
    pub sent: u64,
    /// The greatest sequence number that it took, 0 where there is none.
    pub taken: u64,
    /// What it carries on this side.
    pub locals: Vec<Selector>,
    /// What it carries on the peer's side.
    pub remotes: Vec<Selector>,
}

impl Child {
    pub(crate) fn of(record: &ffi::Child, locals: Vec<Selector>, remotes: Vec<Selector>) -> Child {
        Child {
            serial: record.serial,
            ike: record.ike,
            spi_in: record.spi_in,
            spi_out: record.spi_out,
            live: record.live != 0,
            extended: record.extended != 0,
            sent: record.sent,
            taken: record.taken,
            locals,
            remotes,
        }
    }
}

/// A selector (RFC 7296 section 3.13.1).
#[derive(Clone, Debug, PartialEq, Eq)]
pub struct Selector {
    /// The IP protocol, 0 for any.
    pub protocol: u8,
    /// The addresses.
    pub addresses: Range,
    /// The ports, from the first to the last.
    pub ports: (u16, u16),
}

impl Selector {
    pub(crate) fn of(record: &ffi::Selector) -> Selector {
        Selector {
            protocol: record.protocol,
            addresses: match record.family {
                4 => Range::V4(first_four(&record.start), first_four(&record.end)),
                _ => Range::V6(Ipv6Addr::from(record.start), Ipv6Addr::from(record.end)),
            },
            ports: (record.start_port, record.end_port),
        }
    }
}

// An address of IPv4 is the first four octets.
fn first_four(octets: &[u8; 16]) -> Ipv4Addr {
    Ipv4Addr::new(octets[0], octets[1], octets[2], octets[3])
}

/// Which end began an IKE SA.
#[derive(Clone, Copy, Debug, PartialEq, Eq)]
pub enum Role {
    /// This one.
    Initiator,
    /// The peer.
    Responder,
}

/// How far an IKE SA is.
#[derive(Clone, Copy, Debug, PartialEq, Eq)]
pub enum Phase {
    /// This end sent its IKE_SA_INIT request.
    Asked,
    /// This end sent its IKE_AUTH request.
    Proving,
    /// This end answered an IKE_SA_INIT request.
    HalfOpen,
    /// Both ends know each other.
    Established,
    /// It is closed, and held for two minutes for what may still come.
    Closed,
}

/// An IKE SA.
#[derive(Clone, Debug, PartialEq, Eq)]
pub struct Association {
    /// Its serial, from 1.
    pub serial: u32,
    /// Which end began it.
    pub role: Role,
    /// How far it is.
    pub phase: Phase,
    /// Whether this end asked for its deletion.
    pub deleting: bool,
    /// How many requests at once the peer takes.
    pub window: u8,
    /// The SPI of the end that began it.
    pub spi_initiator: u64,
    /// The SPI of the other end, 0 while it isn't known.
    pub spi_responder: u64,
    /// When it was made, of one half open; when it was closed; else 0. In milliseconds of [`Gateway::tick`](crate::Gateway::tick).
    pub moment: u64,
}

impl Association {
    pub(crate) fn of(record: &ffi::Association) -> Association {
        Association {
            serial: record.serial,
            role: match record.role {
                1 => Role::Initiator,
                _ => Role::Responder,
            },
            phase: match record.phase {
                1 => Phase::Asked,
                2 => Phase::Proving,
                3 => Phase::HalfOpen,
                4 => Phase::Established,
                _ => Phase::Closed,
            },
            deleting: record.deleting != 0,
            window: record.window,
            spi_initiator: record.spi_i,
            spi_responder: record.spi_r,
            moment: record.moment,
        }
    }
}

/// The keys of an IKE SA (RFC 7296 section 2.14). Its initiator is the end that began it.
#[derive(Clone, PartialEq, Eq)]
pub struct Keys {
    /// The key from which those of Child SAs are made.
    pub sk_d: [u8; 32],
    /// The integrity key of what the initiator sends.
    pub sk_ai: [u8; 32],
    /// The integrity key of what the responder sends.
    pub sk_ar: [u8; 32],
    /// The encryption key of what the initiator sends.
    pub sk_ei: [u8; 32],
    /// The encryption key of what the responder sends.
    pub sk_er: [u8; 32],
    /// The key with which the initiator's identity is proved.
    pub sk_pi: [u8; 32],
    /// The key with which the responder's identity is proved.
    pub sk_pr: [u8; 32],
}

impl Keys {
    pub(crate) fn of(record: &ffi::Keys) -> Keys {
        Keys {
            sk_d: record.sk_d,
            sk_ai: record.sk_ai,
            sk_ar: record.sk_ar,
            sk_ei: record.sk_ei,
            sk_er: record.sk_er,
            sk_pi: record.sk_pi,
            sk_pr: record.sk_pr,
        }
    }
}

// Shows no octet.
impl fmt::Debug for Keys {
    fn fmt(&self, f: &mut fmt::Formatter<'_>) -> fmt::Result {
        f.write_str("Keys { .. }")
    }
}
