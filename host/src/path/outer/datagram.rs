//! What a raw socket of protocol 50 gives: an IPv4 header, then ESP (raw(7)).

use super::ecn::Ecn;
use crate::path::ip::ESP;
use crate::path::octets::u16_at;
use std::net::Ipv4Addr;
use thiserror::Error;

/// The octets of ESP before its payload: SPI and number (RFC 4303 section 2).
const ESP_HEADER: usize = 8;

/// A datagram of ESP that came, looked at but not judged.
#[derive(Clone, Copy, Debug, PartialEq, Eq)]
pub struct Datagram<'a> {
    /// Who says to have sent it.
    pub source: Ipv4Addr,
    /// The mark of the outer header, for [`leave_tunnel`](super::leave_tunnel).
    pub ecn: Ecn,
    /// From the SPI to the end of the ICV.
    pub esp: &'a [u8],
}

/// Why a datagram isn't looked into.
#[derive(Clone, Copy, Debug, PartialEq, Eq, Error)]
pub enum DatagramFault {
    /// Less than an IPv4 header.
    #[error("{length} octets are too few for an IPv4 header")]
    Short {
        /// The octets that came.
        length: usize,
    },
    /// Another version than 4.
    #[error("version {version} instead of 4")]
    Version {
        /// The version.
        version: u8,
    },
    /// A header's length below 20 or beyond the datagram.
    #[error("an IPv4 header of {header} octets in {length}")]
    Header {
        /// The header's octets by its own word.
        header: usize,
        /// The octets that came.
        length: usize,
    },
    /// A total length that is less than the header or more than what came.
    #[error("a total length of {told} with a header of {header}, {length} octets came")]
    Length {
        /// The total length.
        told: usize,
        /// The header's octets.
        header: usize,
        /// The octets that came.
        length: usize,
    },
    /// Another protocol than ESP.
    #[error("protocol {protocol} instead of 50")]
    Protocol {
        /// The protocol.
        protocol: u8,
    },
    /// A fragment, though the kernel puts them together before.
    #[error("a fragment")]
    Fragment,
    /// Less than SPI and number.
    #[error("{length} octets are too few for ESP")]
    Esp {
        /// The octets behind the IPv4 header.
        length: usize,
    },
}

impl<'a> Datagram<'a> {
    /// Looks into a datagram. The kernel has judged the header's checksum. What follows
    /// the total length isn't the packet's, and is left out.
    pub fn of(octets: &'a [u8]) -> Result<Datagram<'a>, DatagramFault> {
        let length = octets.len();
        if length < 20 {
            return Err(DatagramFault::Short { length });
        }
        let version = octets[0] >> 4;
        if version != 4 {
            return Err(DatagramFault::Version { version });
        }
        let header = usize::from(octets[0] & 0xf) * 4;
        if header < 20 || header > length {
            return Err(DatagramFault::Header { header, length });
        }
        let told = usize::from(u16_at(octets, 2));
        if told < header || told > length {
            return Err(DatagramFault::Length {
                told,
                header,
                length,
            });
        }
        let protocol = octets[9];
        if protocol != ESP {
            return Err(DatagramFault::Protocol { protocol });
        }
        if u16_at(octets, 6) & 0x3fff != 0 {
            return Err(DatagramFault::Fragment);
        }
        let esp = &octets[header..told];
        if esp.len() < ESP_HEADER {
            return Err(DatagramFault::Esp { length: esp.len() });
        }
        Ok(Datagram {
            source: Ipv4Addr::new(octets[12], octets[13], octets[14], octets[15]),
            ecn: Ecn::of_class(octets[1]),
            esp,
        })
    }
}
