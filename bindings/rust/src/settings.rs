//! What a gateway is made of, and the randomness of an input.

use crate::{ffi, Error};
use std::fmt;
use std::net::{Ipv4Addr, Ipv6Addr};

/// Who an end says it is (RFC 7296 section 3.5). It is compared octet by octet, and has 1 to 256 octets.
#[derive(Clone, Copy, Debug, PartialEq, Eq)]
pub enum Identity<'a> {
    /// Type 1.
    Ipv4(Ipv4Addr),
    /// Type 2, a name of DNS.
    Name(&'a str),
    /// Type 3, an address of mail.
    Mail(&'a str),
    /// Type 5.
    Ipv6(Ipv6Addr),
    /// Any other type, with its octets.
    Other {
        /// The type.
        kind: u8,
        /// The octets.
        data: &'a [u8],
    },
}

impl Identity<'_> {
    pub(crate) fn kind(&self) -> u8 {
        match self {
            Identity::Ipv4(_) => 1,
            Identity::Name(_) => 2,
            Identity::Mail(_) => 3,
            Identity::Ipv6(_) => 5,
            Identity::Other { kind, .. } => *kind,
        }
    }

    pub(crate) fn octets(&self) -> Vec<u8> {
        match self {
            Identity::Ipv4(address) => address.octets().to_vec(),
            Identity::Name(text) | Identity::Mail(text) => text.as_bytes().to_vec(),
            Identity::Ipv6(address) => address.octets().to_vec(),
            Identity::Other { data, .. } => data.to_vec(),
        }
    }
}

/// One of the two ends of a gateway.
#[derive(Clone, Copy)]
pub struct End<'a> {
    /// Who it is.
    pub identity: Identity<'a>,
    /// Its address. The core makes cookies of the address that a datagram came from, and reads this one for nothing.
    pub address: Ipv4Addr,
    /// The secret by which it proves who it is: a pre-shared key (RFC 7296 section 2.15). Mostly both ends have the same.
    pub secret: &'a [u8],
}

/// What a gateway is made of, but for its policy.
#[derive(Clone, Copy)]
pub struct Config<'a> {
    /// This end.
    pub own: End<'a>,
    /// The one peer.
    pub peer: End<'a>,
    /// Whether extended sequence numbers are allowed, and then offered first.
    pub extended: bool,
    /// How many requests of the peer it takes at once, 1 to 16.
    pub window: u8,
    /// The size of replay windows: a power of two from 2 to 128. A window spans 64 numbers for each block but one.
    pub blocks: u32,
    /// The first inbound SPI of ESP, from 256 to 2^32 - 65,536. A gateway gives up to 65,536 from here on, so those of several
    /// gateways lie at least so far apart.
    pub first_spi: u32,
    /// The first secret of its cookies: unpredictable octets. What is made of it here is wiped; the octets are the caller's to wipe.
    pub cookie_secret: &'a [u8; 32],
}

impl<'a> Config<'a> {
    /// A configuration of these ends with extended sequence numbers, one request taken at once, replay windows of 64 blocks (4032
    /// numbers) and the first SPI 4096.
    pub fn new(own: End<'a>, peer: End<'a>, cookie_secret: &'a [u8; 32]) -> Config<'a> {
        Config {
            own,
            peer,
            extended: true,
            window: 1,
            blocks: 64,
            first_spi: 4096,
            cookie_secret,
        }
    }

    // Boxed before the secret comes, so that no move leaves a copy of it.
    pub(crate) fn terms(&self, tells_keys: bool) -> Box<ffi::Terms> {
        let mut terms = Box::new(ffi::Terms {
            own_kind: self.own.identity.kind(),
            peer_kind: self.peer.identity.kind(),
            extended: u8::from(self.extended),
            window: self.window,
            blocks: self.blocks,
            first_spi: self.first_spi,
            own_address: self.own.address.octets(),
            peer_address: self.peer.address.octets(),
            cookie_secret: [0; 32],
            tells_keys: u8::from(tells_keys),
            reserved: [0; 3],
        });
        terms.cookie_secret.copy_from_slice(self.cookie_secret);
        terms
    }
}

// Shows no octet of a secret.
impl fmt::Debug for Config<'_> {
    fn fmt(&self, f: &mut fmt::Formatter<'_>) -> fmt::Result {
        f.debug_struct("Config")
            .field("own", &self.own.identity)
            .field("peer", &self.peer.identity)
            .finish_non_exhaustive()
    }
}

/// A range of addresses of one family, from a start to an end, both included.
#[derive(Clone, Copy, Debug, PartialEq, Eq)]
pub enum Range {
    /// Of IPv4.
    V4(Ipv4Addr, Ipv4Addr),
    /// Of IPv6.
    V6(Ipv6Addr, Ipv6Addr),
}

impl Range {
    /// The addresses that begin with the first `length` bits of an address. [`Error::Policy`] where the length is over 32, or a bit
    /// of the address behind it is set.
    pub fn v4_prefix(address: Ipv4Addr, length: u8) -> Result<Range, Error> {
        let host = host_bits(length, 32)? as u32;
        let start = u32::from(address);
        if start & host != 0 {
            return Err(Error::Policy);
        }
        Ok(Range::V4(address, Ipv4Addr::from(start | host)))
    }

    /// The same of IPv6, where the length is at most 128.
    pub fn v6_prefix(address: Ipv6Addr, length: u8) -> Result<Range, Error> {
        let host = host_bits(length, 128)?;
        let start = u128::from(address);
        if start & host != 0 {
            return Err(Error::Policy);
        }
        Ok(Range::V6(address, Ipv6Addr::from(start | host)))
    }

    fn family(&self) -> u8 {
        match self {
            Range::V4(..) => 4,
            Range::V6(..) => 6,
        }
    }

    // An address of IPv4 is the first four octets.
    fn octets(&self) -> ([u8; 16], [u8; 16]) {
        match self {
            Range::V4(start, end) => (padded(*start), padded(*end)),
            Range::V6(start, end) => (start.octets(), end.octets()),
        }
    }
}

// The bits of an address behind a prefix.
fn host_bits(length: u8, width: u8) -> Result<u128, Error> {
    let behind = width.checked_sub(length).ok_or(Error::Policy)?;
    Ok(u128::MAX.checked_shr(128 - u32::from(behind)).unwrap_or(0))
}

fn padded(address: Ipv4Addr) -> [u8; 16] {
    let mut octets = [0; 16];
    octets[..4].copy_from_slice(&address.octets());
    octets
}

/// What is done with the packets of an entry (RFC 4301 section 4.4.1).
#[derive(Clone, Copy, Debug, PartialEq, Eq)]
pub enum Action {
    /// They don't go on.
    Discard,
    /// They go on as they are.
    Bypass,
    /// They go by an ESP SA, or not at all.
    Protect,
}

/// An entry of a policy: the first one that holds a flow says what is done with it. A flow that no entry holds is discarded.
#[derive(Clone, Debug, PartialEq, Eq)]
pub struct Entry {
    /// What is done.
    pub action: Action,
    /// The IP protocol, 0 for any.
    pub protocol: u8,
    /// The addresses on this side.
    pub local: Range,
    /// The ports on this side, from the first to the last.
    pub local_ports: (u16, u16),
    /// The addresses on the peer's side, of the same family.
    pub remote: Range,
    /// The ports on the peer's side.
    pub remote_ports: (u16, u16),
}

impl Entry {
    /// What goes between these addresses is protected, of all protocols and ports.
    pub fn protect(local: Range, remote: Range) -> Entry {
        Entry::between(Action::Protect, local, remote)
    }

    /// It goes on as it is.
    pub fn bypass(local: Range, remote: Range) -> Entry {
        Entry::between(Action::Bypass, local, remote)
    }

    /// It doesn't go on.
    pub fn discard(local: Range, remote: Range) -> Entry {
        Entry::between(Action::Discard, local, remote)
    }

    fn between(action: Action, local: Range, remote: Range) -> Entry {
        Entry {
            action,
            protocol: 0,
            local,
            local_ports: (0, u16::MAX),
            remote,
            remote_ports: (0, u16::MAX),
        }
    }

    // An entry of two families has no record: the library would refuse it likewise.
    pub(crate) fn record(&self) -> Result<ffi::Entry, Error> {
        if self.local.family() != self.remote.family() {
            return Err(Error::Policy);
        }
        let (local_start, local_end) = self.local.octets();
        let (remote_start, remote_end) = self.remote.octets();
        Ok(ffi::Entry {
            family: self.local.family(),
            protocol: self.protocol,
            action: match self.action {
                Action::Discard => ffi::SUK_DISCARD,
                Action::Bypass => ffi::SUK_BYPASS,
                Action::Protect => ffi::SUK_PROTECT,
            },
            reserved: 0,
            local_start_port: self.local_ports.0,
            local_end_port: self.local_ports.1,
            remote_start_port: self.remote_ports.0,
            remote_end_port: self.remote_ports.1,
            local_start,
            local_end,
            remote_start,
            remote_end,
        })
    }
}

/// The randomness of one input. It can't be copied, and an input takes it: draw another one for each, also after one that
/// was refused. If a nonce and a secret came again, keys would. It is wiped when it is dropped.
pub struct Fresh(pub(crate) Box<ffi::Fresh>);

impl Fresh {
    /// How many random octets make one.
    pub const OCTETS: usize = 88;

    /// Of octets that the system's random source gave: unpredictable, and of no use before or after. They are the caller's to wipe.
    pub fn from_octets(octets: &[u8; Fresh::OCTETS]) -> Fresh {
        // Boxed before the octets come, so that no move leaves a copy of them.
        let mut fresh = Box::new(ffi::Fresh {
            spi: 0,
            nonce: [0; 32],
            secret: [0; 32],
            seal: [0; 16],
        });
        let (spi, others) = octets.split_at(8);
        let (nonce, others) = others.split_at(32);
        let (secret, seal) = others.split_at(32);
        fresh.spi = spi
            .iter()
            .fold(0, |value, octet| value << 8 | u64::from(*octet));
        fresh.nonce.copy_from_slice(nonce);
        fresh.secret.copy_from_slice(secret);
        fresh.seal.copy_from_slice(seal);
        Fresh(fresh)
    }
}

// Shows no octet.
impl fmt::Debug for Fresh {
    fn fmt(&self, f: &mut fmt::Formatter<'_>) -> fmt::Result {
        f.write_str("Fresh { .. }")
    }
}

#[cfg(test)]
mod tests {
    use super::{Entry, Range};
    use crate::Error;
    use std::net::{Ipv4Addr, Ipv6Addr};

    #[test]
    fn prefixes() {
        let net = Ipv4Addr::new(10, 1, 0, 0);
        assert_eq!(
            Range::v4_prefix(net, 24),
            Ok(Range::V4(net, Ipv4Addr::new(10, 1, 0, 255)))
        );
        assert_eq!(Range::v4_prefix(net, 32), Ok(Range::V4(net, net)));
        assert_eq!(Range::v4_prefix(net, 33), Err(Error::Policy));
        assert_eq!(Range::v4_prefix(net, 8), Err(Error::Policy));
        let all = Range::V6(Ipv6Addr::UNSPECIFIED, Ipv6Addr::from(u128::MAX));
        assert_eq!(Range::v6_prefix(Ipv6Addr::UNSPECIFIED, 0), Ok(all));
        assert_eq!(
            Range::v6_prefix(Ipv6Addr::LOCALHOST, 127),
            Err(Error::Policy)
        );
    }

    #[test]
    fn an_entry_of_two_families_is_none() {
        let four = Range::v4_prefix(Ipv4Addr::UNSPECIFIED, 0).unwrap();
        let six = Range::v6_prefix(Ipv6Addr::UNSPECIFIED, 0).unwrap();
        assert!(matches!(
            Entry::protect(four, six).record(),
            Err(Error::Policy)
        ));
        assert!(Entry::protect(six, six).record().is_ok());
    }
}
