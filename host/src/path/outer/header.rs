//! The outer header of a packet on its way out.

use super::ecn::class_of;
use crate::path::checksum::write_ipv4;
use crate::path::ip::ESP;
use crate::path::octets::put_u16;
use std::net::Ipv4Addr;

/// What of the outer IPv4 header comes of the inner packet (RFC 4301 section 5.1.2.1).
#[derive(Clone, Copy, Debug, PartialEq, Eq)]
pub struct OuterHeader {
    /// DSCP and ECN, both copied: the normal mode of RFC 6040 section 4.1. A host that
    /// leaves the header to the kernel gives it as `IP_TOS`.
    pub class: u8,
}

impl OuterHeader {
    /// Octets of the header, which has no options.
    pub const LENGTH: usize = 20;
    /// Don't fragment: set always, one of the choices of RFC 4301 section 8.1. So the
    /// path tells its MTU, and the peer needn't put pieces together.
    pub const DONT_FRAGMENT: bool = true;
    /// Hops of the tunnel; the inner packet's are its own.
    pub const TTL: u8 = 64;

    /// The header for a packet of either family, or nothing where it is neither.
    pub fn of(inner: &[u8]) -> Option<OuterHeader> {
        class_of(inner).map(|class| OuterHeader { class })
    }

    /// Its octets before `esp` octets of ESP, or nothing where both are more than IPv4
    /// can say. The identification is 0, as nothing can be a fragment (RFC 6864).
    pub fn octets(&self, source: Ipv4Addr, to: Ipv4Addr, esp: usize) -> Option<[u8; 20]> {
        let length = u16::try_from(esp.checked_add(Self::LENGTH)?).ok()?;
        let mut header = [0; Self::LENGTH];
        header[0] = 0x45;
        header[1] = self.class;
        put_u16(&mut header, 2, length);
        put_u16(&mut header, 6, u16::from(Self::DONT_FRAGMENT) << 14);
        header[8] = Self::TTL;
        header[9] = ESP;
        header[12..16].copy_from_slice(&source.octets());
        header[16..20].copy_from_slice(&to.octets());
        write_ipv4(&mut header);
        Some(header)
    }
}
