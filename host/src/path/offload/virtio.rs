//! The header before each packet of the TUN device (linux/virtio_net.h).

use super::Malformed;

/// `virtio_net_hdr`. Its numbers are in the machine's order, as the TUN device has them
/// where `TUNSETVNETBE` and `TUNSETVNETLE` were not called.
#[derive(Clone, Copy, Debug, Default, PartialEq, Eq)]
pub struct VirtioHeader {
    /// [`VirtioHeader::NEEDS_CSUM`], or what else the kernel tells.
    pub flags: u8,
    /// What kind of superpacket follows.
    pub gso_type: u8,
    /// The octets of the headers. The kernel tells more than that of packets it
    /// forwards, so it is written, but not read.
    pub hdr_len: u16,
    /// The octets of payload in each piece but the last.
    pub gso_size: u16,
    /// Where what the checksum covers begins.
    pub csum_start: u16,
    /// Where the checksum is, from there.
    pub csum_offset: u16,
}

impl VirtioHeader {
    /// Its octets.
    pub const LENGTH: usize = 10;
    /// The checksum field has the pseudo header's sum alone.
    pub const NEEDS_CSUM: u8 = 1;
    /// Not a superpacket.
    pub const GSO_NONE: u8 = 0;
    /// TCP over IPv4.
    pub const GSO_TCPV4: u8 = 1;
    /// TCP over IPv6.
    pub const GSO_TCPV6: u8 = 4;
    /// UDP over either family, each piece a datagram.
    pub const GSO_UDP_L4: u8 = 5;
    /// With TCP: the first piece has CWR (RFC 3168).
    pub const GSO_ECN: u8 = 0x80;

    /// Splits a read of the device into its header and the packet.
    pub fn split(read: &[u8]) -> Result<(VirtioHeader, &[u8]), Malformed> {
        let length = read.len();
        if length <= Self::LENGTH {
            return Err(Malformed::Short { length });
        }
        let number = |at: usize| u16::from_ne_bytes([read[at], read[at + 1]]);
        let header = VirtioHeader {
            flags: read[0],
            gso_type: read[1],
            hdr_len: number(2),
            gso_size: number(4),
            csum_start: number(6),
            csum_offset: number(8),
        };
        Ok((header, &read[Self::LENGTH..]))
    }

    /// Its octets, to be written before the packet.
    pub fn octets(&self) -> [u8; Self::LENGTH] {
        let mut octets = [0; Self::LENGTH];
        octets[0] = self.flags;
        octets[1] = self.gso_type;
        octets[2..4].copy_from_slice(&self.hdr_len.to_ne_bytes());
        octets[4..6].copy_from_slice(&self.gso_size.to_ne_bytes());
        octets[6..8].copy_from_slice(&self.csum_start.to_ne_bytes());
        octets[8..10].copy_from_slice(&self.csum_offset.to_ne_bytes());
        octets
    }

    /// True where the checksum is still to be made.
    pub fn needs_csum(&self) -> bool {
        self.flags & Self::NEEDS_CSUM != 0
    }
}
