//! Packets for the tests.

use std::net::{Ipv4Addr, SocketAddrV4};
use sukperind::path::offload::VirtioHeader;

/// An IPv4 packet of UDP without a checksum, with so many octets of payload.
pub fn inner(from: Ipv4Addr, to: Ipv4Addr, class: u8, payload: &[u8]) -> Vec<u8> {
    let length = (28 + payload.len()) as u16;
    let mut packet = vec![0x45, class];
    packet.extend(length.to_be_bytes());
    packet.extend([0, 0, 0x40, 0, 64, 17, 0, 0]);
    packet.extend(from.octets());
    packet.extend(to.octets());
    let mut sum: u32 = packet
        .chunks(2)
        .map(|pair| u32::from(u16::from_be_bytes([pair[0], pair[1]])))
        .sum();
    while sum > 0xffff {
        sum = (sum & 0xffff) + (sum >> 16);
    }
    packet[10..12].copy_from_slice(&(!(sum as u16)).to_be_bytes());
    packet.extend([0x10, 0, 0x20, 0]);
    packet.extend((8 + payload.len() as u16).to_be_bytes());
    packet.extend([0, 0]);
    packet.extend(payload);
    packet
}

/// A packet as the interface gives it: behind a virtio header of zeros.
pub fn read_of(packet: &[u8]) -> Vec<u8> {
    let mut read = VirtioHeader::default().octets().to_vec();
    read.extend(packet);
    read
}

/// An ESP packet as a raw socket gives it: behind its IPv4 header.
pub fn outer(from: Ipv4Addr, to: Ipv4Addr, class: u8, esp: &[u8]) -> Vec<u8> {
    let mut packet = vec![0x45, class];
    packet.extend((20 + esp.len() as u16).to_be_bytes());
    packet.extend([0, 0, 0x40, 0, 64, 50, 0, 0]);
    packet.extend(from.octets());
    packet.extend(to.octets());
    packet.extend(esp);
    packet
}

/// The port of IKE at an address.
pub fn ike_at(address: Ipv4Addr) -> SocketAddrV4 {
    SocketAddrV4::new(address, 500)
}
