//! Packets for the tests of the path, with checksums by the book: word by word.
#![allow(dead_code)] // each test uses a part

/// Randomness that can be had again (xorshift).
pub struct Chance(pub u64);

impl Chance {
    pub fn next(&mut self) -> u64 {
        self.0 ^= self.0 << 13;
        self.0 ^= self.0 >> 7;
        self.0 ^= self.0 << 17;
        self.0
    }

    pub fn below(&mut self, end: usize) -> usize {
        (self.next() >> 16) as usize % end
    }

    pub fn octets(&mut self, length: usize) -> Vec<u8> {
        (0..length).map(|_| (self.next() >> 24) as u8).collect()
    }
}

/// The folded sum of RFC 1071, by words.
pub fn sum(parts: &[&[u8]]) -> u16 {
    let mut total: u32 = 0;
    for part in parts {
        for word in part.chunks(2) {
            total += u32::from(word[0]) << 8 | u32::from(*word.get(1).unwrap_or(&0));
            total = (total & 0xffff) + (total >> 16);
        }
    }
    total as u16
}

/// Where the transport header begins, and its protocol.
pub fn transport(packet: &[u8]) -> (usize, u8) {
    if packet[0] >> 4 == 4 {
        return (usize::from(packet[0] & 15) * 4, packet[9]);
    }
    let (mut at, mut next) = (40, packet[6]);
    while matches!(next, 0 | 43 | 60) {
        next = packet[at];
        at += usize::from(packet[at + 1]) * 8 + 8;
    }
    (at, next)
}

/// The sum over the pseudo header.
pub fn pseudo(packet: &[u8]) -> u16 {
    let (at, protocol) = transport(packet);
    let addresses = if packet[0] >> 4 == 4 {
        &packet[12..20]
    } else {
        &packet[8..40]
    };
    let length = ((packet.len() - at) as u32).to_be_bytes();
    sum(&[addresses, &length, &[0, protocol]])
}

/// Writes lengths and checksums of IP, TCP and UDP.
pub fn finish(packet: &mut [u8]) {
    let (at, protocol) = transport(packet);
    let length = packet.len();
    if packet[0] >> 4 == 4 {
        packet[2..4].copy_from_slice(&(length as u16).to_be_bytes());
        packet[10..12].fill(0);
        let checksum = !sum(&[&packet[..at]]);
        packet[10..12].copy_from_slice(&checksum.to_be_bytes());
    } else {
        packet[4..6].copy_from_slice(&((length - 40) as u16).to_be_bytes());
    }
    let field = at + if protocol == 6 { 16 } else { 6 };
    if protocol == 17 {
        packet[at + 4..at + 6].copy_from_slice(&((length - at) as u16).to_be_bytes());
    }
    packet[field..field + 2].fill(0);
    let begin = pseudo(packet).to_be_bytes();
    let mut checksum = !sum(&[&begin, &packet[at..]]);
    if protocol == 17 && checksum == 0 {
        checksum = 0xffff;
    }
    packet[field..field + 2].copy_from_slice(&checksum.to_be_bytes());
}

/// True where lengths and checksums are right.
pub fn right(packet: &[u8]) -> bool {
    let mut other = packet.to_vec();
    finish(&mut other);
    other == packet
}

/// What the packets of one flow have in common.
#[derive(Clone)]
pub struct Flow {
    pub v6: bool,
    pub tcp: bool,
    pub port: u16,
    /// Options of IPv4 (a multiple of 4), or the extension header of IPv6 (of 8).
    pub extra: Vec<u8>,
    /// Options of TCP.
    pub options: Vec<u8>,
    pub class: u8,
}

impl Flow {
    pub fn plain(v6: bool, tcp: bool) -> Flow {
        let (extra, options) = (Vec::new(), Vec::new());
        Flow {
            v6,
            tcp,
            port: 4000,
            extra,
            options,
            class: 0,
        }
    }

    pub fn any(chance: &mut Chance, port: u16) -> Flow {
        let (v6, tcp) = (chance.below(2) == 0, chance.below(3) > 0);
        let mut extra = Vec::new();
        if chance.below(3) == 0 {
            // No-operations of IPv4; of IPv6 destination options of padding.
            extra = if v6 {
                vec![0, 0, 1, 4, 0, 0, 0, 0]
            } else {
                vec![1; 8]
            };
        }
        let options = if chance.below(2) == 0 {
            vec![]
        } else {
            chance.octets(12)
        };
        let class = chance.next() as u8;
        Flow {
            v6,
            tcp,
            port,
            extra,
            options,
            class,
        }
    }

    /// A packet with this identification, sequence number and flags.
    pub fn packet(&self, id: u16, sequence: u32, flags: u8, payload: &[u8]) -> Vec<u8> {
        let protocol = if self.tcp { 6 } else { 17 };
        let mut packet;
        if self.v6 {
            packet = vec![0; 40];
            packet[0] = 0x60 | self.class >> 4;
            packet[1] = self.class << 4;
            packet[6] = protocol;
            packet[7] = 61;
            packet[8..24]
                .copy_from_slice(&[0x20, 1, 0xd, 0xb8, 0, 1, 0, 0, 0, 0, 0, 0, 0, 0, 0, 5]);
            packet[24..40]
                .copy_from_slice(&[0x20, 1, 0xd, 0xb8, 0, 2, 0, 0, 0, 0, 0, 0, 0, 0, 0, 6]);
            if !self.extra.is_empty() {
                packet[6] = 60;
                packet.extend_from_slice(&self.extra);
                packet[40] = protocol;
            }
        } else {
            packet = vec![0; 20];
            packet[0] = 0x45 + (self.extra.len() / 4) as u8;
            packet[1] = self.class;
            packet[4..6].copy_from_slice(&id.to_be_bytes());
            packet[6] = 0x40;
            packet[8] = 61;
            packet[9] = protocol;
            packet[12..20].copy_from_slice(&[10, 0, 0, 5, 10, 1, 0, 6]);
            packet.extend_from_slice(&self.extra);
        }
        packet.extend_from_slice(&self.port.to_be_bytes());
        packet.extend_from_slice(&80_u16.to_be_bytes());
        if self.tcp {
            packet.extend_from_slice(&sequence.to_be_bytes());
            packet.extend_from_slice(&77_u32.to_be_bytes());
            packet.extend_from_slice(&[0x50 + (self.options.len() as u8 / 4) * 16, flags]);
            packet.extend_from_slice(&[1, 0xf4, 0, 0, 0, 0]);
            packet.extend_from_slice(&self.options);
        } else {
            packet.extend_from_slice(&[0; 4]);
        }
        packet.extend_from_slice(payload);
        finish(&mut packet);
        packet
    }
}
