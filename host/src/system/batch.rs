//! Datagrams that came together.

use super::LIST;
use std::net::{Ipv4Addr, SocketAddrV4};
use std::ops::Range;

/// A datagram of a batch.
#[derive(Clone, Debug, PartialEq, Eq)]
pub struct Received {
    /// Who says to have sent it.
    pub from: SocketAddrV4,
    /// Where it is in the batch's octets.
    pub place: Range<usize>,
}

/// Room for a list of datagrams, and those that came. Its memory is used again.
#[derive(Clone, Debug)]
pub struct Batch {
    octets: Vec<u8>,
    stride: usize,
    received: Vec<Received>,
}

impl Batch {
    /// Room for datagrams of so many octets each. What is longer is cut.
    pub fn new(longest: usize) -> Batch {
        Batch {
            octets: vec![0; longest.saturating_mul(LIST)],
            stride: longest,
            received: Vec::with_capacity(LIST),
        }
    }

    /// Forgets what came.
    pub fn clear(&mut self) {
        self.received.clear();
    }

    /// The datagrams in order.
    pub fn received(&self) -> &[Received] {
        &self.received
    }

    /// All octets, in which the datagrams have their places.
    pub fn octets(&self) -> &[u8] {
        &self.octets
    }

    /// All octets, to be changed.
    pub fn octets_mut(&mut self) -> &mut [u8] {
        &mut self.octets
    }

    /// The rooms, one for each datagram, to be filled.
    pub fn rooms(&mut self) -> impl Iterator<Item = &mut [u8]> {
        self.octets.chunks_exact_mut(self.stride)
    }

    /// Notes that the next room was filled with so many octets.
    pub fn note(&mut self, from: SocketAddrV4, length: usize) {
        let start = self.received.len() * self.stride;
        if self.received.len() < LIST {
            let place = start..start + length.min(self.stride);
            self.received.push(Received { from, place });
        }
    }

    /// Adds a datagram by its octets, if there is room.
    pub fn put(&mut self, from: Ipv4Addr, port: u16, datagram: &[u8]) {
        let start = self.received.len() * self.stride;
        let length = datagram.len().min(self.stride);
        if let Some(room) = self.octets.get_mut(start..start + length) {
            room.copy_from_slice(&datagram[..length]);
            self.note(SocketAddrV4::new(from, port), length);
        }
    }
}
