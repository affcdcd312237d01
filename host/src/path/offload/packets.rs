//! Packets in one buffer.

use std::ops::Range;

/// Packets one behind the other in one buffer, with a place for each. Cleared and
/// filled again it keeps its memory.
#[derive(Clone, Debug, Default)]
pub struct Packets {
    pub(super) octets: Vec<u8>,
    places: Vec<Range<usize>>,
}

impl Packets {
    /// None yet.
    pub fn new() -> Packets {
        Packets::default()
    }

    /// Forgets the packets and keeps the memory.
    pub fn clear(&mut self) {
        self.octets.clear();
        self.places.clear();
    }

    /// How many there are.
    pub fn len(&self) -> usize {
        self.places.len()
    }

    /// True where there is none.
    pub fn is_empty(&self) -> bool {
        self.places.is_empty()
    }

    /// All octets, as a list of the core takes them.
    pub fn octets(&self) -> &[u8] {
        &self.octets
    }

    /// The place of each packet in [`Packets::octets`], in order.
    pub fn places(&self) -> &[Range<usize>] {
        &self.places
    }

    /// The packets in order.
    pub fn iter(&self) -> impl Iterator<Item = &[u8]> {
        self.places.iter().map(|place| &self.octets[place.clone()])
    }

    /// Adds a packet of these parts, and gives it for what is still to be changed.
    pub(super) fn push<'a>(&mut self, parts: impl IntoIterator<Item = &'a [u8]>) -> &mut [u8] {
        let start = self.octets.len();
        for part in parts {
            self.octets.extend_from_slice(part);
        }
        self.places.push(start..self.octets.len());
        &mut self.octets[start..]
    }
}
