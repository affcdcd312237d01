//! Lists of packets: where each is in a buffer, and what came of it.

use crate::ffi;
use crate::gateway::output_of_packet;
use crate::{Error, Output};
use std::ops::Range;

pub use crate::ffi::Place;

impl Place {
    // The octets in this place of a buffer, if it is there.
    fn of(self, octets: &[u8]) -> Result<&[u8], Error> {
        let start = usize::try_from(self.offset).map_err(|_| Error::Place)?;
        let length = usize::try_from(self.length).map_err(|_| Error::Place)?;
        let end = start.checked_add(length).ok_or(Error::Place)?;
        octets.get(start..end).ok_or(Error::Place)
    }
}

impl From<Range<usize>> for Place {
    /// A range that ends before it starts is empty.
    fn from(range: Range<usize>) -> Place {
        Place {
            offset: range.start as u64,
            length: range.len() as u64,
        }
    }
}

/// The record of what came of one packet of a list. A new one tells nothing.
#[derive(Clone, Copy, Default)]
#[repr(transparent)]
pub struct Record(ffi::Output);

impl Record {
    /// The output, as the single call gives it: of the place that the packet had, the buffer in which it lies, and the room into which
    /// the list was sealed (an empty one of ESP packets that came).
    ///
    /// [`Error::Place`] where the place isn't in the buffer, [`Error::Room`] where too few octets of the room were left: then this packet
    /// was refused alone, and nothing has changed. [`Error::Unknown`] where no list was told here.
    pub fn output<'p>(
        &self,
        place: Place,
        octets: &'p [u8],
        room: &'p [u8],
    ) -> Result<Output<'p>, Error> {
        let told = &self.0;
        match (told.kind, told.code) {
            (ffi::SUK_REFUSED, 103) => Err(Error::Room),
            (ffi::SUK_REFUSED, 109) => Err(Error::Place),
            _ => output_of_packet(told, place.of(octets)?, room),
        }
    }
}

impl std::fmt::Debug for Record {
    fn fmt(&self, f: &mut std::fmt::Formatter<'_>) -> std::fmt::Result {
        f.write_str("Record { .. }")
    }
}
