//! The two ends of one ESP SA (RFC 4303) under a key that is given.

use crate::calls::AssociationHandle;
use crate::ffi;
use crate::gateway::part;
use crate::Error;
use std::fmt;

/// The sending end.
pub struct Sender {
    handle: AssociationHandle,
}

/// A packet that was sealed.
#[derive(Clone, Copy, Debug, PartialEq, Eq)]
pub struct Sealed<'a> {
    /// Its sequence number.
    pub number: u64,
    /// The packet, the beginning of the room.
    pub octets: &'a [u8],
}

impl Sender {
    /// A sender whose last number was `last`, 0 where the key is new. A key that was used before needs the last number that it was used
    /// with, or numbers come again. [`Error::Spi`] where the SPI is below 256.
    pub fn new(spi: u32, key: &[u8; 32], extended: bool, last: u64) -> Result<Sender, Error> {
        let mut handle = AssociationHandle::none();
        Error::check(handle.sender(spi, key, extended, last))?;
        Ok(Sender { handle })
    }

    /// Seals a payload under the next header that names its protocol (4 for IPv4, 41 for IPv6, 59 for none) into the room, of at
    /// least [`room_for`](crate::room_for) its octets.
    ///
    /// [`Error::Refused`] where the numbers are exhausted (E12) or the payload has more than 16,384 octets (E13), [`Error::Room`],
    /// [`Error::Memory`].
    pub fn seal<'r>(
        &mut self,
        next_header: u8,
        payload: &[u8],
        room: &'r mut [u8],
    ) -> Result<Sealed<'r>, Error> {
        let mut told = ffi::Sealed::default();
        Error::check(self.handle.seal(next_header, payload, room, &mut told))?;
        Ok(Sealed {
            number: told.number,
            octets: part(room, 0, told.length)?,
        })
    }
}

/// The receiving end, with its replay window.
pub struct Receiver {
    handle: AssociationHandle,
}

/// A packet that was opened.
#[derive(Clone, Copy, Debug, PartialEq, Eq)]
pub struct Opened<'a> {
    /// Its sequence number.
    pub number: u64,
    /// The protocol of its payload.
    pub next_header: u8,
    /// Its payload, a part of the packet.
    pub payload: &'a [u8],
}

impl Receiver {
    /// A receiver that has taken no packet, with a replay window of so many blocks of 64 numbers. [`Error::Spi`] where the SPI is
    /// below 256, [`Error::Configuration`] where the blocks aren't a power of two from 2 to 128.
    pub fn new(spi: u32, key: &[u8; 32], extended: bool, blocks: u32) -> Result<Receiver, Error> {
        let mut handle = AssociationHandle::none();
        Error::check(handle.receiver(spi, key, extended, blocks))?;
        Ok(Receiver { handle })
    }

    /// Judges a packet, from its SPI on. Its number is taken if it opens.
    ///
    /// [`Error::Refused`] with E14 to E19, or E28 of another SPI. All but E19 leave everything as it was; after E19 the number stays taken.
    pub fn open<'p>(&mut self, packet: &'p [u8]) -> Result<Opened<'p>, Error> {
        let mut told = ffi::Opened::default();
        Error::check(self.handle.open(packet, &mut told))?;
        Ok(Opened {
            number: told.number,
            next_header: u8::try_from(told.next).map_err(|_| Error::Unknown(told.next))?,
            payload: part(packet, told.offset, told.length)?,
        })
    }
}

impl fmt::Debug for Sender {
    fn fmt(&self, f: &mut fmt::Formatter<'_>) -> fmt::Result {
        f.write_str("Sender { .. }")
    }
}

impl fmt::Debug for Receiver {
    fn fmt(&self, f: &mut fmt::Formatter<'_>) -> fmt::Result {
        f.write_str("Receiver { .. }")
    }
}
