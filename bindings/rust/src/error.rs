//! Why a call did nothing, and why the core drops or refuses something.

use std::fmt;

/// Why a call did nothing. Nothing has changed where it comes, but that E19 leaves a packet's number taken.
#[derive(Clone, Copy, Debug, PartialEq, Eq)]
#[non_exhaustive]
pub enum Error {
    /// E20: out of memory. The same input may be given again.
    Memory,
    /// 101: the handle leads to nothing, or to an end of another kind. Never comes of this crate.
    NoEnd,
    /// 102: the handle leads to something already. Never comes of this crate.
    InUse,
    /// 103: the room is shorter than what may have to be written ([`room_for`](crate::room_for)).
    Room,
    /// 104: an identity hasn't 1 to 256 octets, the window of requests isn't 1 to 16, or the blocks aren't a power of two from
    /// 2 to 128.
    Configuration,
    /// 106: an entry of the policy has a range that ends below its start or sides of two families, or comes after 256 others;
    /// or an address and a length are no prefix.
    Policy,
    /// 107: an SPI is out of its range: the first one of a gateway isn't from 256 to 2^32 - 65,536, or the one of an
    /// ESP SA is below 256.
    Spi,
    /// 108: there is no such thing to tell.
    Nothing,
    /// 109: a packet's place isn't in the buffer.
    Place,
    /// A [`Sender`](crate::Sender) or [`Receiver`](crate::Receiver) refuses a packet.
    Refused(Refusal),
    /// The library answers a code or a kind that this crate doesn't know, or 0 where it tells a place outside the octets: it is another one
    /// than this crate was written for.
    Unknown(u32),
}

impl Error {
    /// The library's number for it.
    pub fn code(self) -> u32 {
        match self {
            Error::Memory => 20,
            Error::NoEnd => 101,
            Error::InUse => 102,
            Error::Room => 103,
            Error::Configuration => 104,
            Error::Policy => 106,
            Error::Spi => 107,
            Error::Nothing => 108,
            Error::Place => 109,
            Error::Refused(refusal) => u32::from(refusal.number()),
            Error::Unknown(code) => code,
        }
    }

    // What a call answered: 0 is no error.
    pub(crate) fn check(code: u32) -> Result<(), Error> {
        match code {
            0 => Ok(()),
            20 => Err(Error::Memory),
            101 => Err(Error::NoEnd),
            102 => Err(Error::InUse),
            103 => Err(Error::Room),
            104 => Err(Error::Configuration),
            106 => Err(Error::Policy),
            107 => Err(Error::Spi),
            108 => Err(Error::Nothing),
            109 => Err(Error::Place),
            _ => Err(Refusal::of_code(code).map_or(Error::Unknown(code), Error::Refused)),
        }
    }
}

impl fmt::Display for Error {
    fn fmt(&self, f: &mut fmt::Formatter<'_>) -> fmt::Result {
        let text = match self {
            Error::Memory => "E20: out of memory",
            Error::NoEnd => "the handle leads to nothing, or to an end of another kind",
            Error::InUse => "the handle leads to something already",
            Error::Room => "the room is too short",
            Error::Configuration => "an identity, the window or the blocks can't be used",
            Error::Policy => "an entry of the policy is at fault",
            Error::Spi => "an SPI is out of its range",
            Error::Nothing => "there is no such thing to tell",
            Error::Place => "a packet's place isn't in the buffer",
            Error::Refused(refusal) => return refusal.fmt(f),
            Error::Unknown(code) => {
                return write!(f, "the library tells {code}, which is unknown here")
            }
        };
        f.write_str(text)
    }
}

impl std::error::Error for Error {}

/// A refusal of the core, from E1 to E39 (docs/ERRORS.md). It prints as its number and a phrase, as `E16: the number was taken already`.
#[derive(Clone, Copy, Debug, PartialEq, Eq, PartialOrd, Ord, Hash)]
pub struct Refusal(u8);

impl Refusal {
    /// How many there are. Their numbers go from 1 to this one.
    pub const COUNT: usize = TEXTS.len();

    /// The number behind the `E`.
    pub fn number(self) -> u8 {
        self.0
    }

    /// The phrase, without the number.
    pub fn text(self) -> &'static str {
        TEXTS
            .iter()
            .find(|(number, _)| *number == self.0)
            .map_or("", |(_, text)| text)
    }

    /// The refusal of this number, if there is one.
    pub fn of_number(number: u8) -> Option<Refusal> {
        (1..=TEXTS.len())
            .contains(&usize::from(number))
            .then_some(Refusal(number))
    }

    pub(crate) fn of_code(code: u32) -> Option<Refusal> {
        u8::try_from(code).ok().and_then(Refusal::of_number)
    }
}

impl fmt::Display for Refusal {
    fn fmt(&self, f: &mut fmt::Formatter<'_>) -> fmt::Result {
        write!(f, "E{}: {}", self.number(), self.text())
    }
}

const TEXTS: [(u8, &str); 39] = [
    (1, "fewer octets than a header has"),
    (2, "the length field is not the length of the datagram"),
    (3, "the version is not supported"),
    (4, "the chain of payloads is broken"),
    (5, "a proposal is malformed"),
    (6, "a traffic selector is malformed"),
    (7, "the nonce has a wrong length"),
    (8, "a field is malformed"),
    (9, "the message is too long"),
    (10, "out of memory"),
    (11, "more than 8160 octets of key material"),
    (12, "the sequence numbers are exhausted"),
    (13, "the payload has more than 16384 octets"),
    (14, "the packet's length is not that of a packet"),
    (15, "the number lies below the replay window"),
    (16, "the number was taken already"),
    (17, "the packet has no sequence number"),
    (18, "the ICV is wrong"),
    (19, "the padding is wrong"),
    (20, "out of memory"),
    (21, "not a whole IP packet"),
    (22, "a fragment of a packet"),
    (23, "no entry that protects, or outside the selectors"),
    (24, "out of memory for the selectors"),
    (25, "the table is full, or 128 IKE SAs are held"),
    (26, "the inbound SPIs are spent"),
    (27, "out of memory for the table"),
    (28, "no such IKE SA, Child SA or SPI"),
    (29, "the message doesn't open"),
    (
        30,
        "the request was answered, and its reply is kept no more",
    ),
    (31, "the number lies outside the window"),
    (
        32,
        "the IKE SA is in another phase, or this message is not due to it",
    ),
    (33, "the message claims the role of this end"),
    (34, "too many IKE SAs are half open or held"),
    (
        35,
        "the peer's window is full, or the IKE SA is being deleted",
    ),
    (36, "the numbers are spent"),
    (37, "the fresh SPI is zero or in use"),
    (38, "no room for an answer"),
    (39, "a packet with an extension header"),
];

#[cfg(test)]
mod tests {
    use super::{Error, Refusal};

    #[test]
    fn codes_come_back() {
        for code in 1..300 {
            assert_eq!(Error::check(code).unwrap_err().code(), code);
        }
        assert_eq!(Error::check(0), Ok(()));
    }

    #[test]
    fn refusals_print_their_number() {
        assert_eq!(
            Refusal::of_number(16).unwrap().to_string(),
            "E16: the number was taken already"
        );
        assert_eq!(
            Refusal::of_number(39).unwrap().to_string(),
            "E39: a packet with an extension header"
        );
        assert_eq!(
            (Refusal::of_number(0), Refusal::of_number(40)),
            (None, None)
        );
    }
}
