//! The heading of a message of IKE (RFC 7296 section 3.1), as far as it tells where the
//! message belongs. It is judged by the core alone.

/// IKE_SA_INIT.
const INITIAL: u8 = 34;
/// The flag of who began the IKE SA.
const INITIATOR: u8 = 0x08;
/// The flag of an answer.
const RESPONSE: u8 = 0x20;

/// What a message's heading says.
#[derive(Clone, Copy, Debug, PartialEq, Eq)]
pub(super) struct Heading {
    pub(super) spi_initiator: u64,
    pub(super) spi_responder: u64,
    exchange: u8,
    flags: u8,
}

impl Heading {
    /// Reads the heading, or nothing where there are too few octets.
    pub(super) fn of(message: &[u8]) -> Option<Heading> {
        let number = |from: usize| {
            let octets = message.get(from..from + 8)?.try_into().ok()?;
            Some(u64::from_be_bytes(octets))
        };
        Some(Heading {
            spi_initiator: number(0)?,
            spi_responder: number(8)?,
            exchange: *message.get(18)?,
            flags: *message.get(19)?,
        })
    }

    /// Whether the peer asks for a new IKE SA.
    pub(super) fn is_first_request(&self) -> bool {
        self.exchange == INITIAL && self.flags & RESPONSE == 0 && self.spi_responder == 0
    }

    /// This end's SPI. Who sent it says whether it began the IKE SA.
    pub(super) fn own_spi(&self) -> u64 {
        if self.flags & INITIATOR != 0 {
            self.spi_responder
        } else {
            self.spi_initiator
        }
    }
}
