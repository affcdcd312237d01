//! What a site needs around it while something happens to it.

use super::Stop;
use crate::core::Fresh;
use crate::system::{Level, System};
use std::io;
use std::net::Ipv4Addr;
use zeroize::Zeroizing;

/// How many SPIs a gateway gives in its life.
pub(super) const SPIS: u32 = 65_536;

/// The first SPI that may be drawn. Those below 256 are reserved (RFC 4303 section 2.1).
const FIRST_SPI: u32 = 256;

/// What all sites share.
#[derive(Debug)]
pub(super) struct Shared {
    pub(super) local: Ipv4Addr,
    /// The first SPIs of all open gateways.
    first_spis: Vec<u32>,
    /// Until when the kernel's idea of paths' MTUs isn't heeded, in milliseconds.
    unheeded_until: Option<u64>,
}

/// The system, what all sites share, and the moment.
pub(super) struct Around<'a, S> {
    pub(super) system: &'a mut S,
    pub(super) shared: &'a mut Shared,
    pub(super) now: u64,
}

impl Shared {
    pub(super) fn new(local: Ipv4Addr) -> Shared {
        Shared {
            local,
            first_spis: Vec::new(),
            unheeded_until: None,
        }
    }

    /// A gateway has ended, and its SPIs are free.
    pub(super) fn free_spis(&mut self, first_spi: u32) {
        self.first_spis.retain(|first| *first != first_spi);
    }
}

impl<'a, S: System> Around<'a, S> {
    pub(super) fn new(system: &'a mut S, shared: &'a mut Shared) -> Around<'a, S> {
        let now = system.now();
        Around {
            system,
            shared,
            now,
        }
    }

    /// For so long, in milliseconds, the kernel's idea of paths' MTUs isn't heeded.
    pub(super) fn unheed_paths(&mut self, lasts: u64) -> io::Result<()> {
        self.system.heed_path_mtu(false)?;
        self.shared.unheeded_until = Some(self.now.saturating_add(lasts));
        Ok(())
    }

    /// Heeds it again, once the time is over.
    pub(super) fn heed_paths(&mut self) {
        let over = |until: u64| until <= self.now;
        if self.shared.unheeded_until.is_some_and(over) && self.system.heed_path_mtu(true).is_ok() {
            self.shared.unheeded_until = None;
        }
    }

    /// Random octets for one input.
    pub(super) fn fresh(&mut self) -> Result<Fresh, Stop> {
        self.draw().map(Fresh::new)
    }

    /// A secret for cookies.
    pub(super) fn secret(&mut self) -> Result<Box<Zeroizing<[u8; 32]>>, Stop> {
        self.draw()
    }

    /// A first SPI, drawn so that those of no two gateways meet. It is in use until it
    /// is freed.
    pub(super) fn first_spi(&mut self) -> Result<u32, Stop> {
        loop {
            let octets = self.draw::<4>()?;
            let last = u32::MAX - SPIS + 1;
            let first = FIRST_SPI + u32::from_ne_bytes(**octets) % (last - FIRST_SPI + 1);
            let meets = |other: &u32| other.abs_diff(first) < SPIS;
            // Few gateways are open at once, so the first try is mostly the last.
            if !self.shared.first_spis.iter().any(meets) {
                self.shared.first_spis.push(first);
                return Ok(first);
            }
        }
    }

    /// Octets that stay where they were drawn until they are wiped: a box moves without them.
    fn draw<const N: usize>(&mut self) -> Result<Box<Zeroizing<[u8; N]>>, Stop> {
        let mut octets = Box::new(Zeroizing::new([0; N]));
        self.system
            .draw(octets.as_mut_slice())
            .map_err(Stop::NoChance)?;
        Ok(octets)
    }

    pub(super) fn log(&mut self, level: Level, line: &str) {
        self.system.log(level, line);
    }
}
