//! The daemon's loop: what came goes to the core, and what the core says is carried out.
//!
//! [`Daemon`] is generic over the core and the system, so that all of it is tested
//! without root and without the library. One turn of the loop takes signals, tells the
//! time, takes IKE, then ESP, then what comes from inside, a list of each at most.
//!
//! | File | Has |
//! |---|---|
//! | `daemon/site.rs` | one peer with its gateways and its interface |
//! | `daemon/gateway.rs` | one gateway, and what is known of its IKE SAs and Child SAs |
//! | `daemon/obey.rs` | carrying out the commands of a peer's care |
//! | `daemon/ike.rs`, `esp.rs`, `inside.rs` | the three ways by which octets come |
//! | `daemon/reload.rs` | a configuration that was read anew |
//! | `daemon/allowance.rs`, `tally.rs`, `refusals.rs` | first requests, counts of refusals, their words |
//! | `daemon/around.rs` | the system and the moment of a turn |
//! | `daemon/report.rs` | the status |

mod allowance;
mod around;
mod esp;
mod gateway;
mod heading;
mod ike;
mod inside;
mod obey;
mod refusals;
mod reload;
mod report;
mod site;
mod tally;

pub use refusals::words_of;

use crate::config::Config;
use crate::core::Core;
use crate::system::{Batch, Level, Ready, SiteKey, System};
use around::{Around, Shared};
use site::Site;
use std::io;
use std::net::Ipv4Addr;
use tally::Tally;
use thiserror::Error;

/// The longest datagram of IKE that is read. The core refuses those above 3,000 octets.
const LONGEST_IKE: usize = 4_096;

/// The longest packet of the raw socket that is read: the core takes 16,384 octets inside.
const LONGEST_ESP: usize = 17_408;

/// Why the loop ends, but for a signal.
#[derive(Debug, Error)]
pub enum Stop {
    /// Without randomness no key would be secret.
    #[error("the system gives no random octets: {0}")]
    NoChance(io::Error),
}

/// What is counted of no peer.
#[derive(Debug, Default)]
struct Unclaimed {
    /// Datagrams of IKE from addresses of no peer.
    strangers: u64,
    /// The last of these addresses.
    last_stranger: Option<Ipv4Addr>,
    /// ESP packets with an SPI of no gateway.
    spis: u64,
    /// What the raw socket gave that is no ESP packet.
    malformed: u64,
    /// Errors of the sockets when they were read.
    unread: u64,
    log: Tally,
}

/// The daemon.
pub struct Daemon<C> {
    shared: Shared,
    sites: Vec<Site<C>>,
    next_key: u32,
    ike: Batch,
    esp: Batch,
    unclaimed: Unclaimed,
    begun_at: u64,
    leaving: bool,
}

impl<C: Core> Daemon<C> {
    /// A daemon by a configuration, with its interfaces and the first commands of each
    /// peer's care carried out.
    pub fn new<S: System>(config: Config, system: &mut S) -> Result<Daemon<C>, Stop> {
        let mut daemon = Daemon {
            shared: Shared::new(config.local),
            sites: Vec::new(),
            next_key: 0,
            ike: Batch::new(LONGEST_IKE),
            esp: Batch::new(LONGEST_ESP),
            unclaimed: Unclaimed::default(),
            begun_at: system.now(),
            leaving: false,
        };
        for peer in config.peers {
            daemon.add(system, peer)?;
        }
        Ok(daemon)
    }

    /// Goes round until a signal ends it and each peer was told.
    pub fn run<S: System>(&mut self, system: &mut S) -> Result<(), Stop> {
        while !self.is_over() {
            let ready = system.wait(self.next_moment(), &self.readable());
            self.turn(system, &ready)?;
            system.alive();
        }
        Ok(())
    }

    /// Whether all is done after a signal to end.
    pub fn is_over(&self) -> bool {
        self.leaving && self.sites.is_empty()
    }

    /// The moment of the next turn, if nothing happens before.
    pub fn next_moment(&mut self) -> Option<u64> {
        self.sites.iter_mut().filter_map(Site::next_moment).min()
    }

    /// The sites whose interfaces are to be read: not those whose packets wait.
    pub fn readable(&self) -> Vec<SiteKey> {
        let readable = self.sites.iter().filter(|site| site.is_readable());
        readable.map(|site| site.key()).collect()
    }

    /// One turn.
    pub fn turn<S: System>(&mut self, system: &mut S, ready: &Ready) -> Result<(), Stop> {
        if ready.terminate {
            self.leave(system)?;
        }
        if ready.reload && !self.leaving {
            self.reload(system)?;
        }
        for key in &ready.gone {
            if let Some(site) = self.sites.iter_mut().find(|site| site.key() == *key) {
                site.take_gone(&mut Around::new(system, &mut self.shared));
            }
        }
        self.tell_time(system)?;
        if ready.ike {
            self.take_ike(system)?;
        }
        if ready.esp {
            self.take_esp(system)?;
        }
        for key in &ready.inside {
            if let Some(site) = self.sites.iter_mut().find(|site| site.key() == *key) {
                site.take_inside(&mut Around::new(system, &mut self.shared))?;
            }
        }
        if ready.status {
            let json = self.status(system).to_json();
            system.answer_status(&json);
        }
        self.bury(system);
        Ok(())
    }

    /// SIGTERM: each peer is told that its IKE SAs end.
    fn leave<S: System>(&mut self, system: &mut S) -> Result<(), Stop> {
        if self.leaving {
            return Ok(());
        }
        self.leaving = true;
        system.log(Level::Info, "ending: telling the peers");
        for site in &mut self.sites {
            site.leave(&mut Around::new(system, &mut self.shared))?;
        }
        Ok(())
    }

    fn tell_time<S: System>(&mut self, system: &mut S) -> Result<(), Stop> {
        Around::new(system, &mut self.shared).heed_paths();
        for site in &mut self.sites {
            site.take_moment(&mut Around::new(system, &mut self.shared))?;
        }
        Ok(())
    }

    /// Lets sites go whose care has ended.
    fn bury<S: System>(&mut self, system: &mut S) {
        self.sites.retain_mut(|site| {
            if site.is_stopped() {
                site.end(&mut Around::new(system, &mut self.shared));
            }
            !site.is_stopped()
        });
    }

    fn add<S: System>(
        &mut self,
        system: &mut S,
        peer: crate::config::PeerConfig,
    ) -> Result<(), Stop> {
        let key = SiteKey(self.next_key);
        self.next_key = self.next_key.wrapping_add(1);
        let mut around = Around::new(system, &mut self.shared);
        let mut site = Site::new(key, peer, around.now);
        site.open_inside(&mut around);
        site.carry_out(&mut around)?;
        self.sites.push(site);
        Ok(())
    }
}
