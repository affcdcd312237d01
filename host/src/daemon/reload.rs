//! A configuration that was read anew (SIGHUP).

use super::around::Around;
use super::site::Site;
use super::{Daemon, Stop};
use crate::config::PeerConfig;
use crate::core::Core;
use crate::peer::Event;
use crate::system::{Level, System};

impl<C: Core> Daemon<C> {
    /// Reads the configuration anew. One with a fault changes nothing. Peers are known
    /// by their names: who isn't named any more is told that all ends.
    pub(super) fn reload<S: System>(&mut self, system: &mut S) -> Result<(), Stop> {
        let config = match system.read_configuration() {
            Ok(config) => config,
            Err(fault) => {
                let line = format!("the configuration stays as it was: {fault}");
                system.log(Level::Error, &line);
                return Ok(());
            }
        };
        if config.local != self.shared.local {
            let line = "another local address wants a restart: the configuration stays as it was";
            system.log(Level::Error, line);
            return Ok(());
        }
        // Interfaces and routes that change hands are let go before any is made: none can be
        // there twice.
        for site in &mut self.sites {
            let mut around = Around::new(system, &mut self.shared);
            let named = |peer: &&PeerConfig| peer.name == site.config.name;
            let stays = config.peers.iter().find(named);
            if stays.is_none() {
                site.leave(&mut around)?;
            }
            if site.is_leaving() || stays.is_some_and(|peer| peer.tun != site.config.tun) {
                site.let_inside_go(&mut around);
            }
        }
        for peer in config.peers {
            let same = |site: &&mut Site<C>| !site.is_leaving() && site.config.name == peer.name;
            match self.sites.iter_mut().find(same) {
                Some(site) => {
                    let mut around = Around::new(system, &mut self.shared);
                    site.configure(&mut around, peer)?;
                }
                None => self.add(system, peer)?,
            }
        }
        system.log(Level::Info, "the configuration was read anew");
        Ok(())
    }
}

impl<C: Core> Site<C> {
    fn configure<S: System>(
        &mut self,
        around: &mut Around<'_, S>,
        config: PeerConfig,
    ) -> Result<(), Stop> {
        self.tell_time(around)?;
        let anew = self.config.needs_new_gateway(&config);
        let settings = config.settings();
        let other_inside = self.config.tun != config.tun;
        self.config = config;
        if other_inside {
            self.narrow = None;
            self.open_inside(around);
        }
        self.tell(around, Event::Configured { settings, anew })
    }
}
