//! Carrying out the commands of a peer's care.

use super::around::Around;
use super::gateway::Gateway;
use super::refusals::refusal_of;
use super::site::{Site, Trouble};
use super::Stop;
use crate::core::{Core, Outcome, Request, Terms};
use crate::peer::{AssociationName, Event, Order};
use crate::system::System;

/// The answer where there is no gateway: out of memory, which is tried again later.
const NO_GATEWAY: u32 = 20;

impl<C: Core> Site<C> {
    /// Carries out all that is commanded.
    pub(super) fn carry_out<S: System>(&mut self, around: &mut Around<'_, S>) -> Result<(), Stop> {
        while let Some(order) = self.peer.next_order() {
            self.obey(around, order)?;
        }
        Ok(())
    }

    pub(super) fn obey<S: System>(
        &mut self,
        around: &mut Around<'_, S>,
        order: Order,
    ) -> Result<(), Stop> {
        match order {
            Order::OpenGateway { gateway } => self.open_gateway(around, gateway)?,
            Order::CarryBy { gateway } => self.carrier = Some(gateway),
            Order::EndGateway { gateway } => self.end_gateway(around, gateway),
            Order::NewSecret { gateway } => self.renew_secret(around, gateway)?,
            Order::Start { gateway, entry } => {
                // Where it couldn't be made before, it is tried again.
                if self.gateway(gateway).is_none() {
                    self.open_gateway(around, gateway)?;
                }
                self.request(around, order, gateway, Request::Start { entry })?;
            }
            Order::Child { association, entry } => {
                let ike = association.ike;
                let request = Request::Child { ike, entry };
                self.request(around, order, association.gateway, request)?;
            }
            Order::Probe { association } => {
                self.last_probe = Some(around.now);
                let ike = association.ike;
                self.request(around, order, association.gateway, Request::Probe { ike })?;
            }
            Order::DeleteChild { association, child } => {
                let request = Request::DeleteChild { child };
                self.request(around, order, association.gateway, request)?;
            }
            Order::DeleteIke { association } => {
                let ike = association.ike;
                self.request(
                    around,
                    order,
                    association.gateway,
                    Request::DeleteIke { ike },
                )?;
            }
            Order::Hold { entry } => {
                self.held.insert(entry);
            }
            Order::Release { entry } => {
                self.held.remove(&entry);
            }
            // Given where the packet came: see `esp.rs`.
            Order::Keep { .. } => {}
            Order::GiveAgain { packet } => {
                if let Some(octets) = self.kept.remove(&packet) {
                    self.give_again(around, octets)?;
                }
            }
            Order::Forget { packet } => {
                self.kept.remove(&packet);
            }
            Order::Stop => self.kept.clear(),
        }
        Ok(())
    }

    fn open_gateway<S: System>(
        &mut self,
        around: &mut Around<'_, S>,
        number: u32,
    ) -> Result<(), Stop> {
        let first_spi = around.first_spi()?;
        let secret = around.secret()?;
        let terms = Terms {
            local: around.shared.local,
            peer: &self.config,
            first_spi,
            cookie_secret: &secret,
        };
        match C::open(&terms) {
            Ok(core) => self.gateways.push(Gateway::new(number, first_spi, core)),
            Err(fault) => {
                around.shared.free_spis(first_spi);
                let what = format!("the core makes no gateway: {fault}");
                self.note_trouble(around, Trouble::NoGateway, &what);
            }
        }
        Ok(())
    }

    fn end_gateway<S: System>(&mut self, around: &mut Around<'_, S>, number: u32) {
        self.gateways.retain(|gateway| {
            let ends = gateway.number == number;
            if ends {
                around.shared.free_spis(gateway.first_spi);
            }
            !ends
        });
    }

    fn renew_secret<S: System>(
        &mut self,
        around: &mut Around<'_, S>,
        number: u32,
    ) -> Result<(), Stop> {
        let secret = around.secret()?;
        let outcome = self
            .gateway(number)
            .map(|gateway| gateway.core.new_secret(&secret));
        if let Some(Outcome::Refused { code }) = outcome {
            self.note_refusal(around, "a new secret", code);
        }
        Ok(())
    }

    /// Gives a gateway a command that asks the peer something, at the moment of now.
    fn request<S: System>(
        &mut self,
        around: &mut Around<'_, S>,
        order: Order,
        number: u32,
        request: Request,
    ) -> Result<(), Stop> {
        self.tell_time(around)?;
        let fresh = around.fresh()?;
        let outcome = match self.gateway(number) {
            Some(gateway) => gateway.core.order(request, fresh),
            None => Outcome::Refused { code: NO_GATEWAY },
        };
        match outcome {
            Outcome::Request { ike, octets } => {
                if let Request::Start { entry } | Request::Child { entry, .. } = request {
                    if let Some(gateway) = self.gateway(number) {
                        gateway.asked.insert(ike, entry);
                    }
                }
                self.send_to_peer(around, &octets);
                if let Request::Start { .. } = request {
                    let association = AssociationName {
                        gateway: number,
                        ike,
                    };
                    self.peer.take(around.now, Event::Begun { association });
                }
            }
            Outcome::Refused { code } => {
                self.note_refusal(around, "a command", code);
                let refusal = refusal_of(code);
                self.peer
                    .take(around.now, Event::Refused { order, refusal });
            }
            // Nothing else comes of a command to ask.
            _ => {}
        }
        Ok(())
    }
}
