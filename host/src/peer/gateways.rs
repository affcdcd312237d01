//! The gateways of one peer: mostly one, and two while one takes over from another.

use super::order::Order;
use super::settings::Settings;
use std::collections::VecDeque;

/// A gateway that is open.
#[derive(Clone, Debug, PartialEq, Eq)]
struct Gateway {
    number: u32,
    spis: u32,
    secret_at: u64,
    /// Since when it has had no IKE SA.
    empty_since: Option<u64>,
}

/// The open gateways, the newest last. New IKE SAs are begun in the newest.
#[derive(Clone, Debug, Default, PartialEq, Eq)]
pub(super) struct Gateways {
    open: Vec<Gateway>,
    opened: u32,
    carrier: Option<u32>,
}

impl Gateways {
    /// The newest gateway's number.
    pub(super) fn newest(&self) -> u32 {
        self.opened.saturating_sub(1)
    }

    /// The gateway to which packets on their way out are given.
    pub(super) fn carrier(&self) -> Option<u32> {
        self.carrier
    }

    /// Whether another gateway than the newest carries packets.
    pub(super) fn is_changing(&self) -> bool {
        self.carrier != Some(self.newest())
    }

    /// Whether a newer gateway carries packets in place of this one.
    pub(super) fn is_outlived(&self, number: u32) -> bool {
        self.carrier.is_some_and(|carrier| number < carrier)
    }

    /// Opens the next gateway.
    pub(super) fn open(&mut self, now: u64, settings: &Settings, orders: &mut VecDeque<Order>) {
        let number = self.opened;
        self.opened = self.opened.saturating_add(1);
        self.open.push(Gateway {
            number,
            spis: 0,
            secret_at: now.saturating_add(settings.timers.secret),
            empty_since: None,
        });
        orders.push_back(Order::OpenGateway { gateway: number });
    }

    /// Lets the newest gateway carry packets.
    pub(super) fn carry_by_newest(&mut self, orders: &mut VecDeque<Order>) {
        let gateway = self.newest();
        if self.is_changing() {
            self.carrier = Some(gateway);
            orders.push_back(Order::CarryBy { gateway });
        }
    }

    /// A gateway gave one more SPI.
    pub(super) fn spend(&mut self, number: u32) {
        if let Some(gateway) = self.find(number) {
            gateway.spis = gateway.spis.saturating_add(1);
        }
    }

    /// A gateway has no SPI or serial left.
    pub(super) fn exhaust(&mut self, number: u32) {
        if let Some(gateway) = self.find(number) {
            gateway.spis = u32::MAX;
        }
    }

    /// Whether the newest gateway has so few SPIs left that another one is wanted.
    pub(super) fn is_spent(&self, settings: &Settings) -> bool {
        self.open
            .last()
            .is_some_and(|gateway| gateway.spis >= settings.limits.spis)
    }

    /// Gives new secrets where they are due.
    pub(super) fn renew_secrets(
        &mut self,
        now: u64,
        settings: &Settings,
        orders: &mut VecDeque<Order>,
    ) {
        for gateway in &mut self.open {
            if gateway.secret_at <= now {
                gateway.secret_at = now.saturating_add(settings.timers.secret);
                orders.push_back(Order::NewSecret {
                    gateway: gateway.number,
                });
            }
        }
    }

    /// Ends the gateways that have been without IKE SA for long enough. The
    /// newest stays, and so does the one that carries.
    pub(super) fn end_empty(
        &mut self,
        now: u64,
        settings: &Settings,
        has_association: impl Fn(u32) -> bool,
        orders: &mut VecDeque<Order>,
    ) {
        let newest = self.newest();
        let carrier = self.carrier;
        self.open.retain_mut(|gateway| {
            let stays = gateway.number == newest || Some(gateway.number) == carrier;
            if stays || has_association(gateway.number) {
                gateway.empty_since = None;
                return true;
            }
            let since = *gateway.empty_since.get_or_insert(now);
            let over = since.saturating_add(settings.timers.linger) <= now;
            if over {
                orders.push_back(Order::EndGateway {
                    gateway: gateway.number,
                });
            }
            !over
        });
    }

    /// The moments at which something is due.
    pub(super) fn moments<'a>(&'a self, settings: &'a Settings) -> impl Iterator<Item = u64> + 'a {
        let linger = settings.timers.linger;
        let ends = self
            .open
            .iter()
            .filter_map(move |gateway| gateway.empty_since?.checked_add(linger));
        self.open
            .iter()
            .map(|gateway| gateway.secret_at)
            .chain(ends)
    }

    fn find(&mut self, number: u32) -> Option<&mut Gateway> {
        self.open
            .iter_mut()
            .find(|gateway| gateway.number == number)
    }
}
