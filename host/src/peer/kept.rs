//! Packets that came by a Child SA before the answer that makes it here.

use super::order::Order;
use std::collections::VecDeque;

/// The most packets that are kept at once.
const KEPT_PACKETS: usize = 64;

/// The packets that are kept, by the daemon's numbers.
#[derive(Clone, Debug, Default, PartialEq, Eq)]
pub(super) struct Kept {
    packets: Vec<u64>,
    greatest: Option<u64>,
}

impl Kept {
    /// Keeps a packet, if there is room and it wasn't kept before: so each is given
    /// once more at most, and nobody can fill the memory with them.
    pub(super) fn keep(&mut self, packet: u64, orders: &mut VecDeque<Order>) {
        if self.greatest.is_some_and(|greatest| packet <= greatest) {
            return;
        }
        self.greatest = Some(packet);
        if self.packets.len() < KEPT_PACKETS {
            self.packets.push(packet);
            orders.push_back(Order::Keep { packet });
        }
    }

    /// A Child SA was made: each packet is given once more.
    pub(super) fn give_again(&mut self, orders: &mut VecDeque<Order>) {
        let packets = self.packets.drain(..);
        orders.extend(packets.map(|packet| Order::GiveAgain { packet }));
    }

    /// No Child SA is asked for any more.
    pub(super) fn forget(&mut self, orders: &mut VecDeque<Order>) {
        let packets = self.packets.drain(..);
        orders.extend(packets.map(|packet| Order::Forget { packet }));
    }
}
