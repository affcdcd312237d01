//! Waiting at a replacement by the peer (RFC 7296, section 2.8).
//!
//! The end that answers a request for a Child SA has the child at once, the end that
//! asked has it only with the answer. What goes out by it in between is lost, so
//! packets wait until the peer shows that it has the child.

use super::name::ChildName;
use super::order::Order;
use std::collections::VecDeque;

#[derive(Clone, Debug, PartialEq, Eq)]
struct Hold {
    entry: u32,
    child: ChildName,
    until: u64,
}

/// The entries whose packets wait.
#[derive(Clone, Debug, Default, PartialEq, Eq)]
pub(super) struct Holds {
    held: Vec<Hold>,
}

impl Holds {
    /// Lets packets of an entry wait for the peer to have a Child SA.
    pub(super) fn hold(
        &mut self,
        entry: u32,
        child: ChildName,
        until: u64,
        orders: &mut VecDeque<Order>,
    ) {
        if let Some(hold) = self.held.iter_mut().find(|hold| hold.entry == entry) {
            hold.child = child;
            return;
        }
        self.held.push(Hold {
            entry,
            child,
            until,
        });
        orders.push_back(Order::Hold { entry });
    }

    /// Something came by a Child SA, or it is gone.
    pub(super) fn release_child(&mut self, child: ChildName, orders: &mut VecDeque<Order>) {
        self.release(|hold| hold.child == child, orders);
    }

    /// The peer's next request came, or the daemon ends.
    pub(super) fn release_all(&mut self, orders: &mut VecDeque<Order>) {
        self.release(|_| true, orders);
    }

    /// Time passed.
    pub(super) fn release_due(&mut self, now: u64, orders: &mut VecDeque<Order>) {
        self.release(|hold| hold.until <= now, orders);
    }

    /// The moments at which packets wait no more.
    pub(super) fn moments(&self) -> impl Iterator<Item = u64> + '_ {
        self.held.iter().map(|hold| hold.until)
    }

    fn release(&mut self, is_over: impl Fn(&Hold) -> bool, orders: &mut VecDeque<Order>) {
        self.held.retain(|hold| {
            let over = is_over(hold);
            if over {
                orders.push_back(Order::Release { entry: hold.entry });
            }
            !over
        });
    }
}
