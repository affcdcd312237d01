//! How IKE SAs and Child SAs are named.

/// An IKE SA of one of this peer's gateways.
#[derive(Clone, Copy, Debug, PartialEq, Eq, PartialOrd, Ord)]
pub struct AssociationName {
    /// The gateway's number, as [`Order::OpenGateway`](super::Order) gave it.
    pub gateway: u32,
    /// The IKE SA's serial in that gateway.
    pub ike: u32,
}

/// A Child SA of one of this peer's gateways.
#[derive(Clone, Copy, Debug, PartialEq, Eq, PartialOrd, Ord)]
pub struct ChildName {
    /// The gateway's number, as [`Order::OpenGateway`](super::Order) gave it.
    pub gateway: u32,
    /// The Child SA's serial in that gateway's table.
    pub child: u32,
}

/// What is told of a Child SA that was just made.
#[derive(Clone, Copy, Debug, PartialEq, Eq)]
pub struct NewChild {
    /// Its serial in the gateway's table.
    pub child: u32,
    /// The place of the policy's entry whose flows it carries, from 0.
    pub entry: u32,
    /// Whether its numbers have 64 bits; else they have 32.
    pub extended: bool,
}
