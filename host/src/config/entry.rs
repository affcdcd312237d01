//! The entries of a policy.

use super::address::{read_range, Range};
use super::fault::ConfigFault;
use super::table::{Table, Value};
use super::tree::Node;

/// What is done with a flow (RFC 4301, section 4.4.1).
#[derive(Clone, Copy, Debug, PartialEq, Eq)]
pub enum Action {
    /// It goes through a Child SA.
    Protect,
    /// It goes in the clear.
    Bypass,
    /// It doesn't go.
    Discard,
}

/// One entry. The first that holds a flow decides.
#[derive(Clone, Copy, Debug, PartialEq, Eq)]
pub struct Entry {
    /// What is done.
    pub action: Action,
    /// The IP protocol, 0 for any.
    pub protocol: u8,
    /// This side's addresses.
    pub local: Range,
    /// The peer's side's addresses, of the same family.
    pub remote: Range,
    /// This side's ports, both ends included.
    pub local_ports: (u16, u16),
    /// The peer's side's ports, both ends included.
    pub remote_ports: (u16, u16),
}

/// The ports of an entry that tells none apart.
const ALL_PORTS: (u16, u16) = (0, u16::MAX);

const ACTIONS: &str = "\"protect\", \"bypass\" or \"discard\"";
const PROTOCOLS: &str =
    "a protocol from 0 (any) to 255, or \"any\", \"icmp\", \"tcp\", \"udp\" or \"icmpv6\"";
const PORTS: &str = "a port from 0 to 65535, a range as \"1024-65535\", or \"any\"";
const KEYS: &str = "action, local, remote, protocol, local_ports, remote_ports";

pub(super) fn read_entry(value: &Value<'_>) -> Result<Entry, ConfigFault> {
    let mut table = value.table("a table [[peers.entries]]")?;
    let action = read_action(&table.required("action", ACTIONS)?)?;
    let local = read_range(&table.required("local", "this side's addresses")?)?;
    let remote_value = table.required("remote", "the peer's side's addresses")?;
    let remote = read_range(&remote_value)?;
    if !local.same_family(&remote) {
        return Err(remote_value.fault("addresses of the same family as local"));
    }
    let protocol = match table.optional("protocol") {
        Some(value) => read_protocol(&value)?,
        None => 0,
    };
    let local_ports = read_ports_of(&mut table, "local_ports", protocol)?;
    let remote_ports = read_ports_of(&mut table, "remote_ports", protocol)?;
    table.finish(KEYS)?;
    Ok(Entry {
        action,
        protocol,
        local,
        remote,
        local_ports,
        remote_ports,
    })
}

fn read_action(value: &Value<'_>) -> Result<Action, ConfigFault> {
    match value.text(ACTIONS)? {
        "protect" => Ok(Action::Protect),
        "bypass" => Ok(Action::Bypass),
        "discard" => Ok(Action::Discard),
        _ => Err(value.fault(ACTIONS)),
    }
}

fn read_protocol(value: &Value<'_>) -> Result<u8, ConfigFault> {
    match &value.node {
        Node::Text(name) => match name.as_str() {
            "any" => Ok(0),
            "icmp" => Ok(1),
            "tcp" => Ok(6),
            "udp" => Ok(17),
            "icmpv6" => Ok(58),
            _ => Err(value.fault(PROTOCOLS)),
        },
        Node::Whole(number) => u8::try_from(*number).map_err(|_| value.fault(PROTOCOLS)),
        _ => Err(value.fault(PROTOCOLS)),
    }
}

/// The ports, if any are told. The core reads ports of TCP and UDP alone: an entry of
/// another protocol with a part of the ports would hold nothing.
fn read_ports_of(
    table: &mut Table<'_>,
    key: &str,
    protocol: u8,
) -> Result<(u16, u16), ConfigFault> {
    let Some(value) = table.optional(key) else {
        return Ok(ALL_PORTS);
    };
    let ports = read_ports(&value)?;
    let has_ports = [0, 6, 17].contains(&protocol);
    if has_ports || ports == ALL_PORTS {
        Ok(ports)
    } else {
        Err(value.fault(format!("no ports, since protocol {protocol} has none")))
    }
}

fn read_ports(value: &Value<'_>) -> Result<(u16, u16), ConfigFault> {
    let ports = match &value.node {
        Node::Whole(port) => u16::try_from(*port).ok().map(|port| (port, port)),
        Node::Text(text) if text == "any" => Some(ALL_PORTS),
        Node::Text(text) => parse_ports(text),
        _ => None,
    };
    ports.ok_or_else(|| value.fault(PORTS))
}

fn parse_ports(text: &str) -> Option<(u16, u16)> {
    let (low, high) = text.split_once('-').unwrap_or((text, text));
    let (low, high) = (low.trim().parse().ok()?, high.trim().parse().ok()?);
    (low <= high).then_some((low, high))
}
