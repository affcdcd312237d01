//! One peer of the configuration.

use super::entry::{read_entry, Action, Entry};
use super::fault::ConfigFault;
use super::identity::{read_identity, Identity};
use super::secret::{read_secret, Secret};
use super::table::{Table, Value};
use super::timers::read_timers;
use super::tun::{read_tun, Tun};
use crate::peer::{Limits, Role, Settings, Timers};
use std::net::Ipv4Addr;
use std::path::Path;

/// The most entries that the core's policy takes.
const MOST_ENTRIES: usize = 256;

/// The keys of a peer.
const KEYS: &str = "name, address, begins, own_identity, peer_identity, secret_file, extended, window, blocks, entries, timers, tun";

/// One peer.
#[derive(Clone, Debug, PartialEq, Eq)]
pub struct PeerConfig {
    /// By which name logs and the status call it.
    pub name: String,
    /// Its address outside.
    pub address: Ipv4Addr,
    /// Whether this end begins IKE SAs.
    pub role: Role,
    /// Who this end is to it.
    pub own_identity: Identity,
    /// Who it is.
    pub peer_identity: Identity,
    /// What both ends prove themselves with.
    pub secret: Secret,
    /// Whether extended sequence numbers are allowed.
    pub extended: bool,
    /// How many requests this end takes at once, 1 to 16.
    pub window: u8,
    /// The blocks of replay windows, a power of two from 2 to 128.
    pub blocks: u32,
    /// The policy.
    pub entries: Vec<Entry>,
    /// The timers, in milliseconds.
    pub timers: Timers,
    /// The limits.
    pub limits: Limits,
    /// The interface to the inside, if the daemon is to make one.
    pub tun: Option<Tun>,
}

impl PeerConfig {
    /// How this peer is cared for.
    pub fn settings(&self) -> Settings {
        let protects = |(place, entry): (usize, &Entry)| {
            let place = u32::try_from(place).ok()?;
            (entry.action == Action::Protect).then_some(place)
        };
        Settings {
            role: self.role,
            entries: self
                .entries
                .iter()
                .enumerate()
                .filter_map(protects)
                .collect(),
            timers: self.timers,
            limits: self.limits,
        }
    }

    /// Whether another configuration of this peer asks for a gateway made anew: all
    /// but its name, role, timers, limits and interface is fixed when one is made. That
    /// this end's own address is another one is for the daemon to see: it binds to it.
    pub fn needs_new_gateway(&self, other: &PeerConfig) -> bool {
        let fixed = |peer: &PeerConfig| (peer.address, peer.extended, peer.window, peer.blocks);
        fixed(self) != fixed(other)
            || self.own_identity != other.own_identity
            || self.peer_identity != other.peer_identity
            || self.secret != other.secret
            || self.entries != other.entries
    }
}

pub(super) fn read_peer(value: &Value<'_>, folder: &Path) -> Result<PeerConfig, ConfigFault> {
    let mut table = value.table("a table [[peers]]")?;
    let name = read_name(&table.required("name", "a name for logs")?)?;
    let address = read_address(&table.required("address", IPV4)?)?;
    let role = read_role(&table.required("begins", BEGINS)?)?;
    let own_identity = read_identity(&table.required("own_identity", "who this end is")?)?;
    let peer_identity = read_identity(&table.required("peer_identity", "who the peer is")?)?;
    let secret = table.required("secret_file", "the path of a file with the secret")?;
    let secret = read_secret(&secret, folder)?;
    let extended = table.optional("extended");
    let extended = extended.map_or(Ok(true), |value| value.truth())?;
    let window = read_window(&mut table)?;
    let blocks = read_blocks(&mut table)?;
    let entries = read_entries(&table.required("entries", "tables [[peers.entries]]")?)?;
    let (timers, limits) = match table.optional("timers") {
        Some(value) => read_timers(&value)?,
        None => (Timers::DEFAULT, Limits::DEFAULT),
    };
    let tun = table
        .optional("tun")
        .map(|value| read_tun(&value, &entries))
        .transpose()?;
    table.finish(KEYS)?;
    Ok(PeerConfig {
        name,
        address,
        role,
        own_identity,
        peer_identity,
        secret,
        extended,
        window,
        blocks,
        entries,
        timers,
        limits,
        tun,
    })
}

/// What an address outside is. The core takes IPv4 outside alone.
pub(super) const IPV4: &str = "an IPv4 address as \"192.0.2.1\"";
const BEGINS: &str = "true at one end of the link and false at the other";

/// An address outside.
pub(super) fn read_address(value: &Value<'_>) -> Result<Ipv4Addr, ConfigFault> {
    let address: Ipv4Addr = value.text(IPV4)?.parse().map_err(|_| value.fault(IPV4))?;
    let of_one = !address.is_unspecified() && !address.is_multicast() && !address.is_broadcast();
    if of_one {
        Ok(address)
    } else {
        Err(value.fault(format!("{IPV4}, of one machine")))
    }
}

fn read_name(value: &Value<'_>) -> Result<String, ConfigFault> {
    let expected = "a name of 1 to 64 visible characters";
    let text = value.text(expected)?;
    let plain = text.bytes().all(|octet| octet.is_ascii_graphic());
    if plain && (1..=64).contains(&text.len()) {
        Ok(text.to_string())
    } else {
        Err(value.fault(expected))
    }
}

fn read_role(value: &Value<'_>) -> Result<Role, ConfigFault> {
    match value.truth() {
        Ok(true) => Ok(Role::Begins),
        Ok(false) => Ok(Role::Waits),
        Err(_) => Err(value.fault(BEGINS)),
    }
}

fn read_window(table: &mut Table<'_>) -> Result<u8, ConfigFault> {
    let Some(value) = table.optional("window") else {
        return Ok(1);
    };
    let window = value.whole(1..=16)?;
    u8::try_from(window).map_err(|_| value.fault("a whole number from 1 to 16"))
}

fn read_blocks(table: &mut Table<'_>) -> Result<u32, ConfigFault> {
    let Some(value) = table.optional("blocks") else {
        return Ok(2);
    };
    let expected = "a power of two from 2 to 128";
    let blocks = value.whole(2..=128).map_err(|_| value.fault(expected))?;
    u32::try_from(blocks)
        .ok()
        .filter(|blocks| blocks.is_power_of_two())
        .ok_or_else(|| value.fault(expected))
}

fn read_entries(value: &Value<'_>) -> Result<Vec<Entry>, ConfigFault> {
    let list = value.list("tables [[peers.entries]]")?;
    if let Some(surplus) = list.get(MOST_ENTRIES) {
        return Err(surplus.fault_found("256 entries at most", list.len().to_string()));
    }
    let entries: Vec<Entry> = list.iter().map(read_entry).collect::<Result<_, _>>()?;
    let protects = entries.iter().any(|entry| entry.action == Action::Protect);
    if protects {
        Ok(entries)
    } else {
        Err(value.fault_found("one entry at least that protects", "none"))
    }
}
