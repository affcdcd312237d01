//! What `sukperind` is configured with.
//!
//! A configuration is a file of TOML; `etc/left.toml` and `etc/right.toml` are the two
//! ends of one link. Each fault tells file and line, what was expected there, and
//! what was found. Secrets are in files of their own, which their owner alone can
//! read.

mod address;
mod entry;
mod fault;
mod identity;
mod link;
mod secret;
mod table;
mod timers;
mod tree;
mod tun;

pub use address::{Prefix, Range};
pub use entry::{Action, Entry};
pub use fault::ConfigFault;
pub use identity::Identity;
pub use link::PeerConfig;
pub use secret::Secret;
pub use tun::Tun;

use link::{read_address, read_peer, IPV4};
use std::fs::{File, OpenOptions};
use std::io::{self, Read};
use std::net::{IpAddr, Ipv4Addr};
use std::os::unix::fs::OpenOptionsExt;
use std::path::Path;
use table::{Source, Table, Value};
use tree::Node;

/// A whole configuration.
#[derive(Clone, Debug, PartialEq, Eq)]
pub struct Config {
    /// This end's address outside.
    pub local: Ipv4Addr,
    /// The peers, one at least.
    pub peers: Vec<PeerConfig>,
}

impl Config {
    /// Reads a configuration, and the secrets that it names.
    pub fn read(file: &Path) -> Result<Config, ConfigFault> {
        let text = text_of(file).map_err(|error| ConfigFault {
            file: file.to_path_buf(),
            line: 0,
            key: "file".to_string(),
            expected: "a file of TOML in UTF-8".to_string(),
            found: error.to_string(),
        })?;
        let source = Source { file, text: &text };
        let folder = file.parent().unwrap_or(Path::new("."));
        read_config(parse(source)?, folder)
    }
}

/// Opens a file without waiting for anybody, as opening a FIFO would. What kind of file it
/// is, is judged when it is open, so that no other one can take its place between.
fn open_at_once(path: &Path) -> io::Result<File> {
    OpenOptions::new()
        .read(true)
        .custom_flags(libc::O_NONBLOCK)
        .open(path)
}

fn text_of(path: &Path) -> io::Result<String> {
    let mut file = open_at_once(path)?;
    if !file.metadata()?.is_file() {
        return Err(io::Error::other("what is no plain file"));
    }
    let mut text = String::new();
    file.read_to_string(&mut text)?;
    Ok(text)
}

/// The tree of the text.
fn parse(source: Source<'_>) -> Result<Table<'_>, ConfigFault> {
    let node: Node = toml::from_str(source.text).map_err(|error| {
        let line = error.line_col().map_or(0, |(line, _)| line);
        ConfigFault {
            file: source.file.to_path_buf(),
            line: line + 1,
            key: "text".to_string(),
            expected: "TOML without dates".to_string(),
            found: format!("a fault ({error})"),
        }
    })?;
    Table::whole(source, node)
}

fn read_config(mut table: Table<'_>, folder: &Path) -> Result<Config, ConfigFault> {
    let local_value = table.required("local", IPV4)?;
    let local = read_address(&local_value)?;
    let list = table.required("peers", "tables [[peers]]")?;
    let list = list.list("tables [[peers]]")?;
    table.finish("local, peers")?;
    let mut peers: Vec<PeerConfig> = Vec::new();
    for value in &list {
        let peer = read_peer(value, folder)?;
        refuse_same(value, local, &peers, &peer)?;
        peers.push(peer);
    }
    if peers.is_empty() {
        return Err(local_value.fault_found("one table [[peers]] at least", "none"));
    }
    // When all are known: a route may meet what stands before and what stands behind it.
    for (place, value) in list.iter().enumerate() {
        refuse_routes(value, local, &peers, place)?;
    }
    Ok(Config { local, peers })
}

/// Datagrams are told apart by their peer's address, logs by its name, and packets
/// by its interface: none may come twice.
fn refuse_same(
    value: &Value<'_>,
    local: Ipv4Addr,
    others: &[PeerConfig],
    peer: &PeerConfig,
) -> Result<(), ConfigFault> {
    let fault = |key: &str, expected: &str, found: String| {
        let mut fault = value.fault_found(expected, found);
        fault.key = format!("{}.{key}", value.key);
        Err(fault)
    };
    let address = peer.address;
    if address == local {
        return fault("address", "another address than local", address.to_string());
    }
    if others.iter().any(|other| other.address == address) {
        return fault(
            "address",
            "an address of no other peer",
            address.to_string(),
        );
    }
    if others.iter().any(|other| other.name == peer.name) {
        return fault("name", "a name of no other peer", peer.name.clone());
    }
    let name = peer.tun.as_ref().map(|tun| &tun.name);
    let same = |other: &PeerConfig| other.tun.as_ref().map(|tun| &tun.name) == name;
    match name {
        Some(name) if others.iter().any(same) => {
            fault("tun.name", "a name of no other interface", name.clone())
        }
        _ => Ok(()),
    }
}

/// A route that holds an outer address would lead the tunnel's own packets into the tunnel.
/// The kernel takes each route once.
fn refuse_routes(
    value: &Value<'_>,
    local: Ipv4Addr,
    peers: &[PeerConfig],
    place: usize,
) -> Result<(), ConfigFault> {
    let routes = |peer: &PeerConfig| peer.tun.iter().flat_map(|tun| tun.routes.clone()).collect();
    let own: Vec<Prefix> = routes(&peers[place]);
    for (number, route) in own.iter().enumerate() {
        let Prefix { address, length } = route;
        let fault = |expected: &str, found: String| {
            let at = route_at(value, number).unwrap_or_else(|| value.clone());
            Err(at.fault_found(expected, format!("\"{address}/{length}\"{found}")))
        };
        let outside = [local]
            .into_iter()
            .chain(peers.iter().map(|peer| peer.address));
        let held = outside.map(IpAddr::V4).find(|outer| route.holds(*outer));
        if let Some(outer) = held {
            let expected = "a network without the outer address of a peer or of this end";
            return fault(expected, format!(", which holds {outer}"));
        }
        if own[..number].contains(route) {
            return fault("each network once", ", again".to_string());
        }
        let mut before = peers[..place].iter();
        if let Some(other) = before.find(|other| routes(other).contains(route)) {
            let found = format!(", which peer {} has", other.name);
            return fault("a network of no other interface", found);
        }
    }
    Ok(())
}

/// A route of a peer's interface, as it stands in the text.
fn route_at<'a>(peer: &Value<'a>, number: usize) -> Option<Value<'a>> {
    let tun = peer.table("a table").ok()?.optional("tun")?;
    let routes = tun.table("a table").ok()?.optional("routes")?;
    routes.list("a list").ok()?.into_iter().nth(number)
}
