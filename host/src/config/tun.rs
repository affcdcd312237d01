//! The interface to the inside.

use super::address::{read_network, read_prefix, Prefix, Range};
use super::entry::{Action, Entry};
use super::fault::ConfigFault;
use super::table::Value;

/// What a packet grows by at most under ESP, with IPv4 outside, in octets.
const GROWTH: u16 = 49;

/// The outer MTU where none is told, in octets.
const OUTER_MTU: u16 = 1_500;

/// The longest packet that the core takes, in octets.
const LONGEST: u16 = 16_384;

/// The least MTU inside, in octets.
const LEAST: u16 = 576;

/// The least MTU of a link that carries IPv6 (RFC 8200 section 5), in octets: below it Linux
/// takes IPv6 away from the interface.
const LEAST_V6: u16 = 1_280;

/// A TUN interface.
#[derive(Clone, Debug, PartialEq, Eq)]
pub struct Tun {
    /// Its name.
    pub name: String,
    /// Its addresses.
    pub addresses: Vec<Prefix>,
    /// The networks that are reached through it.
    pub routes: Vec<Prefix>,
    /// Its MTU, in octets.
    pub mtu: u16,
}

const KEYS: &str = "name, addresses, routes, mtu, outer_mtu";
const NAME: &str = "a name of 1 to 15 letters, digits, -, _ and .";

/// Reads the interface of a peer with this policy.
pub(super) fn read_tun(value: &Value<'_>, policy: &[Entry]) -> Result<Tun, ConfigFault> {
    let mut table = value.table("a table [peers.tun]")?;
    let name = read_name(&table.required("name", NAME)?)?;
    let addresses = match table.optional("addresses") {
        Some(value) => read_all(&value, read_prefix)?,
        None => Vec::new(),
    };
    let routes = match table.optional("routes") {
        Some(value) => read_all(&value, read_network)?,
        None => Vec::new(),
    };
    let protects_v6 =
        |entry: &Entry| entry.action == Action::Protect && matches!(entry.local, Range::V6(..));
    let mut prefixes = addresses.iter().chain(&routes);
    let with_v6 = prefixes.any(|prefix| prefix.address.is_ipv6()) || policy.iter().any(protects_v6);
    let (least, why) = match with_v6 {
        true => (LEAST_V6, ", since there is IPv6 inside"),
        false => (LEAST, ""),
    };
    let outer = match table.optional("outer_mtu") {
        Some(value) => read_mtu(&value, least + GROWTH, u16::MAX, why)?,
        None => OUTER_MTU,
    };
    let most = (outer - GROWTH).min(LONGEST);
    let mtu = match table.optional("mtu") {
        // Above this an outer packet would have to be cut, or the core takes none.
        Some(value) => read_mtu(&value, least, most, why)?,
        None => most,
    };
    table.finish(KEYS)?;
    Ok(Tun {
        name,
        addresses,
        routes,
        mtu,
    })
}

fn read_mtu(value: &Value<'_>, least: u16, most: u16, why: &str) -> Result<u16, ConfigFault> {
    let expected = format!("a whole number from {least} to {most}{why}");
    let number = value.whole(i64::from(least)..=i64::from(most));
    number
        .ok()
        .and_then(|number| u16::try_from(number).ok())
        .ok_or_else(|| value.fault(expected))
}

fn read_name(value: &Value<'_>) -> Result<String, ConfigFault> {
    let text = value.text(NAME)?;
    let fits = |octet: u8| octet.is_ascii_alphanumeric() || b"-_.".contains(&octet);
    let dots = text.bytes().all(|octet| octet == b'.');
    if (1..=15).contains(&text.len()) && text.bytes().all(fits) && !dots {
        Ok(text.to_string())
    } else {
        Err(value.fault(NAME))
    }
}

fn read_all(
    value: &Value<'_>,
    read: impl Fn(&Value<'_>) -> Result<Prefix, ConfigFault>,
) -> Result<Vec<Prefix>, ConfigFault> {
    let list = value.list("a list of prefixes as [\"10.0.0.0/24\"]")?;
    list.iter().map(read).collect()
}
