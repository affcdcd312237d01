//! Addresses, prefixes and ranges.

use super::fault::ConfigFault;
use super::table::Value;
use std::net::{IpAddr, Ipv4Addr, Ipv6Addr};

/// A range of addresses of one family, both ends included.
#[derive(Clone, Copy, Debug, PartialEq, Eq)]
pub enum Range {
    /// Of IPv4.
    V4(Ipv4Addr, Ipv4Addr),
    /// Of IPv6.
    V6(Ipv6Addr, Ipv6Addr),
}

/// An address with the length of its network's prefix in bits.
#[derive(Clone, Copy, Debug, PartialEq, Eq)]
pub struct Prefix {
    /// The address.
    pub address: IpAddr,
    /// The prefix's length, in bits.
    pub length: u8,
}

impl Range {
    /// Whether two ranges are of one family.
    pub fn same_family(&self, other: &Range) -> bool {
        matches!(self, Range::V4(..)) == matches!(other, Range::V4(..))
    }
}

impl Prefix {
    /// The network, by its first address.
    pub fn network(self) -> Prefix {
        let address = match self.ends() {
            Range::V4(first, _) => IpAddr::V4(first),
            Range::V6(first, _) => IpAddr::V6(first),
        };
        Prefix { address, ..self }
    }

    /// Whether an address is one of the network's.
    pub fn holds(self, address: IpAddr) -> bool {
        match (self.ends(), address) {
            (Range::V4(first, last), IpAddr::V4(address)) => (first..=last).contains(&address),
            (Range::V6(first, last), IpAddr::V6(address)) => (first..=last).contains(&address),
            _ => false,
        }
    }

    /// The first and the last address of the network.
    fn ends(self) -> Range {
        match self.address {
            IpAddr::V4(address) => {
                let hosts = u32::MAX.checked_shr(u32::from(self.length)).unwrap_or(0);
                let bits = u32::from(address);
                Range::V4((bits & !hosts).into(), (bits | hosts).into())
            }
            IpAddr::V6(address) => {
                let hosts = u128::MAX.checked_shr(u32::from(self.length)).unwrap_or(0);
                let bits = u128::from(address);
                Range::V6((bits & !hosts).into(), (bits | hosts).into())
            }
        }
    }
}

const RANGE: &str = "a prefix as \"10.0.0.0/24\", a range as \"10.0.0.1-10.0.0.9\", or an address";
const PREFIX: &str = "an address with the length of its prefix, as \"10.0.0.1/24\"";

/// A prefix, a range or an address.
pub(super) fn read_range(value: &Value<'_>) -> Result<Range, ConfigFault> {
    let text = value.text(RANGE)?;
    if let Some((low, high)) = text.split_once('-') {
        return range_between(low, high)
            .ok_or_else(|| value.fault(format!("{RANGE}, whose end isn't below its start")));
    }
    if text.contains('/') {
        return read_network(value).map(Prefix::ends);
    }
    let address: IpAddr = text.parse().map_err(|_| value.fault(RANGE))?;
    Ok(match address {
        IpAddr::V4(address) => Range::V4(address, address),
        IpAddr::V6(address) => Range::V6(address, address),
    })
}

fn range_between(low: &str, high: &str) -> Option<Range> {
    let low: IpAddr = low.trim().parse().ok()?;
    let high: IpAddr = high.trim().parse().ok()?;
    match (low, high) {
        (IpAddr::V4(low), IpAddr::V4(high)) if low <= high => Some(Range::V4(low, high)),
        (IpAddr::V6(low), IpAddr::V6(high)) if low <= high => Some(Range::V6(low, high)),
        _ => None,
    }
}

/// An address with the length of its network's prefix.
pub(super) fn read_prefix(value: &Value<'_>) -> Result<Prefix, ConfigFault> {
    let text = value.text(PREFIX)?;
    parse_prefix(text).ok_or_else(|| value.fault(PREFIX))
}

/// A network: its bits behind the prefix are zero.
pub(super) fn read_network(value: &Value<'_>) -> Result<Prefix, ConfigFault> {
    let prefix = read_prefix(value)?;
    let first = prefix.network().address;
    if prefix.address == first {
        Ok(prefix)
    } else {
        let length = prefix.length;
        Err(value.fault(format!("the network's first address, \"{first}/{length}\"")))
    }
}

fn parse_prefix(text: &str) -> Option<Prefix> {
    let (address, length) = text.split_once('/')?;
    let address: IpAddr = address.parse().ok()?;
    let longest = if address.is_ipv4() { 32 } else { 128 };
    let digits = !length.is_empty() && length.bytes().all(|octet| octet.is_ascii_digit());
    let length: u8 = length.parse().ok().filter(|_| digits)?;
    (length <= longest).then_some(Prefix { address, length })
}
