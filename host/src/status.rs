//! The status: what the daemon tells of itself, as JSON and as a table.

use serde::{Deserialize, Serialize};
use std::fmt::{self, Write};
use std::net::Ipv4Addr;

/// What the daemon tells of itself. Times are seconds.
#[derive(Clone, Debug, PartialEq, Eq, Serialize, Deserialize)]
pub struct Status {
    /// The daemon's version.
    pub version: String,
    /// This end's address outside.
    pub local: Ipv4Addr,
    /// For how long it has run.
    pub running: u64,
    /// Whether it ends.
    pub ending: bool,
    /// What is counted of no peer.
    pub unclaimed: Unclaimed,
    /// The peers.
    pub peers: Vec<PeerStatus>,
}

/// What is counted of no peer.
#[derive(Clone, Debug, PartialEq, Eq, Serialize, Deserialize)]
pub struct Unclaimed {
    /// Datagrams of IKE from addresses of no peer.
    pub strangers: u64,
    /// The last of these addresses.
    pub last_stranger: Option<Ipv4Addr>,
    /// ESP packets with an SPI of no gateway.
    pub unknown_spis: u64,
    /// What came as protocol 50 and is no ESP packet.
    pub malformed: u64,
    /// Errors of the sockets when they were read.
    pub unread: u64,
}

/// One peer.
#[derive(Clone, Debug, PartialEq, Eq, Serialize, Deserialize)]
pub struct PeerStatus {
    /// Its name.
    pub name: String,
    /// Its address outside.
    pub address: Ipv4Addr,
    /// Whether this end begins IKE SAs.
    pub begins: bool,
    /// For how long an IKE SA has stood, if one does, of the gateway that packets go out by.
    pub up: Option<u64>,
    /// The entries that protect, and those of them that a Child SA carries.
    pub entries: u64,
    /// See `entries`.
    pub carried: u64,
    /// How long ago the peer was asked whether it is there.
    pub last_probe: Option<u64>,
    /// The interface to the inside, if the configuration has one.
    pub interface: Option<Interface>,
    /// The IKE SAs.
    pub associations: Vec<Association>,
    /// The Child SAs.
    pub children: Vec<Child>,
    /// What was counted.
    pub counters: Counters,
    /// What the core refused.
    pub refusals: Vec<Refusal>,
}

/// An interface.
#[derive(Clone, Debug, PartialEq, Eq, Serialize, Deserialize)]
pub struct Interface {
    /// Its name.
    pub name: String,
    /// Whether it is there.
    pub there: bool,
    /// The MTU of packets outside.
    pub outer_mtu: u16,
    /// Whether packets wait for the peer to have a new Child SA.
    pub waiting: bool,
}

/// An IKE SA.
#[derive(Clone, Debug, PartialEq, Eq, Serialize, Deserialize)]
pub struct Association {
    /// The gateway that it is of, and its serial there.
    pub gateway: u32,
    /// See `gateway`.
    pub serial: u32,
    /// Whether this end began it.
    pub begun_here: bool,
    /// `beginning`, `established` or `closed`.
    pub phase: String,
    /// For how long it has been established.
    pub since: Option<u64>,
    /// The SPI of the end that began it, in hexadecimal digits.
    pub spi_initiator: String,
    /// The SPI of the other end.
    pub spi_responder: String,
}

/// A Child SA.
#[derive(Clone, Debug, PartialEq, Eq, Serialize, Deserialize)]
pub struct Child {
    /// The gateway that it is of, and its serial there.
    pub gateway: u32,
    /// See `gateway`.
    pub serial: u32,
    /// The serial of its IKE SA.
    pub association: u32,
    /// The place of the policy's entry that it carries, if it is known.
    pub entry: Option<u32>,
    /// The SPI by which packets come, in hexadecimal digits.
    pub spi_in: String,
    /// The SPI by which packets go out.
    pub spi_out: String,
    /// Whether packets go out by it.
    pub live: bool,
    /// Whether its numbers have 64 bits.
    pub extended: bool,
    /// For how long it has been there.
    pub since: u64,
    /// The last number sent.
    pub last_sent: u64,
    /// The greatest number taken.
    pub greatest_taken: u64,
    /// Packets that the system took to send, or that were opened, and the octets in them.
    pub packets_out: u64,
    /// See `packets_out`.
    pub packets_in: u64,
    /// See `packets_out`.
    pub octets_out: u64,
    /// See `packets_out`.
    pub octets_in: u64,
    /// How long ago something came by it.
    pub last_in: Option<u64>,
}

/// What was counted of a peer.
#[derive(Clone, Debug, Default, PartialEq, Eq, Serialize, Deserialize)]
pub struct Counters {
    /// Datagrams of IKE that came, and that went out.
    pub ike_in: u64,
    /// See `ike_in`.
    pub ike_out: u64,
    /// First requests that came too often, and weren't let in.
    pub first_requests_limited: u64,
    /// ESP packets that were opened, and those that the system took to send.
    pub esp_in: u64,
    /// See `esp_in`.
    pub esp_out: u64,
    /// The octets of the packets in them.
    pub octets_in: u64,
    /// See `octets_in`.
    pub octets_out: u64,
    /// ESP packets that carried nothing.
    pub dummies: u64,
    /// ESP packets that were kept for a Child SA that was about to be made.
    pub kept: u64,
    /// Packets going out that the policy discards.
    pub discarded: u64,
    /// Packets going out that the policy bypasses: they don't belong to the interface.
    pub bypassed: u64,
    /// Packets that came and met congestion that their transport can't be told of.
    pub congested: u64,
    /// Packets going out that were too long for the path.
    pub too_long: u64,
    /// What the interface gave that is no packet.
    pub malformed: u64,
    /// Datagrams of IKE that the system didn't send.
    pub unsent_ike: u64,
    /// ESP packets that the system didn't send.
    pub unsent_esp: u64,
    /// Packets that the interface didn't take, or that came while there was none.
    pub unwritten: u64,
    /// Errors of reading the interface.
    pub unread: u64,
    /// Packets going out for which there was no gateway.
    pub uncarried: u64,
    /// How often the interface went.
    pub interfaces_gone: u64,
}

/// What the core refused for one reason.
#[derive(Clone, Debug, PartialEq, Eq, Serialize, Deserialize)]
pub struct Refusal {
    /// The E number.
    pub number: u32,
    /// What it says.
    pub words: String,
    /// How often.
    pub count: u64,
    /// How long ago the last time was.
    pub last: u64,
}

impl Status {
    /// As JSON, with a line end.
    pub fn to_json(&self) -> String {
        // Of such a tree of numbers and texts each is JSON.
        let json = serde_json::to_string(self);
        json.unwrap_or_default() + "\n"
    }

    /// Of JSON.
    pub fn of_json(json: &str) -> Result<Status, serde_json::Error> {
        serde_json::from_str(json)
    }
}

impl fmt::Display for Status {
    fn fmt(&self, formatter: &mut fmt::Formatter<'_>) -> fmt::Result {
        let ending = if self.ending { ", ending" } else { "" };
        writeln!(
            formatter,
            "sukperind {} at {}, running for {}{ending}",
            self.version,
            self.local,
            span(self.running)
        )?;
        let none = &self.unclaimed;
        if none.strangers > 0 {
            let last = none.last_stranger;
            let last = last.map_or(String::new(), |address| format!(", last {address}"));
            writeln!(formatter, "  strangers: {}{last}", none.strangers)?;
        }
        for (count, what) in [
            (none.unknown_spis, "ESP packets with an SPI of no gateway"),
            (none.malformed, "packets of protocol 50 that are no ESP"),
            (none.unread, "errors of sockets"),
        ] {
            if count > 0 {
                writeln!(formatter, "  {what}: {count}")?;
            }
        }
        self.peers.iter().try_for_each(|peer| peer.write(formatter))
    }
}

impl PeerStatus {
    fn write(&self, out: &mut fmt::Formatter<'_>) -> fmt::Result {
        let state = match self.up {
            Some(up) => format!("up for {}", span(up)),
            None => "down".to_string(),
        };
        writeln!(
            out,
            "\npeer {} ({}): {state}, {} of {} entries carried",
            self.name, self.address, self.carried, self.entries
        )?;
        if let Some(interface) = &self.interface {
            let there = if interface.there {
                "there"
            } else {
                "not there"
            };
            let waiting = if interface.waiting {
                ", packets wait"
            } else {
                ""
            };
            writeln!(
                out,
                "  interface {}: {there}, outer MTU {}{waiting}",
                interface.name, interface.outer_mtu
            )?;
        }
        if let Some(ago) = self.last_probe {
            writeln!(out, "  last probe: {} ago", span(ago))?;
        }
        if !self.associations.is_empty() {
            writeln!(
                out,
                "  {:<11} {:<12} {:<8} {:<9} SPIs",
                "IKE SA", "phase", "begun", "for"
            )?;
        }
        for association in &self.associations {
            let begun = if association.begun_here {
                "here"
            } else {
                "there"
            };
            writeln!(
                out,
                "  {:<11} {:<12} {begun:<8} {:<9} {} {}",
                format!("{}.{}", association.gateway, association.serial),
                association.phase,
                association.since.map_or(String::from("-"), span),
                association.spi_initiator,
                association.spi_responder,
            )?;
        }
        if !self.children.is_empty() {
            writeln!(
                out,
                "  {:<11} {:<6} {:<9} {:>12} {:>12} {:>14} {:>14}  SPIs in, out",
                "Child SA", "entry", "for", "last sent", "last taken", "octets out", "octets in"
            )?;
        }
        for child in &self.children {
            let mut name = format!("{}.{}", child.gateway, child.serial);
            if !child.live {
                name.push_str(" ends");
            }
            writeln!(
                out,
                "  {name:<11} {:<6} {:<9} {:>12} {:>12} {:>14} {:>14}  {} {}",
                child
                    .entry
                    .map_or(String::from("-"), |entry| entry.to_string()),
                span(child.since),
                child.last_sent,
                child.greatest_taken,
                child.octets_out,
                child.octets_in,
                child.spi_in,
                child.spi_out,
            )?;
        }
        self.write_counters(out)
    }

    fn write_counters(&self, out: &mut fmt::Formatter<'_>) -> fmt::Result {
        let counters = &self.counters;
        writeln!(
            out,
            "  packets: {} out, {} in; octets: {} out, {} in; IKE: {} out, {} in",
            counters.esp_out,
            counters.esp_in,
            counters.octets_out,
            counters.octets_in,
            counters.ike_out,
            counters.ike_in,
        )?;
        let mut rare = String::new();
        for (count, what) in [
            (counters.first_requests_limited, "first requests not let in"),
            (counters.dummies, "dummy packets"),
            (counters.kept, "packets kept for a new Child SA"),
            (counters.discarded, "discarded by the policy"),
            (counters.bypassed, "bypassed by the policy, not sent on"),
            (counters.congested, "dropped for congestion"),
            (counters.too_long, "too long for the path"),
            (counters.malformed, "no packets"),
            (counters.unsent_ike, "IKE not sent"),
            (counters.unsent_esp, "packets not sent"),
            (counters.unwritten, "packets that the interface didn't take"),
            (counters.unread, "errors of reading the interface"),
            (counters.uncarried, "packets without a gateway"),
            (counters.interfaces_gone, "times the interface went"),
        ] {
            if count > 0 {
                let comma = if rare.is_empty() { "" } else { ", " };
                write!(rare, "{comma}{count} {what}")?;
            }
        }
        if !rare.is_empty() {
            writeln!(out, "  {rare}")?;
        }
        for refusal in &self.refusals {
            writeln!(
                out,
                "  refused: {} times E{}, {}, last {} ago",
                refusal.count,
                refusal.number,
                refusal.words,
                span(refusal.last)
            )?;
        }
        Ok(())
    }
}

/// Seconds in words: `59s`, `1m0s`, `23h59m`, `12d3h`.
fn span(seconds: u64) -> String {
    match seconds {
        0..=59 => format!("{seconds}s"),
        60..=3_599 => format!("{}m{}s", seconds / 60, seconds % 60),
        3_600..=86_399 => format!("{}h{}m", seconds / 3_600, seconds % 3_600 / 60),
        _ => format!("{}d{}h", seconds / 86_400, seconds % 86_400 / 3_600),
    }
}

#[cfg(test)]
mod tests {
    use super::span;

    #[test]
    fn spans_have_two_parts_at_most() {
        let spans = [0, 59, 60, 3_599, 3_600, 86_399, 86_400, 1_000_000].map(span);
        let expected = [
            "0s", "59s", "1m0s", "59m59s", "1h0m", "23h59m", "1d0h", "11d13h",
        ];
        assert_eq!(spans, expected);
    }
}
