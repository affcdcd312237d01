//! ESP packets that came.

use super::around::Around;
use super::gateway::Gateway;
use super::refusals::UNKNOWN;
use super::site::{Inside, Site, Trouble};
use super::{Daemon, Stop};
use crate::core::{Core, Passage};
use crate::path::offload::VirtioHeader;
use crate::path::outer::{leave_tunnel, Datagram, Ecn, Left};
use crate::peer::{ChildName, Event, Order};
use crate::system::System;
use std::collections::BTreeMap;
use std::io;
use std::ops::Range;

/// ESP packets that one gateway is given together.
#[derive(Debug, Default)]
struct List {
    places: Vec<Range<usize>>,
    marks: Vec<Ecn>,
}

/// What one Child SA took of a list.
#[derive(Clone, Copy, Debug, Default)]
pub(super) struct Share {
    pub(super) number: u64,
    pub(super) packets: u64,
    pub(super) octets: u64,
}

/// Whether packets came for the first time, or were kept and are given again.
#[derive(Clone, Copy, Debug, PartialEq, Eq)]
enum Time {
    First,
    Again,
}

impl<C: Core> Daemon<C> {
    /// Takes a list of ESP packets, each by the gateway that gave its SPI.
    pub(super) fn take_esp<S: System>(&mut self, system: &mut S) -> Result<(), Stop> {
        self.esp.clear();
        if let Err(error) = system.receive_esp(&mut self.esp) {
            self.note_unread(system, "the raw socket", &error);
        }
        let mut lists: BTreeMap<(usize, u32), List> = BTreeMap::new();
        for received in self.esp.received() {
            let octets = &self.esp.octets()[received.place.clone()];
            let Ok(datagram) = Datagram::of(octets) else {
                self.unclaimed.malformed += 1;
                continue;
            };
            let [a, b, c, d, ..] = *datagram.esp else {
                continue;
            };
            let spi = u32::from_be_bytes([a, b, c, d]);
            let found = self.sites.iter().enumerate().find_map(|(place, site)| {
                let gateway = site.gateways.iter().find(|gateway| gateway.has_spi(spi))?;
                Some((place, gateway.number))
            });
            let Some(found) = found else {
                self.unclaimed.spis += 1;
                continue;
            };
            let list = lists.entry(found).or_default();
            let header = usize::from(octets[0] & 0xf) * 4;
            list.places
                .push(place_of(&received.place, header, datagram.esp));
            list.marks.push(datagram.ecn);
        }
        for ((place, number), list) in lists {
            let site = &mut self.sites[place];
            let mut around = Around::new(system, &mut self.shared);
            site.tell_time(&mut around)?;
            site.open_list(
                &mut around,
                number,
                self.esp.octets_mut(),
                &list,
                Time::First,
            )?;
        }
        Ok(())
    }
}

/// Where the ESP of a datagram is, whose IPv4 header has so many octets.
fn place_of(whole: &Range<usize>, header: usize, esp: &[u8]) -> Range<usize> {
    let start = whole.start + header;
    start..start + esp.len()
}

impl<C: Core> Site<C> {
    /// Gives a kept packet to its gateway once more.
    pub(super) fn give_again<S: System>(
        &mut self,
        around: &mut Around<'_, S>,
        mut octets: Vec<u8>,
    ) -> Result<(), Stop> {
        let [a, b, c, d, ..] = octets[..] else {
            return Ok(());
        };
        let spi = u32::from_be_bytes([a, b, c, d]);
        let of_spi = |gateway: &&Gateway<C>| gateway.has_spi(spi);
        let Some(number) = self.gateways.iter().find(of_spi).map(|found| found.number) else {
            return Ok(());
        };
        let mut list = List::default();
        list.places.push(0..octets.len());
        // The mark of its outer header isn't kept: it is one of few packets.
        list.marks.push(Ecn::NotEct);
        self.open_list(around, number, &mut octets, &list, Time::Again)
    }

    fn open_list<S: System>(
        &mut self,
        around: &mut Around<'_, S>,
        number: u32,
        octets: &mut [u8],
        list: &List,
        time: Time,
    ) -> Result<(), Stop> {
        let Some(mut buffers) = self.buffers.take() else {
            return Ok(());
        };
        buffers.passed.clear();
        if let Some(gateway) = self.gateway(number) {
            gateway.core.esp(octets, &list.places, &mut buffers.passed);
        }
        let mut shares: BTreeMap<u32, Share> = BTreeMap::new();
        let mut ups: Vec<Range<usize>> = Vec::new();
        let mut unknown: Vec<Vec<u8>> = Vec::new();
        let outcomes = buffers.passed.iter().zip(&list.places).zip(&list.marks);
        for ((passage, place), mark) in outcomes {
            match passage {
                Passage::Up {
                    child,
                    number,
                    place: up,
                } => {
                    shares.entry(*child).or_default().add(*number, up.len());
                    match leave_tunnel(&mut octets[up.clone()], *mark) {
                        Left::Dropped => self.counters.congested += 1,
                        Left::Passed { .. } | Left::NotIp => ups.push(up.clone()),
                    }
                }
                Passage::Dummy { child, number } => {
                    self.counters.dummies += 1;
                    shares.entry(*child).or_default().add(*number, 0);
                }
                Passage::Refused { code } => {
                    self.note_refusal(around, "an ESP packet", *code);
                    if *code == UNKNOWN && time == Time::First {
                        unknown.push(octets[place.clone()].to_vec());
                    }
                }
                Passage::Sealed { .. } | Passage::Clear | Passage::Discarded => {}
            }
        }
        let packets: Vec<&[u8]> = ups.iter().map(|up| &octets[up.clone()]).collect();
        buffers.joined.clear();
        match &mut self.inside {
            Inside::Open(joiner) => joiner.join(&packets, &mut buffers.joined),
            Inside::None | Inside::Gone(_) => self.counters.unwritten += packets.len() as u64,
        }
        for packet in buffers.joined.iter() {
            self.write_inside(around, packet);
        }
        self.buffers = Some(buffers);
        self.tell_opened(around, number, shares)?;
        for octets in unknown {
            self.keep(around, octets)?;
        }
        Ok(())
    }

    fn tell_opened<S: System>(
        &mut self,
        around: &mut Around<'_, S>,
        gateway: u32,
        shares: BTreeMap<u32, Share>,
    ) -> Result<(), Stop> {
        for (child, share) in shares {
            self.counters.esp_in += share.packets;
            self.counters.octets_in += share.octets;
            let now = around.now;
            let mut number = share.number;
            let carried = self
                .gateway(gateway)
                .and_then(|of| of.children.get_mut(&child));
            if let Some(carried) = carried {
                carried.taken = carried.taken.max(share.number);
                carried.packets_in += share.packets;
                carried.octets_in += share.octets;
                carried.last_in = Some(now);
                number = carried.taken;
            }
            let event = Event::Opened {
                child: ChildName { gateway, child },
                number,
                octets: share.octets,
            };
            self.tell(around, event)?;
        }
        Ok(())
    }

    /// A packet came by no Child SA. It may be one of a child that is about to be made.
    fn keep<S: System>(&mut self, around: &mut Around<'_, S>, octets: Vec<u8>) -> Result<(), Stop> {
        let packet = self.next_packet;
        self.next_packet += 1;
        self.peer.take(around.now, Event::UnknownSpi { packet });
        // Commands before the one to keep it can't be about it, but they come first.
        let mut octets = Some(octets);
        while let Some(order) = self.peer.next_order() {
            if order == (Order::Keep { packet }) {
                self.counters.kept += 1;
                if let Some(octets) = octets.take() {
                    self.kept.insert(packet, octets);
                }
            } else {
                self.obey(around, order)?;
            }
        }
        Ok(())
    }

    /// Writes what the interface is to have. A packet that it doesn't take is lost, as on
    /// any link.
    pub(super) fn write_inside<S: System>(&mut self, around: &mut Around<'_, S>, packet: &[u8]) {
        if !self.inside.is_open() {
            self.counters.unwritten += 1;
            return;
        }
        let result = around.system.write_inside(self.key(), packet);
        let Err(error) = result else { return };
        self.counters.unwritten += 1;
        // An interface that was set down takes nothing, by this word, and has lost its routes.
        let is_down = error.raw_os_error() == Some(libc::EIO);
        if is_down || is_gone(&error) {
            self.lose_inside(around, &error);
        } else {
            let what = format!("the interface takes no packet: {error}");
            self.note_trouble(around, Trouble::Unwritten, &what);
        }
    }

    /// Writes a packet of this end's own making.
    pub(super) fn write_alone<S: System>(&mut self, around: &mut Around<'_, S>, packet: &[u8]) {
        let mut octets = VirtioHeader::default().octets().to_vec();
        octets.extend_from_slice(packet);
        self.write_inside(around, &octets);
    }
}

impl Share {
    pub(super) fn add(&mut self, number: u64, octets: usize) {
        self.number = self.number.max(number);
        self.packets += 1;
        self.octets += octets as u64;
    }
}

/// Whether an error says that the interface is no more there (EBADFD, as the TUN device
/// has it, ENODEV, or that it was never opened).
pub(super) fn is_gone(error: &io::Error) -> bool {
    let codes = [libc::EBADFD, libc::ENODEV, libc::EBADF];
    let gone = error
        .raw_os_error()
        .is_some_and(|code| codes.contains(&code));
    gone || error.kind() == io::ErrorKind::NotConnected
}
