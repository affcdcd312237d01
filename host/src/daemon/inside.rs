//! Packets on their way out, from the interface to the peer.

use super::around::Around;
use super::esp::{is_gone, Share};
use super::refusals::NUMBERS_ENDED;
use super::site::{Buffers, Inside, Site, Trouble, MTU_LASTS};
use super::Stop;
use crate::core::{Core, Passage};
use crate::path::offload::cut;
use crate::path::outer::{fits, inner_mtu, too_big, OuterHeader, OVERHEAD};
use crate::peer::{ChildName, Event};
use crate::system::{EspPacket, System, LIST};
use std::collections::BTreeMap;
use std::io;
use std::ops::Range;

/// The most packets that one superpacket is cut into. One of 65,535 octets whose pieces
/// have the least size that TCP takes makes fewer.
const PIECES: usize = 1_024;

/// The least MTU of a path that is believed, in octets: inside, IPv6 sends no smaller packets
/// than of 1280, and anybody can make the kernel believe less by a forged ICMP message.
const LEAST_MTU: u16 = 1_280 + OVERHEAD;

impl<C: Core> Site<C> {
    /// Reads a list of packets, and seals and sends them.
    pub(super) fn take_inside<S: System>(
        &mut self,
        around: &mut Around<'_, S>,
    ) -> Result<(), Stop> {
        if !self.is_readable() {
            return Ok(());
        }
        self.tell_time(around)?;
        let Some(mut buffers) = self.buffers.take() else {
            return Ok(());
        };
        self.read_list(around, &mut buffers);
        let sent = self.send_lists(around, &mut buffers);
        self.buffers = Some(buffers);
        self.tell_sealed(around, sent)
    }

    /// Reads until there is a list, or nothing more.
    fn read_list<S: System>(&mut self, around: &mut Around<'_, S>, buffers: &mut Buffers) {
        let Buffers {
            read, cut: list, ..
        } = buffers;
        list.clear();
        while list.len() < LIST {
            match around.system.read_inside(self.key(), read) {
                Ok(0) => return,
                Ok(length) => {
                    if let Err(fault) = cut(&read[..length], PIECES, list) {
                        self.counters.malformed += 1;
                        let what = format!("the interface gave what is no packet: {fault}");
                        self.note_trouble(around, Trouble::Malformed, &what);
                    }
                }
                Err(error) => match error.kind() {
                    io::ErrorKind::WouldBlock => return,
                    io::ErrorKind::Interrupted => {}
                    _ => {
                        if is_gone(&error) {
                            self.lose_inside(around, &error);
                        } else {
                            self.counters.unread += 1;
                            let what = format!("the interface can't be read: {error}");
                            self.note_trouble(around, Trouble::Unread, &what);
                        }
                        return;
                    }
                },
            }
        }
    }

    fn send_lists<S: System>(&mut self, around: &mut Around<'_, S>, buffers: &mut Buffers) -> Sent {
        let mut sent = Sent::default();
        let Buffers {
            cut: list,
            room,
            passed,
            ..
        } = buffers;
        let carrier = self.carrier;
        let carrier = carrier.filter(|carrier| self.gateway(*carrier).is_some());
        let Some(carrier) = carrier else {
            if !list.is_empty() {
                self.counters.uncarried += list.len() as u64;
                let what = "packets going out have no gateway to go by";
                self.note_trouble(around, Trouble::Uncarried, what);
            }
            return sent;
        };
        sent.gateway = carrier;
        let octets = list.octets();
        for places in list.places().chunks(LIST) {
            let places = self.fitting(around, octets, places);
            passed.clear();
            if let Some(gateway) = self.gateway(carrier) {
                gateway.core.outward(octets, &places, room, passed);
            }
            let mut list = Vec::with_capacity(places.len());
            let mut inner = Vec::with_capacity(places.len());
            for (passage, place) in passed.iter().zip(&places) {
                match passage {
                    Passage::Sealed {
                        child,
                        number,
                        place: sealed,
                    } => {
                        let share = sent.shares.entry(*child).or_default();
                        share.add(*number, place.len());
                        let header = OuterHeader::of(&octets[place.clone()]);
                        list.push(EspPacket {
                            place: sealed.clone(),
                            class: header.map_or(0, |header| header.class),
                        });
                        inner.push((*child, place.clone()));
                    }
                    Passage::Clear => {
                        // There is no way past the interface that doesn't lead to it again.
                        self.counters.bypassed += 1;
                        let what = "a packet that the policy bypasses came by the interface";
                        self.note_trouble(around, Trouble::Bypassed, what);
                    }
                    Passage::Refused { code } => {
                        self.note_refusal(around, "a packet going out", *code);
                        sent.ended |= *code == NUMBERS_ENDED;
                    }
                    Passage::Discarded => self.counters.discarded += 1,
                    Passage::Up { .. } | Passage::Dummy { .. } => {}
                }
            }
            self.send_esp(around, room, &list, octets, &inner, &mut sent.taken);
        }
        sent
    }

    /// The packets that fit through the path. To the sender of another one it is told.
    fn fitting<S: System>(
        &mut self,
        around: &mut Around<'_, S>,
        octets: &[u8],
        places: &[Range<usize>],
    ) -> Vec<Range<usize>> {
        let outer_mtu = self.outer_mtu();
        let (fitting, long): (Vec<_>, Vec<_>) = places
            .iter()
            .cloned()
            .partition(|place| fits(place.len(), outer_mtu));
        for place in long {
            self.answer_too_big(around, &octets[place]);
        }
        fitting
    }

    fn answer_too_big<S: System>(&mut self, around: &mut Around<'_, S>, packet: &[u8]) {
        self.counters.too_long += 1;
        if !self.answers.admit(around.now) {
            return;
        }
        if let Some(answer) = too_big(packet, inner_mtu(self.outer_mtu())) {
            self.write_alone(around, &answer);
        }
    }

    /// Sends a list, mostly by one call, and adds what the kernel took of it to the shares of
    /// the Child SAs. What it doesn't take is lost, as on any link; what is too long for the
    /// path is answered.
    fn send_esp<S: System>(
        &mut self,
        around: &mut Around<'_, S>,
        room: &[u8],
        list: &[EspPacket],
        octets: &[u8],
        inner: &[(u32, Range<usize>)],
        taken: &mut BTreeMap<u32, Share>,
    ) {
        let to = self.config.address;
        let mut at = 0;
        let mut doubted = false;
        while at < list.len() {
            match around.system.send_esp(to, room, &list[at..]) {
                Ok(0) => break,
                Ok(count) => {
                    for (child, place) in inner[at..].iter().take(count) {
                        taken.entry(*child).or_default().add(0, place.len());
                    }
                    at += count;
                    self.counters.esp_out += count as u64;
                }
                Err(error) if error.kind() == io::ErrorKind::Interrupted => {}
                Err(error) if error.raw_os_error() == Some(libc::EMSGSIZE) => {
                    // The same packet goes again where the kernel's word isn't believed.
                    if !doubted && self.doubts_path(around) {
                        doubted = true;
                        continue;
                    }
                    self.narrow(around);
                    let (_, place) = &inner[at];
                    self.answer_too_big(around, &octets[place.clone()]);
                    at += 1;
                }
                Err(error) => {
                    let left = list.len() - at;
                    self.counters.unsent_esp += left as u64;
                    let what = format!("{left} ESP packets aren't sent: {error}");
                    self.note_trouble(around, Trouble::UnsentEsp, &what);
                    break;
                }
            }
        }
    }

    /// The least MTU of the path that is believed, in octets: a configuration may want less.
    fn least_mtu(&self) -> u16 {
        self.configured_mtu().min(LEAST_MTU)
    }

    /// Whether the kernel takes the path for one that is too narrow to be believed. Then it
    /// isn't heeded for a while: packets go out as before, and none is cut on its way.
    fn doubts_path<S: System>(&mut self, around: &mut Around<'_, S>) -> bool {
        let Ok(mtu) = around.system.path_mtu(self.config.address) else {
            return false;
        };
        if mtu >= self.least_mtu() {
            return false;
        }
        let what = format!("the kernel takes the path's MTU for {mtu}, which isn't believed");
        self.note_trouble(around, Trouble::Path, &what);
        around.unheed_paths(MTU_LASTS).is_ok()
    }

    /// The path's MTU is less than it was.
    fn narrow<S: System>(&mut self, around: &mut Around<'_, S>) {
        if let Ok(mtu) = around.system.path_mtu(self.config.address) {
            let until = around.now.saturating_add(MTU_LASTS);
            self.narrow = Some((mtu.max(self.least_mtu()), until));
        }
    }

    fn tell_sealed<S: System>(
        &mut self,
        around: &mut Around<'_, S>,
        sent: Sent,
    ) -> Result<(), Stop> {
        let gateway = sent.gateway;
        for (child, share) in sent.shares {
            let taken = sent.taken.get(&child).copied().unwrap_or_default();
            self.counters.octets_out += taken.octets;
            if let Some(carried) = self
                .gateway(gateway)
                .and_then(|of| of.children.get_mut(&child))
            {
                carried.sent = carried.sent.max(share.number);
                carried.packets_out += taken.packets;
                carried.octets_out += taken.octets;
            }
            let event = Event::Sealed {
                child: ChildName { gateway, child },
                number: share.number,
                octets: share.octets,
            };
            self.tell(around, event)?;
        }
        if sent.ended {
            // Which Child SA it was isn't told: the one that sent its last number.
            let ended = self.gateway(gateway).map(|of| of.ended());
            for child in ended.unwrap_or_default() {
                let child = ChildName { gateway, child };
                self.tell(around, Event::NumbersEnded { child })?;
            }
        }
        Ok(())
    }
}

/// What went out of one turn.
#[derive(Debug, Default)]
struct Sent {
    gateway: u32,
    /// What was sealed by each Child SA.
    shares: BTreeMap<u32, Share>,
    /// What the kernel took of it.
    taken: BTreeMap<u32, Share>,
    /// Whether a Child SA's numbers were all sent.
    ended: bool,
}

impl Inside {
    /// Whether it is there.
    pub(super) fn is_open(&self) -> bool {
        matches!(self, Inside::Open(_))
    }
}
