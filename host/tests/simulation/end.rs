//! One end: a small daemon around the model of the core and the care of its peer.

use super::core::{Body, Came, Core, Message};
use std::collections::BTreeMap;
use sukperind::peer::{
    AssociationName, ChildName, Event, NewChild, Order, Peer, Refusal, Role, Settings,
};

/// What goes out of an end.
#[derive(Clone, Debug)]
pub enum Sent {
    Ike(Message),
    Esp(Packets),
}

/// Packets by one Child SA, told together.
#[derive(Clone, Debug)]
pub struct Packets {
    pub spi: u64,
    pub entry: u32,
    pub number: u64,
    pub count: u64,
    pub octets: u64,
}

/// What an end counted, for the summary and for the checks.
#[derive(Clone, Debug, Default)]
pub struct Counts {
    pub starts: u64,
    pub children: u64,
    pub probes: u64,
    pub child_deletes: u64,
    pub ike_deletes: u64,
    pub secrets: u64,
    pub gateways: u64,
    pub holds: u64,
    pub kept: u64,
    pub given_again: u64,
    pub opened_again: u64,
    pub forgotten: u64,
    pub unknown: u64,
    pub longest_hold: u64,
    pub refused: BTreeMap<String, u64>,
    pub packets_opened: u64,
    /// The greatest share of a Child SA's numbers that was sent, in thousandths.
    pub greatest_share: u64,
}

impl Counts {
    /// Adds what another end counted.
    pub fn add(&mut self, other: &Counts) {
        self.starts += other.starts;
        self.children += other.children;
        self.probes += other.probes;
        self.child_deletes += other.child_deletes;
        self.ike_deletes += other.ike_deletes;
        self.secrets += other.secrets;
        self.gateways += other.gateways;
        self.holds += other.holds;
        self.kept += other.kept;
        self.given_again += other.given_again;
        self.opened_again += other.opened_again;
        self.forgotten += other.forgotten;
        self.unknown += other.unknown;
        self.packets_opened += other.packets_opened;
        self.longest_hold = self.longest_hold.max(other.longest_hold);
        self.greatest_share = self.greatest_share.max(other.greatest_share);
        for (name, count) in &other.refused {
            *self.refused.entry(name.clone()).or_default() += count;
        }
    }
}

/// How the cores of a run are made.
#[derive(Clone, Copy, Debug)]
pub struct Made {
    pub spi_limit: u32,
    pub window: u32,
    pub extended: bool,
}

pub struct End {
    pub settings: Settings,
    pub made: Made,
    pub peer: Peer,
    pub cores: Vec<Core>,
    pub carrier: u32,
    pub held: BTreeMap<u32, u64>,
    pub waiting: Vec<(u32, u64, u64)>,
    pub kept: BTreeMap<u64, Packets>,
    pub counts: Counts,
    pub stopped: bool,
    pub leaving: bool,
    /// Until when IKE SAs may be deleted without another one in their place.
    pub anew_at: u64,
    pub failed_start: Option<u64>,
    pub failures: u32,
    pub sent: Vec<Sent>,
    next_spi: u64,
    next_packet: u64,
}

impl End {
    pub fn new(settings: Settings, made: Made, now: u64, spi_base: u64) -> End {
        let peer = Peer::new(settings.clone(), now);
        let mut end = End {
            settings,
            made,
            peer,
            cores: Vec::new(),
            carrier: 0,
            held: BTreeMap::new(),
            waiting: Vec::new(),
            kept: BTreeMap::new(),
            counts: Counts::default(),
            stopped: false,
            leaving: false,
            anew_at: 0,
            failed_start: None,
            failures: 0,
            sent: Vec::new(),
            next_spi: spi_base,
            next_packet: 1,
        };
        end.carry_out(now);
        end
    }

    fn fresh(&mut self) -> u64 {
        self.next_spi += 1;
        self.next_spi
    }

    /// Tells an event, and carries out what is commanded.
    pub fn tell(&mut self, now: u64, event: Event) {
        self.peer.take(now, event);
        self.carry_out(now);
    }

    pub fn next_moment(&self) -> Option<u64> {
        let cores = self.cores.iter().filter_map(Core::next_moment).min();
        cores.into_iter().chain(self.peer.next_moment()).min()
    }

    /// Time passed: the cores first, then the care.
    pub fn tick(&mut self, now: u64) {
        for place in 0..self.cores.len() {
            let (again, closed) = self.cores[place].tick(now);
            let gateway = self.cores[place].number;
            self.sent.extend(again.into_iter().map(Sent::Ike));
            for ike in closed {
                let association = AssociationName { gateway, ike };
                self.note_failure(now, association);
                self.tell(now, Event::Unanswered { association });
            }
        }
        self.tell(now, Event::Moment);
    }

    fn note_failure(&mut self, now: u64, association: AssociationName) {
        // One that was given up for a new configuration is of no account.
        if self.cores.last().map(|core| core.number) != Some(association.gateway) {
            return;
        }
        let core = self.core(association.gateway);
        let never = core.associations[&association.ike].established_at == 0;
        let ours = core.associations[&association.ike].begun_here;
        if never && ours {
            self.failed_start = Some(now);
            self.failures += 1;
        }
    }

    pub fn core(&mut self, gateway: u32) -> &mut Core {
        self.cores
            .iter_mut()
            .find(|core| core.number == gateway)
            .expect("orders name open gateways alone")
    }

    fn new_child(&self, gateway: u32, child: u32) -> NewChild {
        let core = self.cores.iter().find(|core| core.number == gateway);
        NewChild {
            child,
            entry: core.unwrap().pairs[&child].entry,
            extended: self.made.extended,
        }
    }

    /// A datagram of IKE came.
    pub fn receive(&mut self, now: u64, message: &Message) {
        self.tick(now);
        let (ike_spi, spi) = (self.fresh(), self.fresh());
        let core = if message.body == Body::Init {
            self.cores.last_mut()
        } else {
            self.cores
                .iter_mut()
                .find(|core| core.has_spi(message.to_spi))
        };
        let Some(core) = core else { return };
        let gateway = core.number;
        let (came, answer) = core.receive(now, message, ike_spi, spi);
        self.sent.extend(answer.map(Sent::Ike));
        self.tell_came(now, gateway, came);
    }

    fn tell_came(&mut self, now: u64, gateway: u32, came: Came) {
        let name = |ike| AssociationName { gateway, ike };
        let event = match came {
            Came::Dropped | Came::Continued | Came::HalfOpened => return,
            Came::Counted { ike, child, closed } => Event::Counted {
                association: name(ike),
                child: child.map(|child| self.new_child(gateway, child)),
                closed,
            },
            Came::Admitted { ike, child } => {
                self.failed_start = None;
                self.failures = 0;
                Event::Admitted {
                    association: name(ike),
                    child: child.map(|child| self.new_child(gateway, child)),
                }
            }
            Came::Replied {
                ike,
                child,
                gone,
                closed,
            } => Event::Replied {
                association: name(ike),
                child: child.map(|child| self.new_child(gateway, child)),
                gone,
                closed,
            },
            Came::Repeated { ike } => Event::Repeated {
                association: name(ike),
            },
        };
        if let Event::Counted { closed: false, .. } = event {
            self.failed_start = None;
            self.failures = 0;
        }
        self.tell(now, event);
    }

    /// Packets came by a Child SA.
    pub fn open(&mut self, now: u64, packets: &Packets, kept: Option<u64>) {
        for core in &mut self.cores {
            let gateway = core.number;
            let found = core
                .pairs
                .iter_mut()
                .find(|(_, p)| p.own_spi == packets.spi);
            if let Some((child, pair)) = found {
                pair.taken = pair.taken.max(packets.number);
                self.counts.packets_opened += packets.count;
                let child = ChildName {
                    gateway,
                    child: *child,
                };
                self.counts.opened_again += u64::from(kept.is_some());
                let (number, octets) = (packets.number, packets.octets);
                let event = Event::Opened {
                    child,
                    number,
                    octets,
                };
                return self.tell(now, event);
            }
        }
        self.counts.unknown += 1;
        if kept.is_some() {
            return;
        }
        let packet = self.next_packet;
        self.next_packet += 1;
        self.kept.insert(packet, packets.clone());
        self.peer.take(now, Event::UnknownSpi { packet });
        self.keep_or_drop(now, packet);
    }

    fn keep_or_drop(&mut self, now: u64, packet: u64) {
        let order = self.peer.next_order();
        if order == Some(Order::Keep { packet }) {
            self.counts.kept += 1;
            assert!(self.kept.len() <= 64, "few packets are kept");
        } else {
            self.kept.remove(&packet);
            if let Some(order) = order {
                self.carry_out_one(now, order);
            }
        }
        self.carry_out(now);
    }

    /// Packets go out by an entry: so many, of so many octets together.
    pub fn send(&mut self, now: u64, entry: u32, count: u64, octets: u64) {
        if self.held.contains_key(&entry) {
            self.waiting.push((entry, count, octets));
            return;
        }
        let last = if self.made.extended {
            u64::MAX
        } else {
            u64::from(u32::MAX)
        };
        let gateway = self.carrier;
        let core = self.core(gateway);
        let pair = core
            .pairs
            .iter_mut()
            .rev()
            .find(|(_, p)| p.entry == entry && p.live);
        let Some((child, pair)) = pair else { return };
        if pair.sent + count >= last {
            let (child, pair) = (*child, pair.clone());
            panic!(
                "the last number is never reached: {pair:?} of {child} at {now}, {:#?}",
                self.peer
            );
        }
        pair.sent += count;
        let child = ChildName {
            gateway,
            child: *child,
        };
        let (spi, number) = (pair.peer_spi, pair.sent);
        let share = if self.made.extended {
            0
        } else {
            number * 1000 / last
        };
        self.counts.greatest_share = self.counts.greatest_share.max(share);
        self.sent.push(Sent::Esp(Packets {
            spi,
            entry,
            number,
            count,
            octets,
        }));
        let event = Event::Sealed {
            child,
            number,
            octets,
        };
        self.tell(now, event);
    }

    fn carry_out(&mut self, now: u64) {
        while let Some(order) = self.peer.next_order() {
            self.carry_out_one(now, order);
        }
    }

    fn carry_out_one(&mut self, now: u64, order: Order) {
        assert!(!self.stopped, "nothing is ordered after the stop");
        let Err(refusal) = self.obey(now, order) else {
            return;
        };
        let name = format!("{refusal:?}");
        *self.counts.refused.entry(name).or_default() += 1;
        assert!(
            !matches!(
                refusal,
                Refusal::Busy | Refusal::WrongPhase | Refusal::Unknown
            ),
            "no order while its request can't go out: {order:?}, {refusal:?}"
        );
        self.peer.take(now, Event::Refused { order, refusal });
    }

    fn obey(&mut self, now: u64, order: Order) -> Result<(), Refusal> {
        match order {
            Order::OpenGateway { gateway } => {
                let core = Core::new(gateway, self.made.spi_limit, self.made.window);
                self.cores.push(core);
                self.counts.gateways += 1;
                assert!(self.cores.len() <= 5, "few gateways are open at once");
            }
            Order::CarryBy { gateway } => {
                self.core(gateway);
                self.carrier = gateway;
            }
            Order::EndGateway { gateway } => {
                assert_ne!(gateway, self.carrier, "the carrier isn't ended");
                self.cores.retain(|core| core.number != gateway);
            }
            Order::NewSecret { gateway } => {
                self.core(gateway);
                self.counts.secrets += 1;
            }
            Order::Start { gateway, entry } => self.start(now, gateway, entry)?,
            Order::Child { association, entry } => self.child(now, association, entry)?,
            Order::Probe { association } => {
                self.counts.probes += 1;
                let core = self.core(association.gateway);
                let message = core.probe(now, association.ike)?;
                self.sent.push(Sent::Ike(message));
            }
            Order::DeleteChild { association, child } => {
                self.check_successor(now, association, child);
                let core = self.core(association.gateway);
                let message = core.delete_child(now, child)?;
                self.counts.child_deletes += 1;
                self.sent.push(Sent::Ike(message));
            }
            Order::DeleteIke { association } => {
                self.check_other(now, association);
                let core = self.core(association.gateway);
                let message = core.delete_ike(now, association.ike)?;
                self.counts.ike_deletes += 1;
                self.sent.push(Sent::Ike(message));
            }
            other => self.obey_for_packets(now, other),
        }
        Ok(())
    }

    fn obey_for_packets(&mut self, now: u64, order: Order) {
        match order {
            Order::Hold { entry } => {
                self.counts.holds += 1;
                let before = self.held.insert(entry, now);
                assert_eq!(before, None, "what waits isn't told to wait again");
            }
            Order::Release { entry } => {
                let since = self.held.remove(&entry).expect("it waited");
                self.counts.longest_hold = self.counts.longest_hold.max(now - since);
                let (now_out, rest) = self.waiting.drain(..).partition(|(of, ..)| *of == entry);
                self.waiting = rest;
                let now_out: Vec<(u32, u64, u64)> = now_out;
                for (entry, count, octets) in now_out {
                    self.send(now, entry, count, octets);
                }
            }
            Order::GiveAgain { packet } => {
                self.counts.given_again += 1;
                let packets = self.kept.remove(&packet).expect("it was kept");
                self.open(now, &packets, Some(packet));
            }
            Order::Forget { packet } => {
                self.counts.forgotten += 1;
                self.kept.remove(&packet).expect("it was kept");
            }
            Order::Stop => self.stopped = true,
            other => panic!("{other:?} is ordered at an unknown SPI alone"),
        }
    }

    fn start(&mut self, now: u64, gateway: u32, entry: u32) -> Result<(), Refusal> {
        self.counts.starts += 1;
        assert_eq!(self.settings.role, Role::Begins, "who waits doesn't begin");
        if let Some(failed) = self.failed_start.take() {
            // The wait is to double: 1, 2, 4, .. s, up to the longest.
            let timers = &self.settings.timers;
            let doubled = timers.first_backoff << (self.failures - 1).min(20);
            let wait = doubled.min(timers.longest_backoff);
            let young = now < failed + wait;
            assert!(
                !young,
                "a start waits {wait} ms after failure {}",
                self.failures
            );
        }
        let (ike_spi, spi) = (self.fresh(), self.fresh());
        let begun = |core: &Core| {
            let phases = core.associations.values().filter(|ike| {
                use super::core::Phase::{AuthSent, InitSent};
                matches!(ike.phase, InitSent | AuthSent)
            });
            phases.count()
        };
        let core = self.core(gateway);
        assert_eq!(begun(core), 0, "one IKE SA is begun at a time");
        let (ike, message) = core.start(now, entry, ike_spi, spi)?;
        self.sent.push(Sent::Ike(message));
        let association = AssociationName { gateway, ike };
        self.peer.take(now, Event::Begun { association });
        Ok(())
    }

    fn child(&mut self, now: u64, name: AssociationName, entry: u32) -> Result<(), Refusal> {
        self.counts.children += 1;
        let spi = self.fresh();
        let core = self.core(name.gateway);
        if let Some(ike) = core.associations.get(&name.ike) {
            let under_way = ike.waiting.iter().any(|waiting| {
                matches!(waiting.message.body, Body::Child { entry: of, .. } if of == entry)
            });
            assert!(!under_way, "two replacements of one child are under way");
        }
        let message = core.child(now, name.ike, entry, spi)?;
        self.sent.push(Sent::Ike(message));
        Ok(())
    }

    /// A Child SA is deleted only where another one has carried for long enough.
    fn check_successor(&mut self, now: u64, name: AssociationName, child: u32) {
        let overlap = self.settings.timers.overlap;
        let core = self.core(name.gateway);
        let entry = core.pairs[&child].entry;
        let newer = core
            .pairs
            .range(child + 1..)
            .any(|(_, pair)| pair.entry == entry && pair.live && pair.made_at + overlap <= now);
        assert!(newer, "a child is deleted only after a newer one carries");
    }

    /// An IKE SA is deleted only where others have stood for long enough, and
    /// carry what it carried, unless that was waited for long enough.
    fn check_other(&mut self, now: u64, name: AssociationName) {
        if self.leaving || now <= self.anew_at {
            return;
        }
        let timers = self.settings.timers;
        let is_this = |gateway, serial| (gateway, serial) == (name.gateway, name.ike);
        let stands = |since: u64| {
            self.cores.iter().any(|core| {
                core.associations.iter().any(|(serial, ike)| {
                    let established = ike.phase == super::core::Phase::Established;
                    let long = ike.established_at + since <= now;
                    !is_this(core.number, *serial) && established && long
                })
            })
        };
        let carries = |entry: u32, this: bool| {
            self.cores.iter().any(|core| {
                core.pairs.values().any(|pair| {
                    pair.entry == entry && pair.live && is_this(core.number, pair.ike) == this
                })
            })
        };
        let mut entries = self.settings.entries.iter();
        let all = entries.all(|entry| !carries(*entry, true) || carries(*entry, false));
        assert!(
            stands(timers.overlap) && (all || stands(timers.patience)),
            "an IKE SA is deleted only where another stands and carries: {name:?} at {now} {:#?}",
            self.peer
        );
    }

    /// What has to hold after each event.
    pub fn check(&self, now: u64) {
        if let Some(moment) = self.peer.next_moment() {
            assert!(
                moment > now,
                "what is due was done: {moment} at {now}: {:#?}",
                self.peer
            );
        }
        for since in self.held.values() {
            let hold = self.settings.timers.hold;
            assert!(now < since + hold, "packets wait {hold} ms at most");
        }
        if self.stopped {
            assert!(self.held.is_empty() && self.kept.is_empty());
        }
    }
}
