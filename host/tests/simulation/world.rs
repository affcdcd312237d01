//! Two ends and the wire between them, driven event by event.

use super::core::Message;
use super::end::{Counts, End, Made, Packets, Sent};
use super::random::Random;
use std::cmp::Reverse;
use std::collections::BinaryHeap;
use sukperind::peer::{Event, Settings};

/// How a run is made.
#[derive(Clone, Debug)]
pub struct Plan {
    pub settings: [Settings; 2],
    pub made: Made,
    /// Milliseconds between an end's packets; 0 for none.
    pub interval: u64,
    /// Packets at once, of each end.
    pub burst: [u64; 2],
    /// Milliseconds that a datagram takes, from and to.
    pub delay: (u64, u64),
    /// Whether ends are killed, stopped and configured anew, and the wire fails.
    pub unrest: bool,
}

#[derive(Clone, Debug)]
enum Item {
    Ike { to: usize, message: Message },
    Esp { to: usize, packets: Packets },
    Traffic { from: usize },
    Restart { end: usize },
    Wire,
    Unrest,
}

/// What a run came to.
#[derive(Clone, Debug, Default)]
pub struct Summary {
    pub events: u64,
    pub kills: u64,
    pub leaves: u64,
    pub hangups: u64,
    pub outages: u64,
    pub checked: u64,
    pub longest_gap: u64,
    pub packets_sent: u64,
    pub packets_opened: u64,
    pub counts: Counts,
}

impl Summary {
    /// Adds what another run came to.
    pub fn add(&mut self, other: &Summary) {
        self.events += other.events;
        self.kills += other.kills;
        self.leaves += other.leaves;
        self.hangups += other.hangups;
        self.outages += other.outages;
        self.checked += other.checked;
        self.longest_gap = self.longest_gap.max(other.longest_gap);
        self.packets_sent += other.packets_sent;
        self.packets_opened += other.packets_opened;
        self.counts.add(&other.counts);
    }
}

pub struct World {
    pub now: u64,
    pub ends: [Option<End>; 2],
    pub summary: Summary,
    /// Of a thousand datagrams, so many are lost.
    pub loss: u64,
    plan: Plan,
    random: Random,
    items: BinaryHeap<Reverse<(u64, u64, usize)>>,
    bodies: Vec<Option<Item>>,
    free: Vec<usize>,
    order: u64,
    spi_base: u64,
    quiet_since: u64,
    gap_since: Option<u64>,
}

impl World {
    pub fn new(plan: Plan, seed: u64) -> World {
        let mut world = World {
            now: 0,
            ends: [None, None],
            summary: Summary::default(),
            loss: 0,
            plan,
            random: Random::new(seed),
            items: BinaryHeap::new(),
            bodies: Vec::new(),
            free: Vec::new(),
            order: 0,
            spi_base: 0,
            quiet_since: 0,
            gap_since: None,
        };
        world.bring_up(0);
        world.bring_up(1);
        if world.plan.interval > 0 {
            world.later(1, Item::Traffic { from: 0 });
            world.later(2, Item::Traffic { from: 1 });
        }
        if world.plan.unrest {
            world.later(60_000, Item::Wire);
            world.later(60_000, Item::Unrest);
        }
        world
    }

    pub fn bring_up(&mut self, end: usize) {
        // Each incarnation draws SPIs of its own.
        self.spi_base += 1 << 40;
        let settings = self.plan.settings[end].clone();
        let made = self.plan.made;
        self.ends[end] = Some(End::new(settings, made, self.now, self.spi_base));
        self.quiet_since = self.now;
        self.flush(end);
    }

    pub fn kill(&mut self, end: usize) {
        if let Some(dead) = self.ends[end].take() {
            self.summary.counts.add(&dead.counts);
        }
        self.quiet_since = self.now;
    }

    /// Something befell the link: what has to hold in time counts from now.
    pub fn disturb(&mut self) {
        self.quiet_since = self.now;
    }

    fn later(&mut self, after: u64, item: Item) {
        let place = self.free.pop().unwrap_or(self.bodies.len());
        if place == self.bodies.len() {
            self.bodies.push(None);
        }
        self.bodies[place] = Some(item);
        self.order += 1;
        self.items
            .push(Reverse((self.now + after, self.order, place)));
    }

    /// Runs to a moment, in milliseconds.
    pub fn run_to(&mut self, until: u64) {
        loop {
            let item = self.items.peek().map(|Reverse((moment, ..))| *moment);
            let ends = self
                .ends
                .iter()
                .flatten()
                .filter_map(End::next_moment)
                .min();
            let next = item.into_iter().chain(ends).min();
            let Some(next) = next.filter(|next| *next <= until) else {
                self.now = until;
                return;
            };
            self.now = self.now.max(next);
            self.summary.events += 1;
            if item == Some(next) {
                let Reverse((_, _, place)) = self.items.pop().unwrap();
                self.free.push(place);
                let item = self.bodies[place].take().unwrap();
                self.happen(item);
            }
            self.tick();
            self.check();
        }
    }

    fn tick(&mut self) {
        for end in 0..2 {
            let due = self.ends[end].as_ref().and_then(End::next_moment);
            if due.is_some_and(|due| due <= self.now) {
                self.ends[end].as_mut().unwrap().tick(self.now);
                self.flush(end);
            }
        }
    }

    fn happen(&mut self, item: Item) {
        match item {
            Item::Ike { to, message } => {
                if let Some(end) = &mut self.ends[to] {
                    end.receive(self.now, &message);
                    self.flush(to);
                }
            }
            Item::Esp { to, packets } => {
                if let Some(end) = &mut self.ends[to] {
                    end.open(self.now, &packets, None);
                    self.flush(to);
                }
            }
            Item::Traffic { from } => self.traffic(from),
            Item::Restart { end } => {
                if self.ends[end].is_none() {
                    self.bring_up(end);
                }
            }
            Item::Wire => self.change_wire(),
            Item::Unrest => self.unrest(),
        }
    }

    fn traffic(&mut self, from: usize) {
        let entries = self.plan.settings[from].entries.clone();
        let count = self.plan.burst[from];
        if let (Some(end), true) = (&mut self.ends[from], count > 0) {
            for entry in entries {
                self.summary.packets_sent += count;
                end.send(self.now, entry, count, count * 1_000);
            }
            self.flush(from);
        }
        self.later(self.plan.interval, Item::Traffic { from });
    }

    /// Puts on the wire what an end sent, and buries it if it stopped.
    pub fn flush(&mut self, from: usize) {
        let Some(end) = &mut self.ends[from] else {
            return;
        };
        let sent = std::mem::take(&mut end.sent);
        let stopped = end.stopped;
        let to = 1 - from;
        for sent in sent {
            if self.random.happens(self.loss) {
                continue;
            }
            let delay = self.random.between(self.plan.delay.0, self.plan.delay.1);
            match sent {
                Sent::Ike(message) => self.later(delay, Item::Ike { to, message }),
                Sent::Esp(packets) => self.later(delay, Item::Esp { to, packets }),
            }
        }
        if stopped {
            self.kill(from);
        }
    }

    fn change_wire(&mut self) {
        let was_bad = self.loss > 10;
        let (loss, least, most) = match self.random.between(0, 9) {
            _ if was_bad => (self.random.pick(&[0, 0, 10]), 3_600_000, 172_800_000),
            0..=4 => (1_000, 1_000, 7_200_000),
            5..=7 => (self.random.between(100, 600), 10_000, 3_600_000),
            _ => (1_000, 1_000, 60_000),
        };
        self.loss = loss;
        self.summary.outages += u64::from(loss > 10);
        let declines = loss > 10 && loss < 1_000 && self.random.happens(300);
        for core in self
            .ends
            .iter_mut()
            .flatten()
            .flat_map(|end| &mut end.cores)
        {
            core.declines = declines;
        }
        self.quiet_since = self.now;
        // Where a peer declines each Child SA for longer, numbers do end at a million
        // packets a second: nothing that this end could command helps then.
        let most = if declines { 600_000 } else { most };
        let length = self.random.between(least, most);
        self.later(length, Item::Wire);
    }

    fn unrest(&mut self) {
        let end = self.random.between(0, 1) as usize;
        let down = self.random.pick(&[1, 500, 5_000, 60_000, 3_600_000]);
        match self.random.between(0, 9) {
            0..=4 => {
                self.summary.kills += 1;
                self.kill(end);
                self.later(down, Item::Restart { end });
            }
            5..=6 => {
                self.summary.leaves += 1;
                if let Some(end) = &mut self.ends[end] {
                    end.leaving = true;
                    end.tell(self.now, Event::Leave);
                }
                self.quiet_since = self.now;
                self.flush(end);
                self.later(down.max(2_500), Item::Restart { end });
            }
            kind => self.hang_up(end, kind == 7 || kind == 8),
        }
        let next = self.random.between(1_000, 200_000_000);
        self.later(next, Item::Unrest);
    }

    fn hang_up(&mut self, place: usize, anew: bool) {
        self.summary.hangups += 1;
        if let Some(end) = &mut self.ends[place] {
            let settings = end.settings.clone();
            if anew {
                end.anew_at = self.now + 120_000;
                end.failed_start = None;
                end.failures = 0;
                self.quiet_since = self.now;
            }
            end.tell(self.now, Event::Configured { settings, anew });
            self.flush(place);
        }
    }

    /// How long it may take at most, from when the wire delivers and both ends are
    /// there, until each entry has a Child SA at both ends.
    pub fn bound(&self) -> u64 {
        let timers = &self.plan.settings[0].timers;
        timers.silence + timers.doubt + 2 * 53_000 + timers.longest_backoff + 30_000
    }

    /// Whether an entry has a Live Child SA that both ends hold.
    pub fn carries(&self, entry: u32) -> bool {
        let [Some(one), Some(other)] = &self.ends else {
            return false;
        };
        let theirs: Vec<_> = other
            .cores
            .iter()
            .flat_map(|core| core.pairs.values())
            .collect();
        one.cores
            .iter()
            .flat_map(|core| core.pairs.values())
            .filter(|pair| pair.entry == entry && pair.live)
            .any(|pair| {
                theirs.iter().any(|mirror| {
                    mirror.live
                        && mirror.own_spi == pair.peer_spi
                        && mirror.peer_spi == pair.own_spi
                })
            })
    }

    pub fn carries_all(&self) -> bool {
        let entries = &self.plan.settings[0].entries;
        entries.iter().all(|entry| self.carries(*entry))
    }

    fn check(&mut self) {
        for end in self.ends.iter().flatten() {
            end.check(self.now);
        }
        if self.loss > 10 || self.ends.iter().any(Option::is_none) {
            self.gap_since = None;
            return;
        }
        if self.now > self.quiet_since + self.bound() {
            self.summary.checked += 1;
            assert!(
                self.carries_all(),
                "a live child within {} ms while the wire delivers: at {}, quiet since {}",
                self.bound(),
                self.now,
                self.quiet_since
            );
            self.gap_since = None;
        } else if self.carries_all() {
            self.gap_since = None;
        } else {
            let since = *self.gap_since.get_or_insert(self.now);
            let gap = self.now - since;
            self.summary.longest_gap = self.summary.longest_gap.max(gap);
        }
    }

    /// Ends the run.
    pub fn finish(mut self) -> Summary {
        for end in 0..2 {
            self.kill(end);
        }
        self.summary.packets_opened = self.summary.counts.packets_opened;
        self.summary
    }
}
