//! A small model of one gateway's core: IKE SAs, Child SAs, requests under way.
//!
//! It has the core's times (again after 1, 2, 4, 8 and 16 s, closed 16 s later), its
//! refusals of commands and its limits, and none of its octets.

use std::collections::BTreeMap;
use sukperind::peer::Refusal;

const HELD: usize = 128;
const HALF_OPEN: usize = 32;
const PAIRS: usize = 1024;
const KEPT_REPLIES: u32 = 32;

/// A datagram of IKE. SPIs are drawn by the world and never come again.
#[derive(Clone, Debug)]
pub struct Message {
    pub from_spi: u64,
    pub to_spi: u64,
    pub number: u32,
    pub body: Body,
}

#[derive(Clone, Debug, PartialEq)]
pub enum Body {
    Init,
    InitAnswer,
    Auth { entry: u32, spi: u64 },
    AuthAnswer { spi: Option<u64> },
    Child { entry: u32, spi: u64 },
    ChildAnswer { spi: Option<u64> },
    Probe,
    DeleteChild { spi: u64 },
    DeleteIke,
    Empty,
}

impl Body {
    fn is_answer(&self) -> bool {
        matches!(
            self,
            Body::InitAnswer | Body::AuthAnswer { .. } | Body::ChildAnswer { .. } | Body::Empty
        )
    }
}

#[derive(Clone, Copy, Debug, PartialEq)]
pub enum Phase {
    InitSent,
    AuthSent,
    HalfOpen,
    Established,
    Closed,
}

#[derive(Clone, Debug)]
pub struct Waiting {
    pub message: Message,
    pub own_spi: u64,
    pub entry: u32,
    due: u64,
    gap: u64,
    left: u32,
}

#[derive(Clone, Debug)]
pub struct Ike {
    pub own_spi: u64,
    pub peer_spi: u64,
    pub begun_here: bool,
    pub phase: Phase,
    pub waiting: Vec<Waiting>,
    pub established_at: u64,
    next: u32,
    gap: u32,
    replies: BTreeMap<u32, Message>,
    until: u64,
}

#[derive(Clone, Debug)]
pub struct Pair {
    pub ike: u32,
    pub entry: u32,
    pub own_spi: u64,
    pub peer_spi: u64,
    pub sent: u64,
    pub taken: u64,
    pub live: bool,
    pub made_at: u64,
}

/// What comes of a datagram.
#[derive(Clone, Debug, PartialEq)]
pub enum Came {
    Dropped,
    /// An answer that calls for the next request.
    Continued,
    Counted {
        ike: u32,
        child: Option<u32>,
        closed: bool,
    },
    /// A reply that tells the host nothing that is checked.
    HalfOpened,
    Admitted {
        ike: u32,
        child: Option<u32>,
    },
    Replied {
        ike: u32,
        child: Option<u32>,
        gone: Vec<u32>,
        closed: bool,
    },
    Repeated {
        ike: u32,
    },
}

pub struct Core {
    pub number: u32,
    pub associations: BTreeMap<u32, Ike>,
    pub pairs: BTreeMap<u32, Pair>,
    pub spis: u32,
    pub spi_limit: u32,
    /// How many requests it takes at once, and its peer too.
    pub window: u32,
    /// Whether Child SAs are declined.
    pub declines: bool,
    next_ike: u32,
    next_pair: u32,
}

impl Core {
    pub fn new(number: u32, spi_limit: u32, window: u32) -> Core {
        Core {
            number,
            associations: BTreeMap::new(),
            pairs: BTreeMap::new(),
            spis: 0,
            spi_limit,
            window,
            declines: false,
            next_ike: 1,
            next_pair: 1,
        }
    }

    fn reserve(&mut self, spi: u64) -> Result<u64, Refusal> {
        if self.pairs.len() >= PAIRS {
            return Err(Refusal::Full);
        }
        if self.spis >= self.spi_limit {
            return Err(Refusal::SpisSpent);
        }
        self.spis += 1;
        Ok(spi)
    }

    pub fn start(
        &mut self,
        now: u64,
        entry: u32,
        ike_spi: u64,
        spi: u64,
    ) -> Result<(u32, Message), Refusal> {
        if self.associations.len() >= HELD {
            return Err(Refusal::Full);
        }
        let spi = self.reserve(spi)?;
        let serial = self.next_ike;
        self.next_ike += 1;
        let mut ike = Ike::new(ike_spi, 0, true, Phase::InitSent);
        let message = ike.send(now, Body::Init, spi, entry);
        self.associations.insert(serial, ike);
        Ok((serial, message))
    }

    fn established(&mut self, serial: u32) -> Result<&mut Ike, Refusal> {
        let window = self.window as usize;
        let ike = self.associations.get_mut(&serial).ok_or(Refusal::Unknown)?;
        if ike.phase != Phase::Established {
            return Err(Refusal::WrongPhase);
        }
        let ending = ike
            .waiting
            .iter()
            .any(|w| w.message.body == Body::DeleteIke);
        if ike.waiting.len() >= window || ending {
            return Err(Refusal::Busy);
        }
        Ok(ike)
    }

    pub fn child(
        &mut self,
        now: u64,
        serial: u32,
        entry: u32,
        spi: u64,
    ) -> Result<Message, Refusal> {
        self.established(serial)?;
        let spi = self.reserve(spi)?;
        let ike = self.established(serial)?;
        Ok(ike.send(now, Body::Child { entry, spi }, spi, entry))
    }

    pub fn probe(&mut self, now: u64, serial: u32) -> Result<Message, Refusal> {
        Ok(self.established(serial)?.send(now, Body::Probe, 0, 0))
    }

    pub fn delete_child(&mut self, now: u64, child: u32) -> Result<Message, Refusal> {
        let pair = self.pairs.get(&child).ok_or(Refusal::Unknown)?.clone();
        if !pair.live {
            return Err(Refusal::WrongPhase);
        }
        let spi = pair.own_spi;
        let ike = self.established(pair.ike)?;
        let message = ike.send(now, Body::DeleteChild { spi }, spi, 0);
        self.pairs.get_mut(&child).unwrap().live = false;
        Ok(message)
    }

    pub fn delete_ike(&mut self, now: u64, serial: u32) -> Result<Message, Refusal> {
        Ok(self.established(serial)?.send(now, Body::DeleteIke, 0, 0))
    }

    /// The next moment at which `tick` does something.
    pub fn next_moment(&self) -> Option<u64> {
        self.associations
            .values()
            .flat_map(|ike| {
                let until = (ike.until > 0).then_some(ike.until);
                ike.waiting.iter().map(|w| w.due).chain(until)
            })
            .min()
    }

    /// What goes out again, and the IKE SAs that are closed.
    pub fn tick(&mut self, now: u64) -> (Vec<Message>, Vec<u32>) {
        let mut again = Vec::new();
        let mut closed = Vec::new();
        for (serial, ike) in &mut self.associations {
            for waiting in &mut ike.waiting {
                if waiting.due > now {
                    continue;
                }
                if waiting.left == 0 {
                    closed.push(*serial);
                } else {
                    again.push(waiting.message.clone());
                    waiting.due = now + waiting.gap.min(16_000);
                    waiting.gap *= 2;
                    waiting.left -= 1;
                }
            }
        }
        closed.dedup();
        for serial in &closed {
            self.close(now, *serial);
        }
        self.associations
            .retain(|_, ike| ike.until == 0 || ike.until > now);
        (again, closed)
    }

    pub fn close(&mut self, now: u64, serial: u32) {
        if let Some(ike) = self.associations.get_mut(&serial) {
            ike.phase = Phase::Closed;
            ike.waiting.clear();
            ike.until = now + 120_000;
        }
        self.pairs.retain(|_, pair| pair.ike != serial);
    }

    fn install(&mut self, now: u64, ike: u32, entry: u32, own_spi: u64, peer_spi: u64) -> u32 {
        let serial = self.next_pair;
        self.next_pair += 1;
        let pair = Pair {
            ike,
            entry,
            own_spi,
            peer_spi,
            sent: 0,
            taken: 0,
            live: true,
            made_at: now,
        };
        self.pairs.insert(serial, pair);
        serial
    }

    pub fn has_spi(&self, spi: u64) -> bool {
        self.associations.values().any(|ike| ike.own_spi == spi)
    }

    /// A datagram. `ike_spi` and `spi` are fresh.
    pub fn receive(
        &mut self,
        now: u64,
        message: &Message,
        ike_spi: u64,
        spi: u64,
    ) -> (Came, Option<Message>) {
        if message.body == Body::Init {
            return self.admit(message, now, ike_spi);
        }
        let found = self
            .associations
            .iter()
            .find(|(_, ike)| {
                let peer = ike.phase == Phase::InitSent || ike.peer_spi == message.from_spi;
                ike.own_spi == message.to_spi && peer
            })
            .map(|(serial, _)| *serial);
        let Some(serial) = found else {
            return (Came::Dropped, None);
        };
        if message.body.is_answer() {
            self.answer(now, serial, message)
        } else {
            self.request(now, serial, message, spi)
        }
    }

    fn admit(&mut self, message: &Message, now: u64, ike_spi: u64) -> (Came, Option<Message>) {
        let same = self
            .associations
            .values()
            .find(|ike| ike.phase == Phase::HalfOpen && ike.peer_spi == message.from_spi);
        if let Some(ike) = same {
            return (Came::HalfOpened, ike.replies.get(&0).cloned());
        }
        let half_open = self
            .associations
            .values()
            .filter(|ike| ike.phase == Phase::HalfOpen)
            .count();
        if half_open >= HALF_OPEN || self.associations.len() >= HELD {
            return (Came::Dropped, None);
        }
        let serial = self.next_ike;
        self.next_ike += 1;
        let mut ike = Ike::new(ike_spi, message.from_spi, false, Phase::HalfOpen);
        ike.until = now + 30_000;
        let reply = ike.reply(message, Body::InitAnswer);
        self.associations.insert(serial, ike);
        (Came::HalfOpened, Some(reply))
    }

    fn answer(&mut self, now: u64, serial: u32, message: &Message) -> (Came, Option<Message>) {
        let ike = self.associations.get_mut(&serial).unwrap();
        let place = ike
            .waiting
            .iter()
            .position(|w| w.message.number == message.number);
        let (Some(place), true) = (place, ike.phase != Phase::Closed) else {
            return (Came::Dropped, None);
        };
        let waiting = ike.waiting.remove(place);
        match (&waiting.message.body, &message.body) {
            (Body::Init, Body::InitAnswer) => {
                ike.peer_spi = message.from_spi;
                ike.phase = Phase::AuthSent;
                let body = Body::Auth {
                    entry: waiting.entry,
                    spi: waiting.own_spi,
                };
                let next = ike.send(now, body, waiting.own_spi, waiting.entry);
                (Came::Continued, Some(next))
            }
            (Body::Auth { .. }, Body::AuthAnswer { spi }) => {
                ike.phase = Phase::Established;
                ike.established_at = now;
                (self.made(now, serial, &waiting, *spi), None)
            }
            (Body::Child { .. }, Body::ChildAnswer { spi }) => {
                (self.made(now, serial, &waiting, *spi), None)
            }
            (Body::DeleteChild { spi }, _) => {
                let spi = *spi;
                self.pairs.retain(|_, pair| pair.own_spi != spi);
                (counted(serial, None, false), None)
            }
            (Body::DeleteIke, _) => {
                self.close(now, serial);
                (counted(serial, None, true), None)
            }
            _ => (counted(serial, None, false), None),
        }
    }

    fn made(&mut self, now: u64, serial: u32, waiting: &Waiting, spi: Option<u64>) -> Came {
        let child = spi.map(|spi| self.install(now, serial, waiting.entry, waiting.own_spi, spi));
        counted(serial, child, false)
    }

    fn request(
        &mut self,
        now: u64,
        serial: u32,
        message: &Message,
        spi: u64,
    ) -> (Came, Option<Message>) {
        let window = self.window;
        let ike = self.associations.get_mut(&serial).unwrap();
        if let Some(reply) = ike.replies.get(&message.number) {
            return (Came::Repeated { ike: serial }, Some(reply.clone()));
        }
        let auth = matches!(message.body, Body::Auth { .. });
        let fits = if auth {
            ike.phase == Phase::HalfOpen
        } else {
            ike.phase == Phase::Established
        };
        let inside = message.number >= ike.gap && message.number < ike.gap + window;
        if !fits || !inside {
            return (Came::Dropped, None);
        }
        let (came, answer) = self.effect(now, serial, message, spi);
        let ike = self.associations.get_mut(&serial).unwrap();
        let reply = ike.reply(message, answer);
        (came, Some(reply))
    }

    fn effect(&mut self, now: u64, serial: u32, message: &Message, spi: u64) -> (Came, Body) {
        let mut gone = Vec::new();
        match &message.body {
            Body::Auth { entry, spi: theirs } => {
                let ike = self.associations.get_mut(&serial).unwrap();
                ike.phase = Phase::Established;
                ike.established_at = now;
                ike.until = 0;
                let (child, spi) = self.accept(now, serial, *entry, *theirs, spi);
                let ike = serial;
                (Came::Admitted { ike, child }, Body::AuthAnswer { spi })
            }
            Body::Child { entry, spi: theirs } => {
                let (child, spi) = self.accept(now, serial, *entry, *theirs, spi);
                (
                    replied(serial, child, gone, false),
                    Body::ChildAnswer { spi },
                )
            }
            Body::DeleteChild { spi } => {
                let named = self
                    .pairs
                    .iter()
                    .find(|(_, pair)| pair.peer_spi == *spi && pair.live)
                    .map(|(child, _)| *child);
                if let Some(child) = named {
                    self.pairs.remove(&child);
                    gone.push(child);
                }
                (replied(serial, None, gone, false), Body::Empty)
            }
            Body::DeleteIke => {
                self.close(now, serial);
                (replied(serial, None, gone, true), Body::Empty)
            }
            _ => (replied(serial, None, gone, false), Body::Empty),
        }
    }

    fn accept(
        &mut self,
        now: u64,
        ike: u32,
        entry: u32,
        theirs: u64,
        spi: u64,
    ) -> (Option<u32>, Option<u64>) {
        if self.declines {
            return (None, None);
        }
        match self.reserve(spi) {
            Ok(spi) => (Some(self.install(now, ike, entry, spi, theirs)), Some(spi)),
            Err(_) => (None, None),
        }
    }
}

fn counted(ike: u32, child: Option<u32>, closed: bool) -> Came {
    Came::Counted { ike, child, closed }
}

fn replied(ike: u32, child: Option<u32>, gone: Vec<u32>, closed: bool) -> Came {
    Came::Replied {
        ike,
        child,
        gone,
        closed,
    }
}

impl Ike {
    fn new(own_spi: u64, peer_spi: u64, begun_here: bool, phase: Phase) -> Ike {
        Ike {
            own_spi,
            peer_spi,
            begun_here,
            phase,
            waiting: Vec::new(),
            established_at: 0,
            next: 0,
            gap: 0,
            replies: BTreeMap::new(),
            until: 0,
        }
    }

    fn send(&mut self, now: u64, body: Body, own_spi: u64, entry: u32) -> Message {
        let message = Message {
            from_spi: self.own_spi,
            to_spi: self.peer_spi,
            number: self.next,
            body,
        };
        self.next += 1;
        self.waiting.push(Waiting {
            message: message.clone(),
            own_spi,
            entry,
            due: now + 1_000,
            gap: 2_000,
            left: 5,
        });
        message
    }

    fn reply(&mut self, request: &Message, body: Body) -> Message {
        let reply = Message {
            from_spi: self.own_spi,
            to_spi: request.from_spi,
            number: request.number,
            body,
        };
        self.replies.insert(request.number, reply.clone());
        while self.replies.contains_key(&self.gap) {
            self.gap += 1;
        }
        let gap = self.gap;
        self.replies
            .retain(|number, _| number + KEPT_REPLIES >= gap);
        reply
    }
}
