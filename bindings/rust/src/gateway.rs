//! One gateway.

use crate::calls::GatewayHandle;
use crate::ffi;
use crate::{
    Association, Child, Config, Entry, Error, Fresh, Keys, Output, Place, Record, Refusal, Resent,
};
use std::fmt;
use std::net::Ipv4Addr;

/// A gateway: the machine of IKE and the path of packets with one peer, over one table of SAs and one policy.
///
/// It stays on the thread that made it. When it is dropped its memory is overwritten and freed.
pub struct Gateway {
    handle: GatewayHandle,
}

impl Gateway {
    /// A gateway of this configuration and policy, with no IKE SA.
    ///
    /// [`Error::Configuration`], [`Error::Spi`] and [`Error::Policy`] tell what can't be used, and [`Error::Memory`] that memory ran out.
    pub fn new(config: &Config<'_>, policy: &[Entry]) -> Result<Gateway, Error> {
        Gateway::made(config, policy, false)
    }

    /// The same, but it also tells its keys ([`Gateway::keys`]): for tests, and for programs that read captured messages.
    pub fn telling_keys(config: &Config<'_>, policy: &[Entry]) -> Result<Gateway, Error> {
        Gateway::made(config, policy, true)
    }

    fn made(config: &Config<'_>, policy: &[Entry], tells_keys: bool) -> Result<Gateway, Error> {
        let entries: Vec<ffi::Entry> =
            policy.iter().map(Entry::record).collect::<Result<_, _>>()?;
        let mut handle = GatewayHandle::none();
        Error::check(handle.new_gateway(
            &config.terms(tells_keys),
            &config.own.identity.octets(),
            &config.peer.identity.octets(),
            config.own.secret,
            config.peer.secret,
            &entries,
        ))?;
        Ok(Gateway { handle })
    }

    /// A datagram of IKE that came from this address, without its UDP header (and without the four zeros of port 4500).
    ///
    /// Gives a reply, a repeated reply, a request, `Counted`, `Dropped` or `Refused`.
    pub fn ike(
        &mut self,
        from: Ipv4Addr,
        datagram: &[u8],
        fresh: Fresh,
    ) -> Result<Output<'static>, Error> {
        let mut told = ffi::Output::default();
        Error::check(
            self.handle
                .ike(&from.octets(), datagram, &fresh.0, &mut told),
        )?;
        self.output_of_ike(&told)
    }

    /// The command to ask the peer for a Child SA by an entry of the policy, its place counted from 0: with a new IKE SA, or as an
    /// additional one of the IKE SA that is named.
    ///
    /// Gives a request, or `Refused`: E23 where there is no such entry or it doesn't protect, E25 and E26 where the table is full or its
    /// SPIs are spent, E28, E32, E35 and E36 of the IKE SA, E37 of the fresh SPI.
    pub fn start(
        &mut self,
        ike: Option<u32>,
        entry: u32,
        fresh: Fresh,
    ) -> Result<Output<'static>, Error> {
        let mut told = ffi::Output::default();
        Error::check(
            self.handle
                .start(ike.unwrap_or(0), entry, &fresh.0, &mut told),
        )?;
        self.output_of_ike(&told)
    }

    /// The command to ask the peer of an IKE SA whether it is there (RFC 7296 section 2.4).
    ///
    /// Gives a request, or `Refused` (E28, E32, E35, E36).
    pub fn probe(&mut self, ike: u32, fresh: Fresh) -> Result<Output<'static>, Error> {
        let mut told = ffi::Output::default();
        Error::check(self.handle.probe(ike, &fresh.0, &mut told))?;
        self.output_of_ike(&told)
    }

    /// The command to delete a Child SA: from then on it carries nothing outward, and it goes with the peer's answer.
    ///
    /// Gives a request, or `Refused` (E28, E32, E35, E36).
    pub fn delete_child(&mut self, child: u32, fresh: Fresh) -> Result<Output<'static>, Error> {
        let mut told = ffi::Output::default();
        Error::check(self.handle.delete_child(child, &fresh.0, &mut told))?;
        self.output_of_ike(&told)
    }

    /// The command to delete an IKE SA with all its Child SAs.
    ///
    /// Gives a request, or `Refused` (E28, E32, E35, E36).
    pub fn delete_ike(&mut self, ike: u32, fresh: Fresh) -> Result<Output<'static>, Error> {
        let mut told = ffi::Output::default();
        Error::check(self.handle.delete_ike(ike, &fresh.0, &mut told))?;
        self.output_of_ike(&told)
    }

    /// The command to make cookies under another secret, of unpredictable octets. The one before stays good.
    ///
    /// Gives `Done`, or `Refused` (E36).
    pub fn secret(&mut self, secret: &[u8; 32]) -> Result<Output<'static>, Error> {
        let mut told = ffi::Output::default();
        Error::check(self.handle.secret(secret, &mut told))?;
        self.output_of_ike(&told)
    }

    /// The time, in milliseconds from any beginning. An earlier moment counts as the greatest so far.
    ///
    /// Gives `Ticked`, or `Refused` where it is out of memory.
    pub fn tick(&mut self, moment: u64) -> Result<Output<'static>, Error> {
        let mut told = ffi::Output::default();
        Error::check(self.handle.tick(moment, &mut told))?;
        self.output_of_ike(&told)
    }

    /// When [`Gateway::tick`] is due next; none where nothing will ever be due. It may change with each input.
    pub fn next_moment(&mut self) -> Result<Option<u64>, Error> {
        let mut moment = 0;
        told(self.handle.next(&mut moment), moment)
    }

    /// An ESP packet that came, from its SPI on. It takes no memory.
    ///
    /// Gives `Up` with a part of the packet, `Dummy` or `Dropped`.
    pub fn esp<'p>(&mut self, packet: &'p [u8]) -> Result<Output<'p>, Error> {
        let mut told = ffi::Output::default();
        Error::check(self.handle.esp(packet, &mut told))?;
        output_of_packet(&told, packet, &[])
    }

    /// A whole IPv4 or IPv6 packet on its way out, sealed into the room where it is protected. The room has at least
    /// [`room_for`](crate::room_for) the packet's octets; [`Error::Room`] where it hasn't, and then nothing was done.
    ///
    /// Gives `Sealed` with a part of the room, `Clear`, `Discarded`, `Dropped` or `Refused`.
    pub fn outward<'p>(
        &mut self,
        packet: &'p [u8],
        room: &'p mut [u8],
    ) -> Result<Output<'p>, Error> {
        let mut told = ffi::Output::default();
        Error::check(self.handle.outward(packet, room, &mut told))?;
        output_of_packet(&told, packet, room)
    }

    /// ESP packets that came, each in its place in one buffer: as so many calls of [`Gateway::esp`] in their order, with a record for
    /// each. Up to 64 at a time have their ICVs computed side by side.
    ///
    /// [`Error::Room`] where there are fewer records than places, and then nothing was done. [`Record::output`] tells what came of a
    /// packet; one whose place isn't in the buffer is refused alone.
    pub fn esp_all(
        &mut self,
        octets: &[u8],
        places: &[Place],
        records: &mut [Record],
    ) -> Result<(), Error> {
        Error::check(self.handle.esp_all(octets, places, records))
    }

    /// Whole packets on their way out, each in its place in one buffer: as so many calls of [`Gateway::outward`] in their order, with a
    /// record for each. Sealed packets lie one behind the other in the room from its beginning; [`room_for`](crate::room_for) each
    /// packet's octets, added up, are always enough.
    ///
    /// [`Error::Room`] where there are fewer records than places, and then nothing was done. [`Record::output`] tells what came of a
    /// packet; one whose place isn't in the buffer, or for which too little of the room is left, is refused alone.
    pub fn outward_all(
        &mut self,
        octets: &[u8],
        places: &[Place],
        room: &mut [u8],
        records: &mut [Record],
    ) -> Result<(), Error> {
        Error::check(self.handle.outward_all(octets, places, room, records))
    }

    /// A whole packet that came in unprotected.
    ///
    /// Gives `Clear`, `Discarded` (also where the policy protects its flow) or `Dropped`.
    pub fn inward<'p>(&mut self, packet: &'p [u8]) -> Result<Output<'p>, Error> {
        let mut told = ffi::Output::default();
        Error::check(self.handle.inward(packet, &mut told))?;
        output_of_packet(&told, packet, &[])
    }

    /// The Child SAs, by rising serial. An IKE SA's first child is there from the answer of IKE_AUTH on.
    pub fn children(&mut self) -> Result<Vec<Child>, Error> {
        let mut children = Vec::new();
        let mut after = 0;
        while let Some(record) = self.child_after(after)? {
            after = record.serial;
            let locals = self.selectors(record.serial, false, record.locals)?;
            let remotes = self.selectors(record.serial, true, record.remotes)?;
            children.push(Child::of(&record, locals, remotes));
        }
        Ok(children)
    }

    /// The IKE SAs that are held, those half open or closed among them.
    pub fn associations(&mut self) -> Result<Vec<Association>, Error> {
        let mut room = [ffi::Association::default(); 160];
        let mut count = 0;
        Error::check(self.handle.associations(&mut room, &mut count))?;
        let count = usize::try_from(count).map_err(|_| Error::Room)?;
        let records = room.get(..count).ok_or(Error::Room)?;
        Ok(records.iter().map(Association::of).collect())
    }

    /// The keys of an IKE SA, by its serial: they are secrets.
    ///
    /// [`Error::Nothing`] where the gateway wasn't made by [`Gateway::telling_keys`], no such IKE SA is held, or it has no keys yet.
    pub fn keys(&mut self, ike: u32) -> Result<Keys, Error> {
        let mut record = ffi::Keys::default();
        Error::check(self.handle.keys(ike, &mut record))?;
        Ok(Keys::of(&record))
    }

    fn child_after(&mut self, serial: u32) -> Result<Option<ffi::Child>, Error> {
        let mut record = ffi::Child::default();
        let code = self.handle.child_after(serial, &mut record);
        told(code, record)
    }

    fn selectors(
        &mut self,
        child: u32,
        remote: bool,
        count: u64,
    ) -> Result<Vec<crate::Selector>, Error> {
        let mut selectors = Vec::new();
        for place in 0..count {
            let mut record = ffi::Selector::default();
            Error::check(self.handle.selector(child, remote, place, &mut record))?;
            selectors.push(crate::Selector::of(&record));
        }
        Ok(selectors)
    }

    // The messages of an output are kept in the handle until its next input: here they are taken at once.
    fn output_of_ike(&mut self, told: &ffi::Output) -> Result<Output<'static>, Error> {
        Ok(match told.kind {
            ffi::SUK_REPLY => Output::Reply {
                octets: self.message(0)?.octets,
                ike: serial(told.ike),
                child: serial(told.child),
                closed: serial(told.closed),
            },
            ffi::SUK_REPEAT => Output::Repeat {
                octets: self.message(0)?.octets,
            },
            ffi::SUK_REQUEST => Output::Request {
                ike: told.ike,
                octets: self.message(0)?.octets,
            },
            ffi::SUK_COUNTED => Output::Counted {
                ike: told.ike,
                child: serial(told.child),
                closed: serial(told.closed),
            },
            ffi::SUK_TICKED => Output::Ticked {
                requests: (0..told.messages)
                    .map(|place| self.message(place))
                    .collect::<Result<_, _>>()?,
                closed: (0..told.closings)
                    .map(|place| self.closing(place))
                    .collect::<Result<_, _>>()?,
            },
            ffi::SUK_DONE => Output::Done,
            _ => return unsent(told),
        })
    }

    fn message(&mut self, place: u64) -> Result<Resent, Error> {
        // Longer than any message of the core, which has at most 3000 octets.
        let mut room = [0; 4096];
        let mut record = ffi::Message::default();
        Error::check(self.handle.message(place, &mut room, &mut record))?;
        Ok(Resent {
            ike: record.ike,
            octets: part(&room, 0, record.length)?.to_vec(),
        })
    }

    fn closing(&mut self, place: u64) -> Result<u32, Error> {
        let mut ike = 0;
        Error::check(self.handle.closing(place, &mut ike))?;
        Ok(ike)
    }
}

impl fmt::Debug for Gateway {
    fn fmt(&self, f: &mut fmt::Formatter<'_>) -> fmt::Result {
        f.write_str("Gateway { .. }")
    }
}

pub(crate) fn output_of_packet<'p>(
    told: &ffi::Output,
    packet: &'p [u8],
    room: &'p [u8],
) -> Result<Output<'p>, Error> {
    Ok(match told.kind {
        ffi::SUK_UP => Output::Up {
            child: told.child,
            number: told.number,
            packet: part(packet, told.offset, told.length)?,
        },
        ffi::SUK_DUMMY => Output::Dummy {
            child: told.child,
            number: told.number,
        },
        ffi::SUK_SEALED => Output::Sealed {
            child: told.child,
            number: told.number,
            octets: part(room, told.offset, told.length)?,
        },
        ffi::SUK_CLEAR => Output::Clear { packet },
        ffi::SUK_DISCARDED => Output::Discarded,
        _ => return unsent(told),
    })
}

// The outputs that every input can have.
fn unsent<'p>(told: &ffi::Output) -> Result<Output<'p>, Error> {
    let reason = Refusal::of_code(told.code);
    match (told.kind, reason) {
        (ffi::SUK_DROPPED, Some(reason)) => Ok(Output::Dropped { reason }),
        (ffi::SUK_REFUSED, Some(reason)) => Ok(Output::Refused { reason }),
        (kind, _) => Err(Error::Unknown(kind)),
    }
}

// The octets at a place that the library told. It told another one only if it isn't the library that it should be.
pub(crate) fn part(octets: &[u8], offset: u64, length: u64) -> Result<&[u8], Error> {
    let wrong = Error::Unknown(0);
    let start = usize::try_from(offset).map_err(|_| wrong)?;
    let length = usize::try_from(length).map_err(|_| wrong)?;
    let end = start.checked_add(length).ok_or(wrong)?;
    octets.get(start..end).ok_or(wrong)
}

// A serial of 0 names nothing.
fn serial(told: u32) -> Option<u32> {
    (told != 0).then_some(told)
}

// What a view told, or that there is no such thing.
fn told<T>(code: u32, value: T) -> Result<Option<T>, Error> {
    match Error::check(code) {
        Ok(()) => Ok(Some(value)),
        Err(Error::Nothing) => Ok(None),
        Err(error) => Err(error),
    }
}
