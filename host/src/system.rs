//! What the daemon's loop wants of the system: moments, randomness, sockets, interfaces.
//!
//! [`System`] is what the loop calls. [`linux`] has it for Linux, tests have one that
//! needs neither sockets nor root. All `unsafe` code of this crate is in one module
//! below, which makes the system calls that the standard library and `nix` don't have.

mod batch;
#[allow(unsafe_code)]
mod calls;
mod control;
mod interface;
mod links;
pub mod linux;
mod notify;

pub use batch::{Batch, Received};
pub use control::ask_status;

use crate::config::{Config, Tun};
use crate::path::offload::Offloads;
use std::io;
use std::net::{Ipv4Addr, SocketAddrV4};
use std::ops::Range;

/// The most datagrams or packets of one list.
pub const LIST: usize = 64;

/// The daemon's number for a site. None is used twice.
#[derive(Clone, Copy, Debug, PartialEq, Eq, PartialOrd, Ord)]
pub struct SiteKey(pub u32);

/// How grave a line of the log is.
#[derive(Clone, Copy, Debug, PartialEq, Eq, PartialOrd, Ord)]
pub enum Level {
    /// Something doesn't work.
    Error,
    /// Something was refused, or works again and again.
    Warning,
    /// Something changed.
    Info,
}

/// What happened while the loop waited.
#[derive(Clone, Debug, Default, PartialEq, Eq)]
pub struct Ready {
    /// SIGTERM or SIGINT came.
    pub terminate: bool,
    /// SIGHUP came.
    pub reload: bool,
    /// Datagrams of IKE may be there.
    pub ike: bool,
    /// ESP packets may be there.
    pub esp: bool,
    /// Packets may be there on these sites' interfaces.
    pub inside: Vec<SiteKey>,
    /// These sites' interfaces were set down or deleted: what led to them is gone.
    pub gone: Vec<SiteKey>,
    /// Somebody asks for the status.
    pub status: bool,
}

/// An ESP packet that goes out.
#[derive(Clone, Debug, PartialEq, Eq)]
pub struct EspPacket {
    /// Where it is in the octets that are sent.
    pub place: Range<usize>,
    /// DSCP and ECN of its outer header.
    pub class: u8,
}

/// What the loop wants of the system. Nothing waits but [`System::wait`].
pub trait System {
    /// The moment, in milliseconds from any beginning. It never goes back.
    fn now(&mut self) -> u64;

    /// Fills octets with randomness that nobody can foretell.
    fn draw(&mut self, octets: &mut [u8]) -> io::Result<()>;

    /// Waits until a moment at most, or until something happens. Of the interfaces
    /// only those of these sites are looked at.
    fn wait(&mut self, until: Option<u64>, inside: &[SiteKey]) -> Ready;

    /// Fills a batch with datagrams of IKE, if there are any.
    fn receive_ike(&mut self, batch: &mut Batch) -> io::Result<()>;

    /// Fills a batch with what the raw socket of protocol 50 has, if anything.
    fn receive_esp(&mut self, batch: &mut Batch) -> io::Result<()>;

    /// Sends a datagram of IKE.
    fn send_ike(&mut self, to: SocketAddrV4, message: &[u8]) -> io::Result<()>;

    /// Sends ESP packets in one run, and tells how many the kernel took: an error is that
    /// of the first.
    fn send_esp(&mut self, to: Ipv4Addr, octets: &[u8], list: &[EspPacket]) -> io::Result<usize>;

    /// The MTU of the path to an address, in octets, as far as the kernel knows it.
    fn path_mtu(&mut self, to: Ipv4Addr) -> io::Result<u16>;

    /// Whether the kernel is to refuse ESP packets that are longer than what it knows of their
    /// path, or only those that are too long for the first link. None is cut either way.
    fn heed_path_mtu(&mut self, heeds: bool) -> io::Result<()>;

    /// Makes a site's interface, and tells the offloads that the kernel agreed to.
    fn open_inside(&mut self, site: SiteKey, tun: &Tun) -> io::Result<Offloads>;

    /// Lets a site's interface go.
    fn close_inside(&mut self, site: SiteKey);

    /// One read of a site's interface: a virtio header and a packet.
    fn read_inside(&mut self, site: SiteKey, buffer: &mut [u8]) -> io::Result<usize>;

    /// One write to a site's interface: a virtio header and a packet.
    fn write_inside(&mut self, site: SiteKey, octets: &[u8]) -> io::Result<()>;

    /// Reads the configuration anew.
    fn read_configuration(&mut self) -> Result<Config, String>;

    /// Answers those who asked for the status.
    fn answer_status(&mut self, json: &str);

    /// The loop has gone round: tells the watchdog so, where there is one.
    fn alive(&mut self);

    /// Writes a line of the log.
    fn log(&mut self, level: Level, line: &str);
}
