//! The system, as Linux has it.

use super::control::Control;
use super::links::Links;
use super::notify::Notify;
use super::{calls, interface, Batch, EspPacket, Level, Ready, SiteKey, System};
use crate::config::{Config, Tun};
use crate::path::offload::Offloads;
use nix::poll::{poll, PollFd, PollFlags};
use nix::sys::signal::{SigSet, Signal};
use nix::sys::signalfd::{SfdFlags, SignalFd};
use std::collections::{BTreeMap, BTreeSet};
use std::fs::File;
use std::io::{self, Read, Write};
use std::net::{Ipv4Addr, SocketAddrV4, UdpSocket};
use std::os::unix::io::{AsRawFd, OwnedFd};
use std::path::{Path, PathBuf};
use std::time::{Duration, Instant};
use thiserror::Error;

/// The port of IKE (RFC 7296 section 2).
pub const IKE_PORT: u16 = 500;

/// How many octets may wait in a socket, of what came and of what goes out.
const QUEUE: i32 = 4 << 20;

/// Why the daemon can't begin.
#[derive(Debug, Error)]
pub enum StartFault {
    /// The port of IKE can't be had.
    #[error("UDP port 500 of {address}: {error}")]
    Ike {
        /// The address.
        address: Ipv4Addr,
        /// The system's word.
        error: io::Error,
    },
    /// The raw socket of ESP can't be had.
    #[error("a raw socket of protocol 50 at {address}: {error}")]
    Esp {
        /// The address.
        address: Ipv4Addr,
        /// The system's word.
        error: io::Error,
    },
    /// The socket for the status can't be had.
    #[error("the socket {}: {error}", path.display())]
    Control {
        /// Its path.
        path: PathBuf,
        /// The system's word.
        error: io::Error,
    },
    /// What becomes of interfaces isn't told.
    #[error("word of interfaces (netlink): {0}")]
    Links(io::Error),
    /// Signals can't be taken.
    #[error("signals: {0}")]
    Signals(#[from] nix::Error),
    /// Rights can't be given up.
    #[error("giving up rights: {0}")]
    Rights(io::Error),
}

/// A TUN interface that is open.
#[derive(Debug)]
struct Interface {
    file: File,
    /// The kernel's number for it.
    index: u32,
}

/// Linux.
#[derive(Debug)]
pub struct Linux {
    begun: Instant,
    configuration: PathBuf,
    ike: UdpSocket,
    esp: OwnedFd,
    inside: BTreeMap<SiteKey, Interface>,
    links: Links,
    /// The sites whose interfaces went, as was told before the loop waited.
    gone: BTreeSet<SiteKey>,
    control: Control,
    signals: SignalFd,
    notify: Notify,
    /// Whether lines of the log begin with their level, as the journal reads it.
    for_journal: bool,
}

impl Linux {
    /// Opens the sockets at an address, and the one for the status.
    pub fn open(
        local: Ipv4Addr,
        configuration: &Path,
        control: &Path,
    ) -> Result<Linux, StartFault> {
        let ike = open_ike(local).map_err(|error| StartFault::Ike {
            address: local,
            error,
        })?;
        let esp = calls::open_esp(local).map_err(|error| StartFault::Esp {
            address: local,
            error,
        })?;
        calls::widen(&ike, QUEUE);
        calls::widen(&esp, QUEUE);
        let links = Links::open().map_err(StartFault::Links)?;
        calls::widen(&links, QUEUE);
        let control = Control::open(control).map_err(|error| StartFault::Control {
            path: control.to_path_buf(),
            error,
        })?;
        let mut mask = SigSet::empty();
        for signal in [Signal::SIGTERM, Signal::SIGINT, Signal::SIGHUP] {
            mask.add(signal);
        }
        mask.thread_block()?;
        let flags = SfdFlags::SFD_NONBLOCK | SfdFlags::SFD_CLOEXEC;
        Ok(Linux {
            begun: Instant::now(),
            configuration: configuration.to_path_buf(),
            ike,
            esp,
            inside: BTreeMap::new(),
            links,
            gone: BTreeSet::new(),
            control,
            signals: SignalFd::with_flags(&mask, flags)?,
            notify: Notify::of_environment(),
            for_journal: std::env::var_os("JOURNAL_STREAM").is_some(),
        })
    }

    /// All is open: keeps only the rights to raw sockets and interfaces, and tells
    /// systemd that the daemon is there.
    pub fn begin(&mut self) -> Result<(), StartFault> {
        calls::drop_rights().map_err(StartFault::Rights)?;
        // A folder or a file that only root's full rights open was read before.
        if let Err(fault) = self.read_configuration() {
            let line = format!("SIGHUP won't be able to read the configuration: {fault}");
            self.log(Level::Warning, &line);
        }
        self.notify.tell_surely("READY=1");
        Ok(())
    }

    /// The daemon ends.
    pub fn end(&mut self) {
        self.notify.tell("STOPPING=1");
    }

    fn take_signals(&mut self, ready: &mut Ready) {
        while let Ok(Some(told)) = self.signals.read_signal() {
            match Signal::try_from(told.ssi_signo as i32) {
                Ok(Signal::SIGHUP) => ready.reload = true,
                _ => ready.terminate = true,
            }
        }
    }

    /// Takes note of the interfaces that were set down or deleted.
    fn take_links(&mut self) {
        let (indexes, lost) = self.links.take();
        let down = self.inside.iter();
        let down = down.filter(|(_, interface)| indexes.contains(&interface.index));
        self.gone.extend(down.map(|(site, _)| *site));
        if let Some(error) = lost {
            let line = format!("an interface may be without routes, its word was lost: {error}");
            self.log(Level::Warning, &line);
        }
    }

    /// How long to wait, in milliseconds as `poll` takes them: -1 for ever.
    fn patience(&mut self, until: Option<u64>) -> i32 {
        if !self.gone.is_empty() {
            return 0;
        }
        let now = self.now();
        let until = until.into_iter().chain(self.notify.next_moment()).min();
        until.map_or(-1, |moment| {
            i32::try_from(moment.saturating_sub(now)).unwrap_or(i32::MAX)
        })
    }
}

fn open_ike(local: Ipv4Addr) -> io::Result<UdpSocket> {
    let socket = UdpSocket::bind(SocketAddrV4::new(local, IKE_PORT))?;
    socket.set_nonblocking(true)?;
    Ok(socket)
}

impl System for Linux {
    fn now(&mut self) -> u64 {
        u64::try_from(self.begun.elapsed().as_millis()).unwrap_or(u64::MAX)
    }

    fn draw(&mut self, octets: &mut [u8]) -> io::Result<()> {
        getrandom::getrandom(octets).map_err(|error| match error.raw_os_error() {
            Some(code) => io::Error::from_raw_os_error(code),
            None => io::Error::other(error.to_string()),
        })
    }

    fn wait(&mut self, until: Option<u64>, inside: &[SiteKey]) -> Ready {
        let patience = self.patience(until);
        let descriptors = [
            self.signals.as_raw_fd(),
            self.control.as_raw_fd(),
            self.ike.as_raw_fd(),
            self.esp.as_raw_fd(),
            self.links.as_raw_fd(),
        ];
        let interfaces: Vec<(SiteKey, i32)> = inside
            .iter()
            .filter_map(|site| Some((*site, self.inside.get(site)?.file.as_raw_fd())))
            .collect();
        let mut polled: Vec<PollFd> = descriptors
            .into_iter()
            .chain(interfaces.iter().map(|(_, descriptor)| *descriptor))
            .map(|descriptor| PollFd::new(descriptor, PollFlags::POLLIN))
            .collect();
        match poll(&mut polled, patience) {
            Ok(_) => {}
            // A signal that isn't taken here.
            Err(nix::Error::EINTR) => return Ready::default(),
            Err(error) => {
                self.log(Level::Error, &format!("poll: {error}"));
                std::thread::sleep(Duration::from_millis(100));
                return Ready::default();
            }
        }
        // An error of a socket is taken by reading it, and so is the end of an interface.
        let happened = |polled: &PollFd| polled.revents().is_some_and(|flags| !flags.is_empty());
        let (first, others) = polled.split_at(descriptors.len());
        let told: Vec<bool> = first.iter().map(happened).collect();
        let mut ready = Ready {
            status: told[1],
            ike: told[2],
            esp: told[3],
            inside: interfaces
                .iter()
                .zip(others)
                .filter(|(_, polled)| happened(polled))
                .map(|((site, _), _)| *site)
                .collect(),
            ..Ready::default()
        };
        if told[0] {
            self.take_signals(&mut ready);
        }
        if told[4] {
            self.take_links();
        }
        ready.gone = std::mem::take(&mut self.gone).into_iter().collect();
        ready
    }

    fn receive_ike(&mut self, batch: &mut Batch) -> io::Result<()> {
        calls::receive(&self.ike, batch)
    }

    fn receive_esp(&mut self, batch: &mut Batch) -> io::Result<()> {
        calls::receive(&self.esp, batch)
    }

    fn send_ike(&mut self, to: SocketAddrV4, message: &[u8]) -> io::Result<()> {
        self.ike.send_to(message, to).map(|_| ())
    }

    fn send_esp(&mut self, to: Ipv4Addr, octets: &[u8], list: &[EspPacket]) -> io::Result<usize> {
        calls::send_esp(&self.esp, to, octets, list)
    }

    fn path_mtu(&mut self, to: Ipv4Addr) -> io::Result<u16> {
        // Connected it knows the way; nothing is sent by it.
        let local = match self.ike.local_addr()? {
            std::net::SocketAddr::V4(address) => *address.ip(),
            std::net::SocketAddr::V6(_) => Ipv4Addr::UNSPECIFIED,
        };
        let socket = UdpSocket::bind(SocketAddrV4::new(local, 0))?;
        socket.connect(SocketAddrV4::new(to, IKE_PORT))?;
        calls::path_mtu(&socket)
    }

    fn heed_path_mtu(&mut self, heeds: bool) -> io::Result<()> {
        calls::heed_path_mtu(&self.esp, heeds)
    }

    fn open_inside(&mut self, site: SiteKey, tun: &Tun) -> io::Result<Offloads> {
        self.close_inside(site);
        let (file, offloads) = calls::open_tun(&tun.name)?;
        let index = calls::index_of(&tun.name)?;
        interface::set_up(tun)?;
        // Until it was set up it was down, and that was told too. It is of no account, so it
        // is taken before the interface is one of ours; what is told of others is kept.
        self.take_links();
        self.inside.insert(site, Interface { file, index });
        Ok(offloads)
    }

    fn close_inside(&mut self, site: SiteKey) {
        self.inside.remove(&site);
        self.gone.remove(&site);
    }

    fn read_inside(&mut self, site: SiteKey, buffer: &mut [u8]) -> io::Result<usize> {
        match self.inside.get_mut(&site) {
            Some(interface) => interface.file.read(buffer),
            None => Err(io::Error::from(io::ErrorKind::NotConnected)),
        }
    }

    fn write_inside(&mut self, site: SiteKey, octets: &[u8]) -> io::Result<()> {
        match self.inside.get_mut(&site) {
            // The device takes a packet whole or not at all.
            Some(interface) => interface.file.write(octets).map(|_| ()),
            None => Err(io::Error::from(io::ErrorKind::NotConnected)),
        }
    }

    fn read_configuration(&mut self) -> Result<Config, String> {
        Config::read(&self.configuration).map_err(|fault| fault.to_string())
    }

    fn answer_status(&mut self, json: &str) {
        self.control.answer(json);
    }

    fn alive(&mut self) {
        let now = self.now();
        self.notify.alive(now);
    }

    fn log(&mut self, level: Level, line: &str) {
        let (number, word) = match level {
            Level::Error => (3, "error: "),
            Level::Warning => (4, "warning: "),
            Level::Info => (6, ""),
        };
        let line = match self.for_journal {
            true => format!("<{number}>{line}\n"),
            false => format!("{word}{line}\n"),
        };
        // In one write, so that lines of two daemons stay apart. Nothing is
        // done about a log that can't be written.
        let _ = io::stderr().write_all(line.as_bytes());
    }
}
