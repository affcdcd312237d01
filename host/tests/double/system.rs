//! A system without sockets, whose moments the test tells.

use crate::simulation::random::Random;
use std::collections::{BTreeMap, VecDeque};
use std::io;
use std::net::{Ipv4Addr, SocketAddrV4};
use sukperind::config::{Config, Tun};
use sukperind::path::offload::Offloads;
use sukperind::system::{Batch, EspPacket, Level, Ready, SiteKey, System, LIST};

/// What a system is to do wrong from now on.
#[derive(Clone, Debug, Default)]
pub struct Faults {
    /// Errors of reading the sockets, by `errno`.
    pub receive: Option<i32>,
    /// Errors of sending IKE and ESP.
    pub send: Option<i32>,
    /// How many ESP packets a run takes before it stops.
    pub room: Option<usize>,
    /// The longest ESP packet that the path takes, with its outer header.
    pub path: Option<u16>,
    /// What the kernel was made to believe of the path, by a forged message.
    pub forged: Option<u16>,
    /// Errors of reading the interface.
    pub read_inside: Option<i32>,
    /// Errors of writing it.
    pub write_inside: Option<i32>,
    /// Whether no interface can be made.
    pub open_inside: bool,
    /// Whether there is no randomness.
    pub draw: bool,
}

pub struct Fake {
    pub now: u64,
    pub faults: Faults,
    pub ike_in: VecDeque<(SocketAddrV4, Vec<u8>)>,
    pub esp_in: VecDeque<Vec<u8>>,
    pub inside_in: VecDeque<Vec<u8>>,
    pub ike_out: Vec<(SocketAddrV4, Vec<u8>)>,
    /// Each run of ESP packets, with the class of each.
    pub esp_out: Vec<Vec<(u8, Vec<u8>)>>,
    pub inside_out: Vec<Vec<u8>>,
    pub inside: BTreeMap<SiteKey, Tun>,
    pub opened: u32,
    /// Whether the kernel's idea of the path is heeded.
    pub heeds: bool,
    pub log: Vec<String>,
    /// The lines of the log that are warnings, by their places.
    pub warnings: Vec<usize>,
    pub configuration: Result<Config, String>,
    pub status: Option<String>,
    /// What happens at each wait; after it there is a signal to end.
    pub script: VecDeque<Ready>,
    pub turns: u32,
    random: Random,
}

impl Fake {
    pub fn new(seed: u64) -> Fake {
        Fake {
            now: 1_000,
            faults: Faults::default(),
            ike_in: VecDeque::new(),
            esp_in: VecDeque::new(),
            inside_in: VecDeque::new(),
            ike_out: Vec::new(),
            esp_out: Vec::new(),
            inside_out: Vec::new(),
            inside: BTreeMap::new(),
            opened: 0,
            heeds: true,
            log: Vec::new(),
            warnings: Vec::new(),
            configuration: Err("no file".to_string()),
            status: None,
            script: VecDeque::new(),
            turns: 0,
            random: Random::new(seed),
        }
    }

    /// All that may be ready.
    pub fn all(&self) -> Ready {
        Ready {
            ike: true,
            esp: true,
            inside: self.inside.keys().copied().collect(),
            ..Ready::default()
        }
    }

    pub fn logged(&self, words: &str) -> usize {
        self.log.iter().filter(|line| line.contains(words)).count()
    }

    /// How many lines with these words are warnings.
    pub fn warned(&self, words: &str) -> usize {
        let warnings = self.warnings.iter().map(|place| &self.log[*place]);
        warnings.filter(|line| line.contains(words)).count()
    }
}

fn fault(code: Option<i32>) -> io::Result<()> {
    code.map_or(Ok(()), |code| Err(io::Error::from_raw_os_error(code)))
}

fn nothing() -> io::Error {
    io::Error::from(io::ErrorKind::WouldBlock)
}

impl System for Fake {
    fn now(&mut self) -> u64 {
        self.now
    }

    fn draw(&mut self, octets: &mut [u8]) -> io::Result<()> {
        if self.faults.draw {
            return Err(io::Error::from_raw_os_error(libc::ENOSYS));
        }
        for octet in octets {
            *octet = self.random.next() as u8;
        }
        Ok(())
    }

    fn wait(&mut self, until: Option<u64>, inside: &[SiteKey]) -> Ready {
        self.turns += 1;
        let ready = self.script.pop_front();
        let mut ready = ready.unwrap_or_else(|| {
            self.now = until.unwrap_or(self.now).max(self.now);
            Ready {
                terminate: true,
                ..self.all()
            }
        });
        ready.inside.retain(|site| inside.contains(site));
        ready
    }

    fn receive_ike(&mut self, batch: &mut Batch) -> io::Result<()> {
        fault(self.faults.receive)?;
        batch.clear();
        for _ in 0..LIST {
            let Some((from, datagram)) = self.ike_in.pop_front() else {
                break;
            };
            batch.put(*from.ip(), from.port(), &datagram);
        }
        match batch.received().is_empty() {
            true => Err(nothing()),
            false => Ok(()),
        }
    }

    fn receive_esp(&mut self, batch: &mut Batch) -> io::Result<()> {
        fault(self.faults.receive)?;
        batch.clear();
        for _ in 0..LIST {
            let Some(packet) = self.esp_in.pop_front() else {
                break;
            };
            batch.put(Ipv4Addr::UNSPECIFIED, 0, &packet);
        }
        match batch.received().is_empty() {
            true => Err(nothing()),
            false => Ok(()),
        }
    }

    fn send_ike(&mut self, to: SocketAddrV4, message: &[u8]) -> io::Result<()> {
        fault(self.faults.send)?;
        self.ike_out.push((to, message.to_vec()));
        Ok(())
    }

    fn send_esp(&mut self, _: Ipv4Addr, octets: &[u8], list: &[EspPacket]) -> io::Result<usize> {
        assert!(list.len() <= LIST, "no list is longer");
        fault(self.faults.send)?;
        let most = self.faults.room.unwrap_or(LIST);
        if most == 0 {
            return Err(io::Error::from_raw_os_error(libc::ENOBUFS));
        }
        let fits = |packet: &&EspPacket| {
            let forged = self.faults.forged.filter(|_| self.heeds);
            let path = forged.or(self.faults.path).unwrap_or(u16::MAX);
            packet.place.len() + 20 <= usize::from(path)
        };
        let run: Vec<(u8, Vec<u8>)> = list
            .iter()
            .take(most)
            .take_while(fits)
            .map(|packet| (packet.class, octets[packet.place.clone()].to_vec()))
            .collect();
        let count = run.len();
        if count == 0 {
            return Err(io::Error::from_raw_os_error(libc::EMSGSIZE));
        }
        if let Some(room) = &mut self.faults.room {
            *room -= count;
        }
        self.esp_out.push(run);
        Ok(count)
    }

    fn path_mtu(&mut self, _: Ipv4Addr) -> io::Result<u16> {
        Ok(self.faults.forged.or(self.faults.path).unwrap_or(1_500))
    }

    fn heed_path_mtu(&mut self, heeds: bool) -> io::Result<()> {
        self.heeds = heeds;
        Ok(())
    }

    fn open_inside(&mut self, site: SiteKey, tun: &Tun) -> io::Result<Offloads> {
        if self.faults.open_inside {
            return Err(io::Error::from_raw_os_error(libc::EBUSY));
        }
        // As Linux has it: one holder of a name, and one route to a network.
        self.inside.remove(&site);
        for held in self.inside.values() {
            if held.name == tun.name {
                return Err(io::Error::from_raw_os_error(libc::EBUSY));
            }
            if tun.routes.iter().any(|route| held.routes.contains(route)) {
                return Err(io::Error::from_raw_os_error(libc::EEXIST));
            }
        }
        self.opened += 1;
        self.inside.insert(site, tun.clone());
        Ok(Offloads::NONE)
    }

    fn close_inside(&mut self, site: SiteKey) {
        self.inside.remove(&site);
    }

    fn read_inside(&mut self, site: SiteKey, buffer: &mut [u8]) -> io::Result<usize> {
        assert!(self.inside.contains_key(&site), "what is gone isn't read");
        fault(self.faults.read_inside)?;
        let packet = self.inside_in.pop_front().ok_or_else(nothing)?;
        buffer[..packet.len()].copy_from_slice(&packet);
        Ok(packet.len())
    }

    fn write_inside(&mut self, site: SiteKey, octets: &[u8]) -> io::Result<()> {
        assert!(
            self.inside.contains_key(&site),
            "what is gone isn't written"
        );
        fault(self.faults.write_inside)?;
        self.inside_out.push(octets.to_vec());
        Ok(())
    }

    fn read_configuration(&mut self) -> Result<Config, String> {
        self.configuration.clone()
    }

    fn answer_status(&mut self, json: &str) {
        self.status = Some(json.to_string());
    }

    fn alive(&mut self) {}

    fn log(&mut self, level: Level, line: &str) {
        if level == Level::Warning {
            self.warnings.push(self.log.len());
        }
        self.log.push(line.to_string());
    }
}
