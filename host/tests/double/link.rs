//! Two daemons and the wire between them.

use super::core::Double;
use super::packets::{ike_at, outer};
use super::system::Fake;
use std::fs;
use std::net::Ipv4Addr;
use std::os::unix::fs::PermissionsExt;
use std::sync::atomic::{AtomicU32, Ordering};
use sukperind::config::Config;
use sukperind::daemon::Daemon;
use sukperind::status::Status;
use sukperind::system::Ready;

pub const LEFT: Ipv4Addr = Ipv4Addr::new(192, 0, 2, 1);
pub const RIGHT: Ipv4Addr = Ipv4Addr::new(192, 0, 2, 2);
pub const INSIDE_LEFT: Ipv4Addr = Ipv4Addr::new(10, 0, 0, 7);
pub const INSIDE_RIGHT: Ipv4Addr = Ipv4Addr::new(10, 1, 0, 7);

static FOLDERS: AtomicU32 = AtomicU32::new(0);

/// The configuration of an end, 0 for the left one, which begins. `more` is put behind the
/// keys of the peer.
pub fn config(end: usize, more: &str) -> Config {
    let addresses = [LEFT, RIGHT];
    let nets = ["10.0.0.0/24", "10.1.0.0/24"];
    let (own, other) = (end, 1 - end);
    let text = format!(
        "local = \"{}\"\n\
         [[peers]]\n\
         name = \"other\"\n\
         address = \"{}\"\n\
         begins = {}\n\
         own_identity = {{ type = \"fqdn\", value = \"end{own}.example\" }}\n\
         peer_identity = {{ type = \"fqdn\", value = \"end{other}.example\" }}\n\
         secret_file = \"secret\"\n\
         {more}\n\
         [[peers.entries]]\n\
         action = \"protect\"\n\
         local = \"{}\"\n\
         remote = \"{}\"\n\
         [peers.tun]\n\
         name = \"suk{end}\"\n",
        addresses[own],
        addresses[other],
        end == 0,
        nets[own],
        nets[other],
    );
    read(&text)
}

/// Reads a configuration of this text.
pub fn read(text: &str) -> Config {
    let number = FOLDERS.fetch_add(1, Ordering::Relaxed);
    let name = format!("sukperind-loop-{}-{number}", std::process::id());
    let folder = std::env::temp_dir().join(name);
    fs::create_dir_all(&folder).unwrap();
    let secret = folder.join("secret");
    fs::write(&secret, "some secret").unwrap();
    fs::set_permissions(&secret, fs::Permissions::from_mode(0o600)).unwrap();
    let file = folder.join("end.toml");
    fs::write(&file, text).unwrap();
    let config = Config::read(&file).unwrap_or_else(|fault| panic!("{fault}"));
    fs::remove_dir_all(&folder).unwrap();
    config
}

pub struct End {
    pub daemon: Daemon<Double>,
    pub system: Fake,
    pub address: Ipv4Addr,
}

impl End {
    pub fn new(end: usize, config: Config) -> End {
        let mut system = Fake::new(end as u64 + 1);
        let daemon = Daemon::new(config, &mut system).unwrap();
        End {
            daemon,
            system,
            address: [LEFT, RIGHT][end],
        }
    }

    pub fn turn(&mut self, ready: &Ready) {
        let mut ready = ready.clone();
        let readable = self.daemon.readable();
        ready.inside.retain(|site| readable.contains(site));
        self.daemon.turn(&mut self.system, &ready).unwrap();
    }

    pub fn turn_all(&mut self) {
        let ready = self.system.all();
        self.turn(&ready);
    }

    pub fn status(&mut self) -> Status {
        self.daemon.status(&mut self.system)
    }
}

pub struct Link {
    pub ends: [End; 2],
    /// Whether nothing is delivered.
    pub cut: bool,
}

impl Link {
    pub fn new() -> Link {
        Link::with(config(0, ""), config(1, ""))
    }

    pub fn with(left: Config, right: Config) -> Link {
        Link {
            ends: [End::new(0, left), End::new(1, right)],
            cut: false,
        }
    }

    /// Delivers what is on the wire.
    fn deliver(&mut self) -> bool {
        let mut moved = false;
        for from in 0..2 {
            let address = self.ends[from].address;
            let ike = std::mem::take(&mut self.ends[from].system.ike_out);
            let esp = std::mem::take(&mut self.ends[from].system.esp_out);
            moved |= !ike.is_empty() || !esp.is_empty();
            if self.cut {
                continue;
            }
            let other = &mut self.ends[1 - from];
            for (to, message) in ike {
                assert_eq!(to, ike_at(other.address));
                other.system.ike_in.push_back((ike_at(address), message));
            }
            for (class, packet) in esp.into_iter().flatten() {
                let packet = outer(address, other.address, class, &packet);
                other.system.esp_in.push_back(packet);
            }
        }
        moved
    }

    /// Lets both ends go on until nothing moves any more at this moment.
    pub fn settle(&mut self) {
        for _ in 0..100 {
            let moved = self.deliver();
            let waits = |end: &End| {
                let system = &end.system;
                !system.ike_in.is_empty() || !system.esp_in.is_empty()
            };
            if !moved && !self.ends.iter().any(waits) {
                return;
            }
            for end in &mut self.ends {
                end.turn_all();
            }
        }
        panic!("something goes round and round");
    }

    /// Lets time pass, in milliseconds.
    pub fn pass(&mut self, time: u64) {
        let until = self.ends[0].system.now + time;
        self.settle();
        loop {
            let moments = self
                .ends
                .iter_mut()
                .filter_map(|end| end.daemon.next_moment());
            let next = moments.min().unwrap_or(u64::MAX).min(until);
            for end in &mut self.ends {
                end.system.now = end.system.now.max(next);
            }
            for end in &mut self.ends {
                end.turn_all();
            }
            self.settle();
            if next == until {
                return;
            }
        }
    }

    pub fn is_up(&mut self) -> bool {
        let mut ends = self.ends.iter_mut();
        ends.all(|end| {
            let status = end.status();
            status
                .peers
                .iter()
                .all(|peer| peer.up.is_some() && peer.carried == peer.entries)
        })
    }
}
