//! Words to systemd (sd_notify(3)), where it started the daemon.

use std::env;
use std::io;
use std::os::linux::net::SocketAddrExt;
use std::os::unix::net::{SocketAddr, UnixDatagram};
use std::time::Duration;

/// How long systemd is waited for, where its queue is full.
const PATIENCE: Duration = Duration::from_secs(5);

/// The way to systemd, and its watchdog.
#[derive(Debug)]
pub(super) struct Notify {
    way: Option<(UnixDatagram, SocketAddr)>,
    /// How often the watchdog is told, in milliseconds.
    interval: Option<u64>,
    told_at: u64,
}

impl Notify {
    /// By what systemd says in the environment.
    pub(super) fn of_environment() -> Notify {
        let way = env::var("NOTIFY_SOCKET").ok().and_then(|name| {
            let socket = UnixDatagram::unbound().ok()?;
            socket.set_nonblocking(true).ok()?;
            Some((socket, address(&name).ok()?))
        });
        let for_us =
            env::var("WATCHDOG_PID").map_or(true, |text| text == std::process::id().to_string());
        let interval = env::var("WATCHDOG_USEC")
            .ok()
            .and_then(|text| text.parse::<u64>().ok())
            .filter(|_| for_us && way.is_some())
            // Three times while systemd waits.
            .map(|micros| (micros / 3_000).max(1));
        Notify {
            way,
            interval,
            told_at: 0,
        }
    }

    /// Tells something. What can't be told isn't told.
    pub(super) fn tell(&self, words: &str) {
        if let Some((socket, address)) = &self.way {
            let _ = socket.send_to_addr(words.as_bytes(), address);
        }
    }

    /// Tells something that isn't told again: it waits where systemd's queue is full.
    pub(super) fn tell_surely(&self, words: &str) {
        let Some((socket, address)) = &self.way else {
            return;
        };
        let waiting = socket
            .set_write_timeout(Some(PATIENCE))
            .and_then(|()| socket.set_nonblocking(false));
        if waiting.is_ok() {
            let _ = socket.send_to_addr(words.as_bytes(), address);
        } else {
            self.tell(words);
        }
        // Where this fails, each later word may wait so long, and no longer.
        let _ = socket.set_nonblocking(true);
    }

    /// When the watchdog is to be told next.
    pub(super) fn next_moment(&self) -> Option<u64> {
        Some(self.told_at + self.interval?)
    }

    /// Tells the watchdog that the loop goes round, where it is due.
    pub(super) fn alive(&mut self, now: u64) {
        if self.next_moment().is_some_and(|moment| moment <= now) {
            self.told_at = now;
            self.tell("WATCHDOG=1");
        }
    }
}

fn address(name: &str) -> io::Result<SocketAddr> {
    match name.strip_prefix('@') {
        Some(name) => SocketAddr::from_abstract_name(name),
        None => SocketAddr::from_pathname(name),
    }
}

#[cfg(test)]
mod tests {
    use super::{address, Notify, UnixDatagram};
    use std::thread;
    use std::time::Duration;

    #[test]
    fn ready_is_told_where_the_queue_is_full() {
        let name = format!("@sukperind-notify-{}", std::process::id());
        let way = address(&name).unwrap();
        let systemd = UnixDatagram::bind_addr(&way).unwrap();
        systemd
            .set_read_timeout(Some(Duration::from_secs(20)))
            .unwrap();
        let socket = UnixDatagram::unbound().unwrap();
        socket.set_nonblocking(true).unwrap();
        let mut queued = 0;
        while socket.send_to_addr(b"x", &way).is_ok() {
            queued += 1;
        }
        let notify = Notify {
            way: Some((socket, way)),
            interval: None,
            told_at: 0,
        };
        // What isn't worth waiting for is lost.
        notify.tell("WATCHDOG=1");
        let reader = thread::spawn(move || {
            thread::sleep(Duration::from_millis(20));
            let mut room = [0; 20];
            let mut last = String::new();
            for _ in 0..=queued {
                let length = systemd.recv(&mut room).unwrap();
                last = String::from_utf8_lossy(&room[..length]).into_owned();
            }
            last
        });
        notify.tell_surely("READY=1");
        assert_eq!(reader.join().unwrap(), "READY=1");
    }
}
