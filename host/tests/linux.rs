//! The daemon with the model of the core, over real sockets and interfaces: two of them
//! in two network namespaces. It needs root, `/dev/net/tun` and iproute2, and says so
//! where it isn't run.

mod double;
mod simulation;

use double::core::Double;
use std::env;
use std::fs;
use std::io::{self, Read, Write};
use std::net::{Ipv4Addr, TcpListener, TcpStream, UdpSocket};
use std::os::unix::fs::{MetadataExt, PermissionsExt};
use std::path::{Path, PathBuf};
use std::process::{exit, Child, Command};
use std::time::{Duration, Instant};
use sukperind::config::Config;
use sukperind::daemon::Daemon;
use sukperind::status::Status;
use sukperind::system::ask_status;
use sukperind::system::linux::Linux;

const INSIDE: [Ipv4Addr; 2] = [Ipv4Addr::new(10, 0, 0, 1), Ipv4Addr::new(10, 1, 0, 1)];
const OUTSIDE: [&str; 2] = ["192.0.2.1", "192.0.2.2"];
/// Octets that go each way by TCP.
const STREAM: usize = 8 << 20;

fn main() {
    let words: Vec<String> = env::args().collect();
    let words: Vec<&str> = words.iter().map(String::as_str).collect();
    match words[1..] {
        ["end", file, socket] => end(Path::new(file), Path::new(socket)),
        ["echo"] => echo(),
        ["probe"] => probe(),
        _ => all(),
    }
}

/// One daemon.
fn end(file: &Path, socket: &Path) {
    let config = Config::read(file).unwrap();
    let mut linux = Linux::open(config.local, file, socket).unwrap();
    let mut daemon = Daemon::<Double>::new(config, &mut linux).unwrap();
    linux.begin().unwrap();
    daemon.run(&mut linux).unwrap();
    linux.end();
}

/// Gives back what comes, at the right end.
fn echo() {
    let datagrams = UdpSocket::bind((INSIDE[1], 7_000)).unwrap();
    let streams = TcpListener::bind((INSIDE[1], 7_000)).unwrap();
    std::thread::spawn(move || {
        let mut room = [0; 2_000];
        while let Ok((length, from)) = datagrams.recv_from(&mut room) {
            let _ = datagrams.send_to(&room[..length], from);
        }
    });
    for stream in streams.incoming() {
        let mut stream = stream.unwrap();
        let mut octets = vec![0; STREAM];
        stream.read_exact(&mut octets).unwrap();
        stream.write_all(&octets).unwrap();
    }
}

/// Sends datagrams and a stream from the left end, and compares what comes back.
fn probe() {
    let socket = UdpSocket::bind((INSIDE[0], 0)).unwrap();
    socket.connect((INSIDE[1], 7_000)).unwrap();
    socket
        .set_read_timeout(Some(Duration::from_secs(2)))
        .unwrap();
    for number in 0..200u32 {
        let mut datagram = vec![number as u8; 12 + (number as usize * 7) % 1_400];
        datagram[..4].copy_from_slice(&number.to_be_bytes());
        socket.send(&datagram).unwrap();
        let mut room = [0; 2_000];
        let length = socket.recv(&mut room).unwrap();
        assert_eq!(room[..length], datagram);
    }
    let mut stream = TcpStream::connect((INSIDE[1], 7_000)).unwrap();
    let octets: Vec<u8> = (0..STREAM).map(|place| ((place * 31) >> 7) as u8).collect();
    stream.write_all(&octets).unwrap();
    let mut back = Vec::with_capacity(STREAM);
    stream.read_to_end(&mut back).unwrap();
    assert!(back == octets, "the stream comes back as it went");
}

/// The namespaces, which go with this value.
struct Namespaces {
    names: [String; 2],
    folder: PathBuf,
    children: Vec<Child>,
}

impl Drop for Namespaces {
    fn drop(&mut self) {
        for child in &mut self.children {
            let _ = child.kill();
            let _ = child.wait();
        }
        for name in &self.names {
            let _ = Command::new("ip").args(["netns", "del", name]).status();
        }
        let _ = fs::remove_dir_all(&self.folder);
    }
}

impl Namespaces {
    fn make() -> io::Result<Namespaces> {
        let number = std::process::id();
        let namespaces = Namespaces {
            names: [0, 1].map(|end| format!("sukperind{number}-{end}")),
            folder: env::temp_dir().join(format!("sukperind-linux-{number}")),
            children: Vec::new(),
        };
        let [left, right] = &namespaces.names;
        fs::create_dir_all(&namespaces.folder)?;
        for name in [left, right] {
            ip(&format!("netns add {name}"))?;
        }
        ip(&format!(
            "link add wire netns {left} type veth peer name wire netns {right}"
        ))?;
        for (name, address) in [left, right].into_iter().zip(OUTSIDE) {
            ip(&format!("-n {name} address add {address}/30 dev wire"))?;
            ip(&format!("-n {name} link set wire up"))?;
            ip(&format!("-n {name} link set lo up"))?;
        }
        Ok(namespaces)
    }

    fn command(&self, end: usize, words: &[&str]) -> Command {
        let mut command = Command::new("ip");
        command.args(["netns", "exec", &self.names[end]]);
        command.arg(env::current_exe().unwrap()).args(words);
        command
    }

    fn socket(&self, end: usize) -> PathBuf {
        self.folder.join(format!("control{end}"))
    }

    fn start(&mut self, end: usize) -> usize {
        let file = self.folder.join(format!("end{end}.toml"));
        fs::write(&file, text(end)).unwrap();
        let secret = self.folder.join("secret");
        fs::write(&secret, "some secret").unwrap();
        fs::set_permissions(&secret, fs::Permissions::from_mode(0o600)).unwrap();
        let socket = self.socket(end);
        let words = ["end", file.to_str().unwrap(), socket.to_str().unwrap()];
        self.spawn(end, &words)
    }

    fn spawn(&mut self, end: usize, words: &[&str]) -> usize {
        let child = self.command(end, words).spawn().unwrap();
        self.children.push(child);
        self.children.len() - 1
    }

    fn status(&self, end: usize) -> Option<Status> {
        let json = ask_status(&self.socket(end)).ok()?;
        Status::of_json(&json).ok()
    }

    /// Waits until something holds of an end's status.
    fn wait_for(&self, end: usize, what: &str, holds: impl Fn(&Status) -> bool) {
        let begun = Instant::now();
        while !self.status(end).as_ref().is_some_and(&holds) {
            let status = self.status(end);
            assert!(
                begun.elapsed() < Duration::from_secs(20),
                "{what}: {status:?}"
            );
            std::thread::sleep(Duration::from_millis(50));
        }
        println!("ok {what} ({} ms)", begun.elapsed().as_millis());
    }

    fn probe(&self, what: &str) {
        let begun = Instant::now();
        let status = self.command(0, &["probe"]).status().unwrap();
        assert!(status.success(), "{what}");
        println!("ok {what} ({} ms)", begun.elapsed().as_millis());
    }
}

fn ip(words: &str) -> io::Result<()> {
    let status = Command::new("ip").args(words.split(' ')).status()?;
    match status.success() {
        true => Ok(()),
        false => Err(io::Error::other(format!("ip {words}"))),
    }
}

fn text(end: usize) -> String {
    let nets = ["10.0.0.0/24", "10.1.0.0/24"];
    format!(
        "local = \"{}\"\n\
         [[peers]]\n\
         name = \"other\"\n\
         address = \"{}\"\n\
         begins = {}\n\
         own_identity = {{ type = \"fqdn\", value = \"end{end}.example\" }}\n\
         peer_identity = {{ type = \"fqdn\", value = \"end{}.example\" }}\n\
         secret_file = \"secret\"\n\
         [[peers.entries]]\n\
         action = \"protect\"\n\
         local = \"{}\"\n\
         remote = \"{}\"\n\
         [peers.tun]\n\
         name = \"suk{end}\"\n\
         addresses = [\"{}/24\"]\n\
         routes = [\"{}\"]\n",
        OUTSIDE[end],
        OUTSIDE[1 - end],
        end == 0,
        1 - end,
        nets[end],
        nets[1 - end],
        INSIDE[end],
        nets[1 - end],
    )
}

fn is_up(status: &Status) -> bool {
    status.peers.iter().all(|peer| peer.carried == peer.entries)
}

fn all() {
    let root = fs::metadata("/proc/self").is_ok_and(|about| about.uid() == 0);
    if !root || !Path::new("/dev/net/tun").exists() {
        println!("skipped: root and /dev/net/tun are needed");
        return;
    }
    let mut namespaces = match Namespaces::make() {
        Ok(namespaces) => namespaces,
        Err(error) => {
            println!("skipped: no network namespaces here: {error}");
            return;
        }
    };
    let right = namespaces.start(1);
    let left = namespaces.start(0);
    namespaces.wait_for(0, "the left end is up", is_up);
    namespaces.wait_for(1, "the right end is up", is_up);
    let mode = fs::metadata(namespaces.socket(0)).unwrap().mode() & 0o777;
    assert_eq!(mode, 0o600, "the socket is its owner's alone");
    let process = namespaces.children[left].id();
    let about = fs::read_to_string(format!("/proc/{process}/status")).unwrap();
    for words in [
        "CapEff:\t0000000000003000",
        "CapPrm:\t0000000000003000",
        "NoNewPrivs:\t1",
    ] {
        assert!(about.contains(words), "{words:?} in {about}");
    }
    println!("ok rights to raw sockets and interfaces alone");

    namespaces.spawn(1, &["echo"]);
    std::thread::sleep(Duration::from_millis(300));
    namespaces.probe("datagrams and a stream come back as they went");
    let status = namespaces.status(0).unwrap();
    println!("{status}");
    assert_eq!(status.peers[0].counters.unwritten, 0);

    ip(&format!("-n {} link del suk0", namespaces.names[0])).unwrap();
    let is_there = |status: &Status| status.peers[0].interface.as_ref().unwrap().there;
    namespaces.wait_for(0, "the interface went", |status| !is_there(status));
    namespaces.wait_for(0, "the interface is there again", is_there);
    namespaces.probe("and carries");

    // Set up again an interface lacks its routes, so it is made anew. The
    // daemon may have made it anew before it is set up here, so that may fail.
    let name = &namespaces.names[0];
    ip(&format!("-n {name} link set suk0 down")).unwrap();
    let _ = ip(&format!("-n {name} link set suk0 up"));
    namespaces.wait_for(0, "an interface that was set down went", |status| {
        !is_there(status)
    });
    namespaces.wait_for(0, "it is there again", is_there);
    namespaces.probe("with its routes");
    let gone = namespaces.status(0).unwrap().peers[0]
        .counters
        .interfaces_gone;
    assert_eq!(gone, 2, "and none goes by the daemon's own doing");

    // The right end forgets all. Its echo goes on.
    namespaces.children[right].kill().unwrap();
    namespaces.children[right].wait().unwrap();
    namespaces.start(1);
    namespaces.wait_for(1, "up again after a kill", is_up);
    namespaces.probe("and carries again");

    signal(process, "HUP");
    std::thread::sleep(Duration::from_millis(300));
    namespaces.probe("a configuration that is read anew takes nothing away");

    let begun = Instant::now();
    signal(process, "TERM");
    let ended = namespaces.children[left].wait().unwrap();
    assert!(ended.success() && begun.elapsed() < Duration::from_secs(3));
    namespaces.wait_for(1, "the peer knows of the end", |status| {
        status.peers[0].up.is_none()
    });
    assert!(!namespaces.socket(0).exists());
    println!("passed");
    drop(namespaces);
    exit(0);
}

fn signal(process: u32, name: &str) {
    let status = Command::new("kill")
        .args([format!("-{name}"), process.to_string()])
        .status();
    assert!(status.unwrap().success());
}
