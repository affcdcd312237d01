//! The command line of `sukperind`.
#![forbid(unsafe_code)]

use clap::{Parser, Subcommand};
use std::io::{self, Write};
use std::path::{Path, PathBuf};
use std::process::ExitCode;
use sukperind::config::{Config, PeerConfig};
use sukperind::peer::Role;
use sukperind::status::Status;
use sukperind::system::ask_status;

/// Where the daemon is asked for its status.
const SOCKET: &str = "/run/sukperind/control";

/// A host daemon around a proved core of IPsec and IKEv2.
#[derive(Parser)]
#[command(version)]
struct Words {
    #[command(subcommand)]
    command: Command,
}

#[derive(Subcommand)]
enum Command {
    /// Runs until SIGTERM. SIGHUP reads the configuration anew.
    Run {
        /// The configuration's file.
        config: PathBuf,
        /// The socket for the status.
        #[arg(long, default_value = SOCKET)]
        socket: PathBuf,
    },
    /// Reads a configuration with its secrets, and tells what is wrong with it.
    Check {
        /// The configuration's file.
        config: PathBuf,
    },
    /// Tells how the daemon that runs is doing.
    Status {
        /// As JSON.
        #[arg(long)]
        json: bool,
        /// The socket of the daemon.
        #[arg(long, default_value = SOCKET)]
        socket: PathBuf,
    },
}

fn main() -> ExitCode {
    let done = match Words::parse().command {
        Command::Run { config, socket } => run(&config, &socket),
        Command::Check { config } => check(&config),
        Command::Status { json, socket } => status(&socket, json),
    };
    match done {
        Ok(()) => ExitCode::SUCCESS,
        Err(fault) => {
            eprintln!("{fault}");
            ExitCode::FAILURE
        }
    }
}

#[cfg(feature = "library")]
fn run(file: &Path, socket: &Path) -> Result<(), String> {
    use sukperind::core::LibraryCore;
    use sukperind::daemon::Daemon;
    use sukperind::system::linux::Linux;

    let config = Config::read(file).map_err(|fault| fault.to_string())?;
    let fault = |fault: &dyn std::fmt::Display| format!("sukperind: {fault}");
    let mut linux = Linux::open(config.local, file, socket).map_err(|error| fault(&error))?;
    let daemon = Daemon::<LibraryCore>::new(config, &mut linux);
    let mut daemon = daemon.map_err(|stop| fault(&stop))?;
    linux.begin().map_err(|error| fault(&error))?;
    let ended = daemon.run(&mut linux);
    linux.end();
    ended.map_err(|stop| fault(&stop))
}

#[cfg(not(feature = "library"))]
fn run(file: &Path, _: &Path) -> Result<(), String> {
    Config::read(file).map_err(|fault| fault.to_string())?;
    let words = "sukperind: built without the core (cargo's feature `library`), it can't run";
    Err(words.to_string())
}

fn check(file: &Path) -> Result<(), String> {
    let config = Config::read(file).map_err(|fault| fault.to_string())?;
    let mut lines = format!("{}: good\n", file.display());
    for peer in &config.peers {
        lines += &line_of(&config, peer);
        lines.push('\n');
    }
    print_all(&lines)
}

/// Prints to standard output. Who reads no more of it, as `head` does, has enough.
fn print_all(text: &str) -> Result<(), String> {
    let mut output = io::stdout().lock();
    let printed = output.write_all(text.as_bytes());
    match printed.and_then(|()| output.flush()) {
        Err(error) if error.kind() != io::ErrorKind::BrokenPipe => {
            Err(format!("standard output: {error}"))
        }
        _ => Ok(()),
    }
}

fn line_of(config: &Config, peer: &PeerConfig) -> String {
    let role = match peer.role {
        Role::Begins => "begins",
        Role::Waits => "waits",
    };
    let tun = peer.tun.as_ref().map_or("no interface".to_string(), |tun| {
        format!("interface {} of MTU {}", tun.name, tun.mtu)
    });
    format!(
        "peer {}: {} to {}, {role}, {} entries, {} protected, {tun}",
        peer.name,
        config.local,
        peer.address,
        peer.entries.len(),
        peer.settings().entries.len(),
    )
}

fn status(socket: &Path, as_json: bool) -> Result<(), String> {
    let fault = |error: &dyn std::fmt::Display| format!("{}: {error}", socket.display());
    let json = ask_status(socket).map_err(|error| fault(&error))?;
    if as_json {
        return print_all(&json);
    }
    let status = Status::of_json(&json).map_err(|error| fault(&error))?;
    print_all(&status.to_string())
}
