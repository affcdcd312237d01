//! Addresses, routes and MTU of an interface, by `ip` of iproute2.

use crate::config::{Prefix, Tun};
use std::io::{self, Write};
use std::path::Path;
use std::process::{Command, Stdio};

/// How many reads the interface keeps for the daemon.
const QUEUE: u32 = 1_000;

/// A list of the addresses of IPv6, which a kernel without IPv6 doesn't have.
const IPV6: &str = "/proc/self/net/if_inet6";

/// Sets an interface up that was just made.
pub(super) fn set_up(tun: &Tun) -> io::Result<()> {
    let mut command = Command::new("ip");
    command.args(["-batch", "-"]);
    run(command, &lines(tun, Path::new(IPV6).exists()))
}

/// The lines for `ip -batch`, with IPv6 in the kernel or without. The interface has no
/// address that the configuration doesn't name, so that the kernel sends nothing of its own
/// accord. A route that somebody else made stays: the line that adds ours fails.
fn lines(tun: &Tun, ipv6: bool) -> String {
    let name = &tun.name;
    let mut lines = String::new();
    if ipv6 {
        lines += &format!("link set dev {name} addrgenmode none\n");
    }
    lines += &format!(
        "link set dev {name} mtu {} txqueuelen {QUEUE} up\n",
        tun.mtu
    );
    for Prefix { address, length } in &tun.addresses {
        let at_once = if address.is_ipv6() { " nodad" } else { "" };
        lines += &format!("address replace {address}/{length} dev {name}{at_once}\n");
    }
    for route in &tun.routes {
        // Of an IPv4 address the kernel itself adds the route to its network.
        let with_address = |address: &Prefix| address.length < 32 && address.network() == *route;
        if route.address.is_ipv4() && tun.addresses.iter().any(with_address) {
            continue;
        }
        let Prefix { address, length } = route;
        lines += &format!("route add {address}/{length} dev {name}\n");
    }
    lines
}

/// Gives a command these lines, and tells what it says where it fails.
fn run(mut command: Command, lines: &str) -> io::Result<()> {
    let mut child = command
        .stdin(Stdio::piped())
        .stdout(Stdio::null())
        .stderr(Stdio::piped())
        .spawn()
        .map_err(|error| io::Error::other(format!("ip of iproute2 can't be run: {error}")))?;
    // A child that ends before it has read all is waited for too: it says why.
    let written = match child.stdin.take() {
        Some(mut stdin) => stdin.write_all(lines.as_bytes()),
        None => Ok(()),
    };
    let output = child.wait_with_output()?;
    if output.status.success() {
        return written;
    }
    let said = String::from_utf8_lossy(&output.stderr);
    // "Command failed -:3" names the line.
    let line = said
        .rsplit_once(":")
        .and_then(|(_, number)| number.trim().parse::<usize>().ok())
        .and_then(|number| lines.lines().nth(number.checked_sub(1)?))
        .unwrap_or("-batch");
    let first = said.lines().next().unwrap_or_default();
    Err(io::Error::other(format!("ip {line}: {first}")))
}

#[cfg(test)]
mod tests {
    use super::{lines, run};
    use crate::config::{Prefix, Tun};
    use std::process::Command;

    fn tun() -> Tun {
        let prefix = |address: &str, length| Prefix {
            address: address.parse().unwrap(),
            length,
        };
        Tun {
            name: "suk0".to_string(),
            addresses: vec![prefix("10.0.0.1", 24), prefix("2001:db8::1", 64)],
            routes: vec![prefix("10.1.0.0", 24), prefix("10.0.0.0", 24)],
            mtu: 1451,
        }
    }

    #[test]
    fn each_address_and_route_has_a_line() {
        let expected = "link set dev suk0 addrgenmode none\n\
            link set dev suk0 mtu 1451 txqueuelen 1000 up\n\
            address replace 10.0.0.1/24 dev suk0\n\
            address replace 2001:db8::1/64 dev suk0 nodad\n\
            route add 10.1.0.0/24 dev suk0\n";
        assert_eq!(lines(&tun(), true), expected);
    }

    #[test]
    fn without_ipv6_in_the_kernel_nothing_is_said_of_it() {
        let mut tun = tun();
        tun.addresses.truncate(1);
        let expected = "link set dev suk0 mtu 1451 txqueuelen 1000 up\n\
            address replace 10.0.0.1/24 dev suk0\n\
            route add 10.1.0.0/24 dev suk0\n";
        assert_eq!(lines(&tun, false), expected);
    }

    #[test]
    fn a_child_that_reads_nothing_still_says_why() {
        let shell = |text: &str| {
            let mut command = Command::new("sh");
            command.args(["-c", text]);
            command
        };
        // Longer than a pipe takes, so that writing fails once the other end is closed.
        let long = "link set dev suk0 up\n".repeat(10_000);
        let fails = shell("exec <&-; echo 'no such thing' >&2; exit 1");
        let error = run(fails, &long).unwrap_err();
        assert_eq!(error.to_string(), "ip -batch: no such thing");
        // One that says that all is well hasn't read all.
        assert!(run(shell("exec <&-"), &long).is_err());
        assert!(run(shell("cat >/dev/null"), &long).is_ok());
        let names = shell("echo 'RTNETLINK answers: File exists\nCommand failed -:2' >&2; exit 1");
        let error = run(names, "one\ntwo\n").unwrap_err();
        assert_eq!(error.to_string(), "ip two: RTNETLINK answers: File exists");
    }
}
