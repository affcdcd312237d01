//! One test for each fault of a configuration: its message names the file, the line
//! and what was expected there.

use std::fs;
use std::os::unix::fs::PermissionsExt;
use std::path::PathBuf;
use std::process::Command;
use std::sync::atomic::{AtomicU32, Ordering};
use sukperind::config::{Config, ConfigFault};

/// A good configuration. The tests name its lines by number.
const GOOD: &str = r#"local = "192.0.2.1"

[[peers]]
name = "right"
address = "192.0.2.2"
begins = true
own_identity = { type = "fqdn", value = "left.example" }
peer_identity = { type = "fqdn", value = "right.example" }
secret_file = "secret"
extended = true
window = 4
blocks = 16

[[peers.entries]]
action = "protect"
local = "10.0.0.0/24"
remote = "10.1.0.1-10.1.0.9"
protocol = "tcp"
local_ports = "1024-65535"
remote_ports = 443

[[peers.entries]]
action = "bypass"
local = "2001:db8::/64"
remote = "2001:db8:1::1"

[peers.timers]
silence = 2.5
first_backoff = 2
longest_backoff = 60
child_age = 3600
association_age = 7200
child_octets = 2000000

[peers.tun]
name = "suk0"
addresses = ["10.0.0.1/24"]
routes = ["10.1.0.0/24"]
mtu = 1400
"#;

/// A folder of its own for each test, gone with it.
struct Folder(PathBuf);

impl Folder {
    fn new() -> Folder {
        static COUNT: AtomicU32 = AtomicU32::new(0);
        let number = COUNT.fetch_add(1, Ordering::Relaxed);
        let name = format!("sukperind-{}-{number}", std::process::id());
        let path = std::env::temp_dir().join(name);
        fs::create_dir_all(&path).unwrap();
        Folder(path)
    }

    fn write(&self, name: &str, octets: &[u8], mode: u32) -> PathBuf {
        let path = self.0.join(name);
        fs::write(&path, octets).unwrap();
        fs::set_permissions(&path, fs::Permissions::from_mode(mode)).unwrap();
        path
    }
}

impl Drop for Folder {
    fn drop(&mut self) {
        let _ = fs::remove_dir_all(&self.0);
    }
}

fn read(text: &str) -> Result<Config, ConfigFault> {
    let folder = Folder::new();
    folder.write("secret", b"not so secret\n", 0o600);
    Config::read(&folder.write("c.toml", text.as_bytes(), 0o644))
}

/// Replaces a part of the good configuration, and wants a message of this line, with
/// this key and this expectation.
fn wants(old: &str, new: &str, line: usize, key: &str, expected: &str) {
    assert_eq!(GOOD.matches(old).count(), 1, "{old:?} stands once");
    wants_text(&GOOD.replace(old, new), line, key, expected);
}

fn wants_text(text: &str, line: usize, key: &str, expected: &str) {
    let fault = read(text).expect_err("a fault");
    let message = fault.to_string();
    let start = format!("c.toml:{line}: {key}: expected ");
    assert!(message.contains(&start), "{message}, not {start}");
    assert!(message.contains(expected), "{message}, not {expected}");
    assert!(message.contains(", found "), "{message}");
}

/// One test for each line: what is replaced by what, line, key and expectation.
macro_rules! faults {
    ($($name:ident: $old:expr => $new:expr, $line:expr, $key:expr, $expected:expr;)*) => {
        $(#[test] fn $name() { wants($old, $new, $line, $key, $expected); })*
    };
}

faults! {
    local_is_missing: "local = \"192.0.2.1\"\n" => "", 1, "local", "an IPv4 address";
    local_is_no_address: "\"192.0.2.1\"" => "\"left\"", 1, "local", "an IPv4 address";
    local_is_of_ipv6: "\"192.0.2.1\"" => "\"2001:db8::1\"", 1, "local", "an IPv4 address";
    local_is_no_text: "\"192.0.2.1\"" => "7", 1, "local", "an IPv4 address";
    local_is_of_many: "\"192.0.2.1\"" => "\"224.0.0.1\"", 1, "local", "of one machine";
    top_key_is_unknown: "local = \"192.0.2.1\"" => "lokal = 1\nlocal = \"192.0.2.1\"", 1, "lokal", "one of local, peers";
    key_stands_twice: "begins = true" => "begins = true\nbegins = true", 7, "peers[0].begins", "each key once";
    text_is_no_toml: "begins = true" => "begins = = true", 6, "text", "TOML";
    date_is_no_value: "begins = true" => "begins = 2026-01-01", 6, "text", "TOML without dates";
    name_is_missing: "name = \"right\"\n" => "", 3, "peers[0].name", "a name for logs";
    name_is_empty: "\"right\"" => "\"\"", 4, "peers[0].name", "a name of 1 to 64";
    name_has_spaces: "\"right\"" => "\"the right\"", 4, "peers[0].name", "visible characters";
    address_is_missing: "address = \"192.0.2.2\"\n" => "", 3, "peers[0].address", "an IPv4 address";
    address_is_local: "192.0.2.2" => "192.0.2.1", 3, "peers[0].address", "another address than local";
    begins_is_missing: "begins = true\n" => "", 3, "peers[0].begins", "true at one end";
    begins_is_no_truth: "begins = true" => "begins = 1", 6, "peers[0].begins", "true at one end";
    identity_is_missing: "own_identity = { type = \"fqdn\", value = \"left.example\" }\n" => "", 3, "peers[0].own_identity", "who this end is";
    identity_is_no_table: "{ type = \"fqdn\", value = \"left.example\" }" => "\"left\"", 7, "peers[0].own_identity", "a table as";
    identity_has_no_type: "type = \"fqdn\", value = \"left.example\"" => "value = \"left.example\"", 7, "peers[0].own_identity.type", "\"fqdn\", \"address\", \"email\"";
    identity_has_no_value: "type = \"fqdn\", value = \"left.example\"" => "type = \"fqdn\"", 7, "peers[0].own_identity.value", "the identity's value";
    identity_has_another_type: "type = \"fqdn\", value = \"right.example\"" => "type = \"dn\", value = \"x\"", 8, "peers[0].peer_identity.type", "\"key-id\"";
    identity_has_another_key: "value = \"right.example\"" => "value = \"x\", more = 1", 8, "peers[0].peer_identity.more", "one of type, value";
    fqdn_is_none: "\"left.example\"" => "\"left example\"", 7, "peers[0].own_identity.value", "a name of 1 to 256";
    email_is_none: "\"fqdn\", value = \"left.example\"" => "\"email\", value = \"left\"", 7, "peers[0].own_identity.value", "an address of mail";
    identity_is_no_address: "\"fqdn\", value = \"left.example\"" => "\"address\", value = \"left\"", 7, "peers[0].own_identity.value", "an address as";
    key_id_has_odd_digits: "\"fqdn\", value = \"left.example\"" => "\"key-id\", value = \"hex:012\"", 7, "peers[0].own_identity.value", "two digits for each";
    key_id_is_empty: "\"fqdn\", value = \"left.example\"" => "\"key-id\", value = \"\"", 7, "peers[0].own_identity.value", "1 to 256 octets";
    secret_is_missing: "secret_file = \"secret\"\n" => "", 3, "peers[0].secret_file", "the path of a file";
    secret_is_not_there: "\"secret\"" => "\"nothing\"", 9, "peers[0].secret_file", "the path of a file";
    secret_is_a_folder: "\"secret\"" => "\"/\"", 9, "peers[0].secret_file", "a plain file";
    secret_is_no_path: "secret_file = \"secret\"" => "secret_file = 1", 9, "peers[0].secret_file", "the path of a file";
    extended_is_no_truth: "extended = true" => "extended = \"yes\"", 10, "peers[0].extended", "true or false";
    window_is_too_small: "window = 4" => "window = 0", 11, "peers[0].window", "from 1 to 16";
    window_is_too_large: "window = 4" => "window = 17", 11, "peers[0].window", "from 1 to 16";
    blocks_are_no_power: "blocks = 16" => "blocks = 12", 12, "peers[0].blocks", "a power of two from 2 to 128";
    blocks_are_too_few: "blocks = 16" => "blocks = 1", 12, "peers[0].blocks", "a power of two from 2 to 128";
    blocks_are_too_many: "blocks = 16" => "blocks = 256", 12, "peers[0].blocks", "a power of two from 2 to 128";
    peer_key_is_unknown: "window = 4" => "windows = 4", 11, "peers[0].windows", "one of name, address";
    action_is_missing: "action = \"bypass\"\n" => "", 22, "peers[0].entries[1].action", "\"protect\", \"bypass\"";
    action_is_another: "\"bypass\"" => "\"allow\"", 23, "peers[0].entries[1].action", "\"protect\", \"bypass\" or \"discard\"";
    nothing_is_protected: "\"protect\"" => "\"bypass\"", 14, "peers[0].entries", "one entry at least that protects";
    entry_key_is_unknown: "protocol = \"tcp\"" => "proto = \"tcp\"", 18, "peers[0].entries[0].proto", "one of action, local";
    local_side_is_missing: "local = \"10.0.0.0/24\"\n" => "", 14, "peers[0].entries[0].local", "this side's addresses";
    remote_side_is_missing: "remote = \"2001:db8:1::1\"\n" => "", 22, "peers[0].entries[1].remote", "the peer's side's addresses";
    prefix_has_host_bits: "\"10.0.0.0/24\"" => "\"10.0.0.1/24\"", 16, "peers[0].entries[0].local", "the network's first address, \"10.0.0.0/24\"";
    prefix_is_too_long: "\"10.0.0.0/24\"" => "\"10.0.0.0/33\"", 16, "peers[0].entries[0].local", "the length of its prefix";
    prefix_has_a_sign: "\"10.0.0.0/24\"" => "\"10.0.0.0/+24\"", 16, "peers[0].entries[0].local", "the length of its prefix";
    range_ends_below: "10.1.0.1-10.1.0.9" => "10.1.0.9-10.1.0.1", 17, "peers[0].entries[0].remote", "whose end isn't below its start";
    range_is_of_two_families: "10.1.0.1-10.1.0.9" => "10.1.0.1-2001:db8::1", 17, "peers[0].entries[0].remote", "a range as";
    range_is_no_address: "\"2001:db8:1::1\"" => "\"right\"", 25, "peers[0].entries[1].remote", "a prefix as";
    sides_are_of_two_families: "\"2001:db8:1::1\"" => "\"10.1.0.1\"", 25, "peers[0].entries[1].remote", "the same family as local";
    protocol_is_unknown: "\"tcp\"" => "\"sctp\"", 18, "peers[0].entries[0].protocol", "a protocol from 0 (any) to 255";
    protocol_is_too_large: "\"tcp\"" => "256", 18, "peers[0].entries[0].protocol", "a protocol from 0 (any) to 255";
    protocol_has_no_ports: "\"tcp\"" => "\"icmp\"", 19, "peers[0].entries[0].local_ports", "no ports, since protocol 1 has none";
    ports_end_below: "\"1024-65535\"" => "\"9-8\"", 19, "peers[0].entries[0].local_ports", "a range as";
    port_is_too_large: "remote_ports = 443" => "remote_ports = 65536", 20, "peers[0].entries[0].remote_ports", "a port from 0 to 65535";
    ports_are_no_number: "remote_ports = 443" => "remote_ports = \"https\"", 20, "peers[0].entries[0].remote_ports", "a port from 0 to 65535";
    timer_is_unknown: "silence = 2.5" => "patience = 2.5", 28, "peers[0].timers.patience", "one of first_backoff";
    silence_is_no_number: "silence = 2.5" => "silence = \"long\"", 28, "peers[0].timers.silence", "seconds, from 1 to";
    silence_is_too_short: "silence = 2.5" => "silence = 0.5", 28, "peers[0].timers.silence", "seconds, from 1 to";
    silence_is_infinite: "silence = 2.5" => "silence = inf", 28, "peers[0].timers.silence", "seconds, from 1 to";
    silence_is_no_quantity: "silence = 2.5" => "silence = nan", 28, "peers[0].timers.silence", "seconds, from 1 to";
    longest_backoff_is_shorter: "longest_backoff = 60" => "longest_backoff = 1", 30, "peers[0].timers.longest_backoff", "no less than first_backoff";
    child_age_is_too_short: "child_age = 3600" => "child_age = 59", 31, "peers[0].timers.child_age", "seconds, from 60 to";
    association_is_younger: "association_age = 7200" => "association_age = 3000", 32, "peers[0].timers.association_age", "no less than child_age";
    octets_are_too_few: "child_octets = 2000000" => "child_octets = 2", 33, "peers[0].timers.child_octets", "a whole number from 1000000";
    timers_are_no_table: "[peers.timers]\nsilence = 2.5" => "[[peers.timers]]\nsilence = 2.5", 27, "peers[0].timers", "a table [peers.timers]";
    tun_has_no_name: "name = \"suk0\"\n" => "", 35, "peers[0].tun.name", "a name of 1 to 15";
    tun_name_is_long: "\"suk0\"" => "\"sukperind-right-0\"", 36, "peers[0].tun.name", "a name of 1 to 15";
    tun_name_is_a_path: "\"suk0\"" => "\"a/b\"", 36, "peers[0].tun.name", "a name of 1 to 15";
    tun_address_has_no_prefix: "\"10.0.0.1/24\"" => "\"10.0.0.1\"", 37, "peers[0].tun.addresses[0]", "the length of its prefix";
    tun_addresses_are_no_list: "[\"10.0.0.1/24\"]" => "\"10.0.0.1/24\"", 37, "peers[0].tun.addresses", "a list of prefixes";
    route_is_no_network: "\"10.1.0.0/24\"" => "\"10.1.0.1/24\"", 38, "peers[0].tun.routes[0]", "the network's first address";
    mtu_is_too_large: "mtu = 1400" => "mtu = 1452", 39, "peers[0].tun.mtu", "from 576 to 1451";
    mtu_is_too_small: "mtu = 1400" => "mtu = 575", 39, "peers[0].tun.mtu", "from 576 to 1451";
    outer_mtu_is_too_small: "mtu = 1400" => "outer_mtu = 600", 39, "peers[0].tun.outer_mtu", "from 625 to 65535";
    mtu_is_above_the_core_s: "mtu = 1400" => "outer_mtu = 65535\nmtu = 16385", 40, "peers[0].tun.mtu", "from 576 to 16384";
    mtu_is_no_number: "mtu = 1400" => "mtu = \"big\"", 39, "peers[0].tun.mtu", "a whole number from 576 to 1451";
    route_holds_the_peer: "[\"10.1.0.0/24\"]" => "[\"10.1.0.0/24\", \"192.0.2.2/31\"]", 38, "peers[0].tun.routes[1]", "a network without the outer address of a peer";
    route_holds_this_end: "[\"10.1.0.0/24\"]" => "[\"192.0.2.1/32\"]", 38, "peers[0].tun.routes[0]", "or of this end, found \"192.0.2.1/32\", which holds 192.0.2.1";
    route_holds_all: "[\"10.1.0.0/24\"]" => "[\"0.0.0.0/0\"]", 38, "peers[0].tun.routes[0]", "a network without the outer address of a peer";
    route_stands_twice: "[\"10.1.0.0/24\"]" => "[\"10.1.0.0/24\", \"10.1.0.0/24\"]", 38, "peers[0].tun.routes[1]", "each network once";
    tun_key_is_unknown: "mtu = 1400" => "metric = 1", 39, "peers[0].tun.metric", "one of name, addresses";
}

#[test]
fn the_good_one_is_good() {
    let config = read(GOOD).unwrap();
    let peer = &config.peers[0];
    assert_eq!(peer.secret.octets(), b"not so secret");
    assert_eq!(peer.settings().entries, [0]);
    assert_eq!(peer.settings().timers.silence, 2_500);
    assert_eq!(peer.limits.octets, 2_000_000);
    assert_eq!(peer.entries[0].local_ports, (1_024, 65_535));
    assert_eq!(peer.tun.as_ref().unwrap().mtu, 1_400);
    assert_eq!(format!("{:?}", peer.secret), "Secret(..)");
}

#[test]
fn no_peer_is_there() {
    wants_text(
        "local = \"192.0.2.1\"\npeers = []\n",
        1,
        "local",
        "one table [[peers]] at least",
    );
    wants_text("local = \"192.0.2.1\"\n", 1, "peers", "tables [[peers]]");
    wants_text(
        "local = \"192.0.2.1\"\npeers = 1\n",
        2,
        "peers",
        "tables [[peers]]",
    );
}

#[test]
fn tables_are_wanted() {
    let local = "local = \"192.0.2.1\"\n";
    let text = format!("{local}peers = [1]\n");
    wants_text(&text, 2, "peers[0]", "a table [[peers]]");
    let (head, _) = GOOD.split_once("\n[[peers.entries]]").unwrap();
    wants_text(head, 3, "peers[0].entries", "tables [[peers.entries]]");
    let text = format!("{head}\nentries = 1\n");
    wants_text(&text, 14, "peers[0].entries", "tables [[peers.entries]]");
    let text = format!("{head}\nentries = [1]\n");
    wants_text(
        &text,
        14,
        "peers[0].entries[0]",
        "a table [[peers.entries]]",
    );
    let (head, _) = GOOD.split_once("\n[peers.tun]").unwrap();
    let text = format!("{head}\n[[peers.tun]]\nname = \"suk0\"\n");
    wants_text(&text, 35, "peers[0].tun", "a table [peers.tun]");
}

/// The good configuration with its peer twice, the second one changed.
fn twice(changes: &[(&str, &str)]) -> String {
    let (_, peer) = GOOD.split_once("\n\n").unwrap();
    let mut second = peer.to_string();
    for (old, new) in changes {
        second = second.replace(old, new);
    }
    format!("{GOOD}\n{second}")
}

#[test]
fn an_address_comes_twice() {
    let text = twice(&[("\"right\"", "\"other\""), ("suk0", "suk1")]);
    wants_text(&text, 41, "peers[1].address", "an address of no other peer");
}

#[test]
fn a_name_comes_twice() {
    let text = twice(&[("192.0.2.2", "192.0.2.3"), ("suk0", "suk1")]);
    wants_text(&text, 41, "peers[1].name", "a name of no other peer");
}

#[test]
fn an_interface_comes_twice() {
    let text = twice(&[("\"right\"", "\"other\""), ("192.0.2.2", "192.0.2.3")]);
    wants_text(
        &text,
        41,
        "peers[1].tun.name",
        "a name of no other interface",
    );
}

/// What makes the second peer another one than the first.
const OTHER: [(&str, &str); 4] = [
    ("\"right\"", "\"other\""),
    ("192.0.2.2", "192.0.2.3"),
    ("suk0", "suk1"),
    ("10.1.0.0/24", "10.2.0.0/24"),
];

#[test]
fn two_peers_are_good() {
    assert_eq!(read(&twice(&OTHER)).unwrap().peers.len(), 2);
}

#[test]
fn a_route_comes_twice() {
    let text = twice(&OTHER[..3]);
    let key = "peers[1].tun.routes[0]";
    wants_text(&text, 76, key, "a network of no other interface");
}

#[test]
fn a_route_holds_the_address_of_another_peer() {
    let expected = "a network without the outer address of a peer";
    // Of one that stands before.
    let text = twice(&OTHER).replace("10.2.0.0/24", "192.0.2.2/32");
    wants_text(&text, 76, "peers[1].tun.routes[0]", expected);
    // Of one that stands behind.
    let text = twice(&OTHER).replace("10.1.0.0/24", "192.0.2.3/32");
    wants_text(&text, 38, "peers[0].tun.routes[0]", expected);
}

#[test]
fn an_mtu_is_too_small_for_ipv6() {
    let key = "peers[0].tun.mtu";
    let expected = "a whole number from 1280 to 1451, since there is IPv6 inside";
    let small = GOOD.replace("mtu = 1400", "mtu = 1279");
    // By an address, by a route, and by an entry that protects.
    let text = small.replace("\"10.0.0.1/24\"", "\"2001:db8::1/64\"");
    wants_text(&text, 39, key, expected);
    let text = small.replace("\"10.1.0.0/24\"", "\"2001:db8:1::/64\"");
    wants_text(&text, 39, key, expected);
    let text = small.replace("\"bypass\"", "\"protect\"");
    wants_text(&text, 39, key, expected);
    assert!(read(&text.replace("mtu = 1279", "mtu = 1280")).is_ok());
    // Where the outer one alone is told, it is at fault.
    let text = text.replace("mtu = 1279", "outer_mtu = 1328");
    let expected = "a whole number from 1329 to 65535, since there is IPv6 inside";
    wants_text(&text, 39, "peers[0].tun.outer_mtu", expected);
    assert!(read(&text.replace("1328", "1329")).is_ok());
}

#[test]
fn the_longest_inner_mtu_is_what_the_core_takes() {
    let mtu = |text: &str| {
        let config = read(&GOOD.replace("mtu = 1400", text)).unwrap();
        config.peers[0].tun.as_ref().unwrap().mtu
    };
    assert_eq!(mtu("outer_mtu = 9000"), 8_951);
    assert_eq!(mtu("outer_mtu = 16433"), 16_384);
    assert_eq!(mtu("outer_mtu = 65535"), 16_384);
    assert_eq!(mtu("outer_mtu = 65535\nmtu = 16384"), 16_384);
    // What is bypassed doesn't go by the interface.
    assert_eq!(mtu("mtu = 576"), 576);
}

/// Nobody writes to it: opening it would wait for ever.
#[test]
fn a_fifo_is_no_file() {
    let folder = Folder::new();
    let fifo = folder.0.join("secret");
    let made = Command::new("mkfifo")
        .args(["-m", "600"])
        .arg(&fifo)
        .status();
    assert!(made.unwrap().success());
    let message = Config::read(&fifo).unwrap_err().to_string();
    assert!(message.contains("found what is no plain file"), "{message}");
    let path = folder.write("c.toml", GOOD.as_bytes(), 0o644);
    let message = Config::read(&path).unwrap_err().to_string();
    assert!(message.contains("expected a plain file"), "{message}");
}

#[test]
fn a_fault_in_the_second_peer_has_its_line() {
    let changes = [
        ("\"right\"", "\"other\""),
        ("192.0.2.2", "192.0.2.3"),
        ("window = 4", "window = 99"),
    ];
    wants_text(&twice(&changes), 49, "peers[1].window", "from 1 to 16");
    let changes = [("\"right\"", "\"other\""), ("begins = true\n", "")];
    wants_text(&twice(&changes), 41, "peers[1].begins", "true at one end");
}

#[test]
fn entries_are_256_at_most() {
    let entry = "\n[[peers.entries]]\naction = \"bypass\"\nlocal = \"10.0.0.0/24\"\nremote = \"10.1.0.0/24\"\n";
    let (head, _) = GOOD.split_once("\n[peers.timers]").unwrap();
    let text = |count| format!("{head}{}", entry.repeat(count));
    assert_eq!(read(&text(254)).unwrap().peers[0].entries.len(), 256);
    wants_text(
        &text(255),
        27 + 254 * 5,
        "peers[0].entries[256]",
        "256 entries at most",
    );
}

#[test]
fn the_file_is_not_there() {
    let folder = Folder::new();
    let message = Config::read(&folder.0.join("c.toml"))
        .unwrap_err()
        .to_string();
    assert!(
        message.contains("c.toml:0: file: expected a file of TOML"),
        "{message}"
    );
}

#[test]
fn the_file_is_no_text() {
    let folder = Folder::new();
    let path = folder.write("c.toml", &[0xff, 0xfe], 0o644);
    let message = Config::read(&path).unwrap_err().to_string();
    assert!(
        message.contains("expected a file of TOML in UTF-8"),
        "{message}"
    );
}

/// What is told of a secret in a file of these octets and this mode.
fn secret_fault(octets: &[u8], mode: u32) -> String {
    let folder = Folder::new();
    folder.write("secret", octets, mode);
    let path = folder.write("c.toml", GOOD.as_bytes(), 0o644);
    let message = Config::read(&path).unwrap_err().to_string();
    let start = "c.toml:9: peers[0].secret_file: expected ";
    assert!(message.contains(start), "{message}");
    assert!(!message.contains("hush"), "no octet of the secret is told");
    message
}

#[test]
fn others_can_read_the_secret() {
    for mode in [0o604, 0o640, 0o644, 0o660, 0o601, 0o602] {
        let message = secret_fault(b"hush", mode);
        assert!(
            message.contains("its owner alone can read (mode 600)"),
            "{message}"
        );
        assert!(
            message.contains(&format!("with mode {mode:o}")),
            "{message}"
        );
    }
}

#[test]
fn the_secret_is_of_another_user() {
    let folder = Folder::new();
    let secret = folder.write("secret", b"hush", 0o600);
    if std::os::unix::fs::chown(&secret, Some(54_321), None).is_err() {
        println!("not root: not tried");
        return;
    }
    let path = folder.write("c.toml", GOOD.as_bytes(), 0o644);
    let message = Config::read(&path).unwrap_err().to_string();
    assert!(message.contains("c.toml:9: peers[0].secret_file: expected a file of the user"));
    assert!(message.contains("of user 54321"), "{message}");
}

#[test]
fn the_secret_is_empty() {
    assert!(secret_fault(b"\n", 0o600).contains("a secret of 1 to 1024 octets"));
    assert!(secret_fault(b"", 0o600).contains("a secret of 1 to 1024 octets"));
}

#[test]
fn the_secret_is_too_long() {
    assert!(secret_fault(&[b'x'; 1_025], 0o600).contains("a secret of 1 to 1024 octets"));
    assert!(secret_fault(&[b'x'; 9_999], 0o600).contains("a secret of 1 to 1024 octets"));
}

#[test]
fn the_longest_secret_is_good() {
    let folder = Folder::new();
    let mut octets = vec![b'x'; 1_024];
    octets.extend(b"\r\n");
    folder.write("secret", &octets, 0o400);
    let config = Config::read(&folder.write("c.toml", GOOD.as_bytes(), 0o644)).unwrap();
    assert_eq!(config.peers[0].secret.octets().len(), 1_024);
}

#[test]
fn identities_have_types_and_octets() {
    let cases: [(&str, u8, &[u8]); 6] = [
        ("\"fqdn\", value = \"left.example\"", 2, b"left.example"),
        ("\"address\", value = \"192.0.2.1\"", 1, &[192, 0, 2, 1]),
        (
            "\"address\", value = \"::1\"",
            5,
            &[0, 0, 0, 0, 0, 0, 0, 0, 0, 0, 0, 0, 0, 0, 0, 1],
        ),
        ("\"email\", value = \"a@b\"", 3, b"a@b"),
        ("\"key-id\", value = \"abc\"", 11, b"abc"),
        ("\"key-id\", value = \"hex:00fF\"", 11, &[0, 255]),
    ];
    for (text, kind, octets) in cases {
        let text = GOOD.replace("\"fqdn\", value = \"left.example\"", text);
        let identity = read(&text).unwrap().peers[0].own_identity.clone();
        assert_eq!(
            (identity.kind(), identity.octets()),
            (kind, octets.to_vec())
        );
    }
}

#[test]
fn only_what_is_fixed_asks_for_a_new_gateway() {
    let before = read(GOOD).unwrap().peers[0].clone();
    let changed = |old: &str, new: &str| {
        let peer = read(&GOOD.replace(old, new)).unwrap().peers[0].clone();
        peer.needs_new_gateway(&before)
    };
    assert!(!changed("silence = 2.5", "silence = 9"));
    assert!(!changed("begins = true", "begins = false"));
    assert!(!changed("mtu = 1400", "mtu = 1300"));
    assert!(changed("window = 4", "window = 5"));
    assert!(changed("blocks = 16", "blocks = 8"));
    assert!(changed("extended = true", "extended = false"));
    assert!(changed("remote_ports = 443", "remote_ports = 80"));
    assert!(changed("left.example", "links.example"));
    assert!(changed("192.0.2.2", "192.0.2.3"));
}
