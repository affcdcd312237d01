//! The calls and records of `libsukperin`, as the header `sukperin.h` declares them. `tools/declarations.py` compares the two.

use std::ffi::c_void;
use std::ptr;

/// A handle of a gateway: all zeros is none.
#[repr(C)]
pub struct Gateway {
    private_at: *mut c_void,
    private_live: bool,
}

impl Gateway {
    pub const NONE: Gateway = Gateway {
        private_at: ptr::null_mut(),
        private_live: false,
    };
}

/// A handle of a sender or a receiver: all zeros is none.
#[repr(C)]
pub struct End {
    private_at: *mut c_void,
    private_live: bool,
}

impl End {
    pub const NONE: End = End {
        private_at: ptr::null_mut(),
        private_live: false,
    };
}

#[repr(C)]
pub struct Terms {
    pub own_kind: u8,
    pub peer_kind: u8,
    pub extended: u8,
    pub window: u8,
    pub blocks: u32,
    pub first_spi: u32,
    pub own_address: [u8; 4],
    pub peer_address: [u8; 4],
    pub cookie_secret: [u8; 32],
    pub tells_keys: u8,
    pub reserved: [u8; 3],
}

pub const SUK_DISCARD: u8 = 0;
pub const SUK_BYPASS: u8 = 1;
pub const SUK_PROTECT: u8 = 2;

#[repr(C)]
pub struct Entry {
    pub family: u8,
    pub protocol: u8,
    pub action: u8,
    pub reserved: u8,
    pub local_start_port: u16,
    pub local_end_port: u16,
    pub remote_start_port: u16,
    pub remote_end_port: u16,
    pub local_start: [u8; 16],
    pub local_end: [u8; 16],
    pub remote_start: [u8; 16],
    pub remote_end: [u8; 16],
}

#[repr(C)]
pub struct Fresh {
    pub spi: u64,
    pub nonce: [u8; 32],
    pub secret: [u8; 32],
    pub seal: [u8; 16],
}

pub const SUK_REPLY: u32 = 1;
pub const SUK_REPEAT: u32 = 2;
pub const SUK_REQUEST: u32 = 3;
pub const SUK_COUNTED: u32 = 4;
pub const SUK_TICKED: u32 = 5;
pub const SUK_DONE: u32 = 6;
pub const SUK_UP: u32 = 7;
pub const SUK_DUMMY: u32 = 8;
pub const SUK_SEALED: u32 = 9;
pub const SUK_CLEAR: u32 = 10;
pub const SUK_DISCARDED: u32 = 11;
pub const SUK_DROPPED: u32 = 12;
pub const SUK_REFUSED: u32 = 13;

#[repr(C)]
#[derive(Clone, Copy, Default)]
pub struct Output {
    pub kind: u32,
    pub code: u32,
    pub ike: u32,
    pub child: u32,
    pub closed: u32,
    pub keyed: u32,
    pub messages: u64,
    pub closings: u64,
    pub number: u64,
    pub offset: u64,
    pub length: u64,
}

/// Where a packet of a list is in its buffer.
#[repr(C)]
#[derive(Clone, Copy, Debug, Default, PartialEq, Eq)]
pub struct Place {
    /// Where it begins.
    pub offset: u64,
    /// How many octets it has.
    pub length: u64,
}

#[repr(C)]
#[derive(Clone, Copy, Default)]
pub struct Message {
    pub length: u64,
    pub ike: u32,
    pub reserved: u32,
}

#[repr(C)]
#[derive(Clone, Copy, Default)]
pub struct Child {
    pub serial: u32,
    pub ike: u32,
    pub spi_in: u32,
    pub spi_out: u32,
    pub live: u8,
    pub extended: u8,
    pub reserved: u16,
    pub more: u32,
    pub locals: u64,
    pub remotes: u64,
    pub sent: u64,
    pub taken: u64,
}

#[repr(C)]
#[derive(Clone, Copy, Default)]
pub struct Selector {
    pub family: u8,
    pub protocol: u8,
    pub start_port: u16,
    pub end_port: u16,
    pub start: [u8; 16],
    pub end: [u8; 16],
}

#[repr(C)]
#[derive(Clone, Copy, Default)]
pub struct Association {
    pub spi_i: u64,
    pub spi_r: u64,
    pub moment: u64,
    pub serial: u32,
    pub role: u8,
    pub phase: u8,
    pub deleting: u8,
    pub window: u8,
}

#[repr(C)]
#[derive(Clone, Copy, Default)]
pub struct Keys {
    pub sk_d: [u8; 32],
    pub sk_ai: [u8; 32],
    pub sk_ar: [u8; 32],
    pub sk_ei: [u8; 32],
    pub sk_er: [u8; 32],
    pub sk_pi: [u8; 32],
    pub sk_pr: [u8; 32],
}

#[repr(C)]
#[derive(Clone, Copy, Default)]
pub struct Sealed {
    pub number: u64,
    pub length: u64,
}

#[repr(C)]
#[derive(Clone, Copy, Default)]
pub struct Opened {
    pub number: u64,
    pub offset: u64,
    pub length: u64,
    pub next: u32,
    pub reserved: u32,
}

extern "C" {
    pub fn suk_new(
        gateway: *mut Gateway,
        terms: *const Terms,
        own_id: *const u8,
        own_id_length: usize,
        peer_id: *const u8,
        peer_id_length: usize,
        own_psk: *const u8,
        own_psk_length: usize,
        peer_psk: *const u8,
        peer_psk_length: usize,
        entries: *const Entry,
        entry_count: usize,
    ) -> u32;
    pub fn suk_end(gateway: *mut Gateway);
    pub fn suk_ike(
        gateway: *mut Gateway,
        from: *const [u8; 4],
        datagram: *const u8,
        datagram_length: usize,
        fresh: *const Fresh,
        output: *mut Output,
    ) -> u32;
    pub fn suk_start(
        gateway: *mut Gateway,
        ike: u32,
        entry: u32,
        fresh: *const Fresh,
        output: *mut Output,
    ) -> u32;
    pub fn suk_probe(
        gateway: *mut Gateway,
        ike: u32,
        fresh: *const Fresh,
        output: *mut Output,
    ) -> u32;
    pub fn suk_delete_child(
        gateway: *mut Gateway,
        child: u32,
        fresh: *const Fresh,
        output: *mut Output,
    ) -> u32;
    pub fn suk_delete_ike(
        gateway: *mut Gateway,
        ike: u32,
        fresh: *const Fresh,
        output: *mut Output,
    ) -> u32;
    pub fn suk_secret(gateway: *mut Gateway, secret: *const [u8; 32], output: *mut Output) -> u32;
    pub fn suk_tick(gateway: *mut Gateway, moment: u64, output: *mut Output) -> u32;
    pub fn suk_next(gateway: *mut Gateway, moment: *mut u64) -> u32;
    pub fn suk_esp(
        gateway: *mut Gateway,
        packet: *const u8,
        packet_length: usize,
        output: *mut Output,
    ) -> u32;
    pub fn suk_outward(
        gateway: *mut Gateway,
        packet: *const u8,
        packet_length: usize,
        room: *mut u8,
        room_length: usize,
        output: *mut Output,
    ) -> u32;
    pub fn suk_esp_all(
        gateway: *mut Gateway,
        octets: *const u8,
        octets_length: usize,
        places: *const Place,
        place_count: usize,
        outputs: *mut Output,
        output_count: usize,
    ) -> u32;
    pub fn suk_outward_all(
        gateway: *mut Gateway,
        octets: *const u8,
        octets_length: usize,
        places: *const Place,
        place_count: usize,
        room: *mut u8,
        room_length: usize,
        outputs: *mut Output,
        output_count: usize,
    ) -> u32;
    pub fn suk_inward(
        gateway: *mut Gateway,
        packet: *const u8,
        packet_length: usize,
        output: *mut Output,
    ) -> u32;
    pub fn suk_message(
        gateway: *mut Gateway,
        place: u64,
        room: *mut u8,
        room_length: usize,
        told: *mut Message,
    ) -> u32;
    pub fn suk_closing(gateway: *mut Gateway, place: u64, ike: *mut u32) -> u32;
    pub fn suk_child_after(gateway: *mut Gateway, serial: u32, told: *mut Child) -> u32;
    pub fn suk_selector(
        gateway: *mut Gateway,
        child: u32,
        remote: u8,
        place: u64,
        told: *mut Selector,
    ) -> u32;
    pub fn suk_associations(
        gateway: *mut Gateway,
        room: *mut Association,
        room_count: usize,
        count: *mut u64,
    ) -> u32;
    pub fn suk_keys(gateway: *mut Gateway, ike: u32, told: *mut Keys) -> u32;
    pub fn suk_sender(
        end: *mut End,
        spi: u32,
        key: *const [u8; 32],
        extended: u8,
        last: u64,
    ) -> u32;
    pub fn suk_receiver(
        end: *mut End,
        spi: u32,
        key: *const [u8; 32],
        extended: u8,
        blocks: u32,
    ) -> u32;
    pub fn suk_seal(
        end: *mut End,
        next: u8,
        payload: *const u8,
        payload_length: usize,
        room: *mut u8,
        room_length: usize,
        told: *mut Sealed,
    ) -> u32;
    pub fn suk_open(
        end: *mut End,
        packet: *const u8,
        packet_length: usize,
        told: *mut Opened,
    ) -> u32;
    pub fn suk_end_association(end: *mut End);
}
