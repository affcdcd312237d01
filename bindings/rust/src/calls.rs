//! The calls over references and slices. All else in this crate is safe Rust above this module.
//!
//! What the library trusts its caller with (the head of `sukperin.h`) holds here by types: a handle has one owner and is used by one
//! thread at a time, since each call takes it by `&mut`; references and slices are valid, aligned, and as long as their lengths say;
//! what is written overlaps nothing that is read, since `&mut` and `&` don't.

use crate::ffi;
use crate::list::Record;
use std::ptr;
use std::sync::atomic::{compiler_fence, Ordering};

/// A handle of a gateway, freed when it is dropped.
pub struct GatewayHandle(ffi::Gateway);

impl Drop for GatewayHandle {
    fn drop(&mut self) {
        // SAFETY: the handle is this value's alone, and isn't used again.
        unsafe { ffi::suk_end(&mut self.0) }
    }
}

// SAFETY of all calls below: see the head of this module. Records are plain numbers, of which all values are valid, and each slice's
// pointer goes with its own length.
impl GatewayHandle {
    pub fn none() -> GatewayHandle {
        GatewayHandle(ffi::Gateway::NONE)
    }

    pub fn new_gateway(
        &mut self,
        terms: &ffi::Terms,
        own_id: &[u8],
        peer_id: &[u8],
        own_psk: &[u8],
        peer_psk: &[u8],
        entries: &[ffi::Entry],
    ) -> u32 {
        unsafe {
            ffi::suk_new(
                &mut self.0,
                terms,
                own_id.as_ptr(),
                own_id.len(),
                peer_id.as_ptr(),
                peer_id.len(),
                own_psk.as_ptr(),
                own_psk.len(),
                peer_psk.as_ptr(),
                peer_psk.len(),
                entries.as_ptr(),
                entries.len(),
            )
        }
    }

    pub fn ike(
        &mut self,
        from: &[u8; 4],
        datagram: &[u8],
        fresh: &ffi::Fresh,
        told: &mut ffi::Output,
    ) -> u32 {
        unsafe {
            ffi::suk_ike(
                &mut self.0,
                from,
                datagram.as_ptr(),
                datagram.len(),
                fresh,
                told,
            )
        }
    }

    pub fn start(
        &mut self,
        ike: u32,
        entry: u32,
        fresh: &ffi::Fresh,
        told: &mut ffi::Output,
    ) -> u32 {
        unsafe { ffi::suk_start(&mut self.0, ike, entry, fresh, told) }
    }

    pub fn probe(&mut self, ike: u32, fresh: &ffi::Fresh, told: &mut ffi::Output) -> u32 {
        unsafe { ffi::suk_probe(&mut self.0, ike, fresh, told) }
    }

    pub fn delete_child(&mut self, child: u32, fresh: &ffi::Fresh, told: &mut ffi::Output) -> u32 {
        unsafe { ffi::suk_delete_child(&mut self.0, child, fresh, told) }
    }

    pub fn delete_ike(&mut self, ike: u32, fresh: &ffi::Fresh, told: &mut ffi::Output) -> u32 {
        unsafe { ffi::suk_delete_ike(&mut self.0, ike, fresh, told) }
    }

    pub fn secret(&mut self, secret: &[u8; 32], told: &mut ffi::Output) -> u32 {
        unsafe { ffi::suk_secret(&mut self.0, secret, told) }
    }

    pub fn tick(&mut self, moment: u64, told: &mut ffi::Output) -> u32 {
        unsafe { ffi::suk_tick(&mut self.0, moment, told) }
    }

    pub fn next(&mut self, moment: &mut u64) -> u32 {
        unsafe { ffi::suk_next(&mut self.0, moment) }
    }

    pub fn esp(&mut self, packet: &[u8], told: &mut ffi::Output) -> u32 {
        unsafe { ffi::suk_esp(&mut self.0, packet.as_ptr(), packet.len(), told) }
    }

    pub fn outward(&mut self, packet: &[u8], room: &mut [u8], told: &mut ffi::Output) -> u32 {
        unsafe {
            ffi::suk_outward(
                &mut self.0,
                packet.as_ptr(),
                packet.len(),
                room.as_mut_ptr(),
                room.len(),
                told,
            )
        }
    }

    pub fn esp_all(&mut self, octets: &[u8], places: &[ffi::Place], told: &mut [Record]) -> u32 {
        unsafe {
            ffi::suk_esp_all(
                &mut self.0,
                octets.as_ptr(),
                octets.len(),
                places.as_ptr(),
                places.len(),
                // A record is an `ffi::Output` and nothing else.
                told.as_mut_ptr().cast(),
                told.len(),
            )
        }
    }

    pub fn outward_all(
        &mut self,
        octets: &[u8],
        places: &[ffi::Place],
        room: &mut [u8],
        told: &mut [Record],
    ) -> u32 {
        unsafe {
            ffi::suk_outward_all(
                &mut self.0,
                octets.as_ptr(),
                octets.len(),
                places.as_ptr(),
                places.len(),
                room.as_mut_ptr(),
                room.len(),
                // A record is an `ffi::Output` and nothing else.
                told.as_mut_ptr().cast(),
                told.len(),
            )
        }
    }

    pub fn inward(&mut self, packet: &[u8], told: &mut ffi::Output) -> u32 {
        unsafe { ffi::suk_inward(&mut self.0, packet.as_ptr(), packet.len(), told) }
    }

    pub fn message(&mut self, place: u64, room: &mut [u8], told: &mut ffi::Message) -> u32 {
        unsafe { ffi::suk_message(&mut self.0, place, room.as_mut_ptr(), room.len(), told) }
    }

    pub fn closing(&mut self, place: u64, ike: &mut u32) -> u32 {
        unsafe { ffi::suk_closing(&mut self.0, place, ike) }
    }

    pub fn child_after(&mut self, serial: u32, told: &mut ffi::Child) -> u32 {
        unsafe { ffi::suk_child_after(&mut self.0, serial, told) }
    }

    pub fn selector(
        &mut self,
        child: u32,
        remote: bool,
        place: u64,
        told: &mut ffi::Selector,
    ) -> u32 {
        unsafe { ffi::suk_selector(&mut self.0, child, u8::from(remote), place, told) }
    }

    pub fn associations(&mut self, room: &mut [ffi::Association], count: &mut u64) -> u32 {
        unsafe { ffi::suk_associations(&mut self.0, room.as_mut_ptr(), room.len(), count) }
    }

    pub fn keys(&mut self, ike: u32, told: &mut ffi::Keys) -> u32 {
        unsafe { ffi::suk_keys(&mut self.0, ike, told) }
    }
}

/// A handle of one end of an ESP SA, freed when it is dropped.
pub struct AssociationHandle(ffi::End);

impl Drop for AssociationHandle {
    fn drop(&mut self) {
        // SAFETY: the handle is this value's alone, and isn't used again.
        unsafe { ffi::suk_end_association(&mut self.0) }
    }
}

// SAFETY of all calls below: as of a gateway's.
impl AssociationHandle {
    pub fn none() -> AssociationHandle {
        AssociationHandle(ffi::End::NONE)
    }

    pub fn sender(&mut self, spi: u32, key: &[u8; 32], extended: bool, last: u64) -> u32 {
        unsafe { ffi::suk_sender(&mut self.0, spi, key, u8::from(extended), last) }
    }

    pub fn receiver(&mut self, spi: u32, key: &[u8; 32], extended: bool, blocks: u32) -> u32 {
        unsafe { ffi::suk_receiver(&mut self.0, spi, key, u8::from(extended), blocks) }
    }

    pub fn seal(
        &mut self,
        next: u8,
        payload: &[u8],
        room: &mut [u8],
        told: &mut ffi::Sealed,
    ) -> u32 {
        unsafe {
            ffi::suk_seal(
                &mut self.0,
                next,
                payload.as_ptr(),
                payload.len(),
                room.as_mut_ptr(),
                room.len(),
                told,
            )
        }
    }

    pub fn open(&mut self, packet: &[u8], told: &mut ffi::Opened) -> u32 {
        unsafe { ffi::suk_open(&mut self.0, packet.as_ptr(), packet.len(), told) }
    }
}

/// Overwrites octets that are of no use any more. The compiler may not leave it out.
pub fn wipe(octets: &mut [u8]) {
    for octet in octets {
        // SAFETY: the reference is valid, and this value's alone.
        unsafe { ptr::write_volatile(octet, 0) }
    }
    compiler_fence(Ordering::SeqCst);
}

impl Drop for ffi::Fresh {
    fn drop(&mut self) {
        self.spi = 0;
        wipe(&mut self.nonce);
        wipe(&mut self.secret);
        wipe(&mut self.seal);
    }
}

impl Drop for ffi::Terms {
    fn drop(&mut self) {
        wipe(&mut self.cookie_secret);
    }
}

#[cfg(test)]
mod tests {
    use super::wipe;

    #[test]
    fn all_octets_are_wiped() {
        let mut octets = [7; 33];
        wipe(&mut octets);
        assert_eq!(octets, [0; 33]);
    }
}
