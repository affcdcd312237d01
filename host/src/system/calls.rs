//! The system calls that neither the standard library nor `nix` has in a safe form.
//!
//! All `unsafe` code of this crate is here. Each call gets pointers to what lives
//! longer than the call, with the lengths that go with them, and its answer is
//! looked at.

use super::batch::Batch;
use super::{EspPacket, LIST};
use crate::path::offload::Offloads;
use std::ffi::CString;
use std::fs::{File, OpenOptions};
use std::io;
use std::mem::{size_of, zeroed};
use std::net::{Ipv4Addr, SocketAddrV4};
use std::os::unix::fs::OpenOptionsExt;
use std::os::unix::io::{AsRawFd, FromRawFd, OwnedFd};

/// `TUNSETIFF`, `TUNSETOFFLOAD` (linux/if_tun.h): `_IOW('T', 202, int)` and
/// `_IOW('T', 208, unsigned int)`.
const TUNSETIFF: libc::c_ulong = 0x4004_54ca;
const TUNSETOFFLOAD: libc::c_ulong = 0x4004_54d0;

/// The longest that a control message with one number takes, aligned as the kernel wants.
const CONTROL: usize = 32;

/// What a call answered, or the error that it left.
fn answer(result: libc::c_int) -> io::Result<libc::c_int> {
    if result < 0 {
        Err(io::Error::last_os_error())
    } else {
        Ok(result)
    }
}

/// Makes a TUN interface of this name with the offloads that the kernel agrees to. It
/// goes when the file is closed.
pub(super) fn open_tun(name: &str) -> io::Result<(File, Offloads)> {
    let file = OpenOptions::new()
        .read(true)
        .write(true)
        .custom_flags(libc::O_NONBLOCK | libc::O_CLOEXEC)
        .open("/dev/net/tun")?;
    // SAFETY: all zeros are a value of this record, which has numbers alone.
    let mut request: libc::ifreq = unsafe { zeroed() };
    let octets = name.as_bytes();
    // The last octet stays 0, the end of the name.
    if octets.len() >= request.ifr_name.len() {
        return Err(io::Error::from(io::ErrorKind::InvalidInput));
    }
    for (room, octet) in request.ifr_name.iter_mut().zip(octets) {
        *room = *octet as libc::c_char;
    }
    let flags = libc::IFF_TUN | libc::IFF_NO_PI | libc::IFF_VNET_HDR;
    request.ifr_ifru.ifru_flags = flags as libc::c_short;
    // SAFETY: the call reads and writes one `ifreq`, which `request` is.
    answer(unsafe { libc::ioctl(file.as_raw_fd(), TUNSETIFF as _, &mut request) })?;
    let takes = |offloads: Offloads| {
        let bits = libc::c_ulong::from(offloads.bits());
        // SAFETY: the call takes its argument as a number.
        let result = unsafe { libc::ioctl(file.as_raw_fd(), TUNSETOFFLOAD as _, bits) };
        result == 0
    };
    let agreed = Offloads::agreed(takes);
    Ok((file, agreed))
}

/// A raw socket of ESP, bound to an address, that doesn't let packets be cut on their
/// way.
pub(super) fn open_esp(local: Ipv4Addr) -> io::Result<OwnedFd> {
    let kind = libc::SOCK_RAW | libc::SOCK_NONBLOCK | libc::SOCK_CLOEXEC;
    // SAFETY: the call takes numbers.
    let number = answer(unsafe { libc::socket(libc::AF_INET, kind, libc::IPPROTO_ESP) })?;
    // SAFETY: the kernel just gave this descriptor, and nobody else has it.
    let socket = unsafe { OwnedFd::from_raw_fd(number) };
    let address = address_of(SocketAddrV4::new(local, 0));
    let length = size_of::<libc::sockaddr_in>() as libc::socklen_t;
    // SAFETY: the address lives until after the call, and is as long as told.
    answer(unsafe {
        libc::bind(
            number,
            (&address as *const libc::sockaddr_in).cast(),
            length,
        )
    })?;
    heed_path_mtu(&socket, true)?;
    Ok(socket)
}

/// Whether a socket of IPv4 refuses what is longer than the kernel's idea of the path's MTU,
/// or only what is longer than the first link's. Nothing is cut on its way either way.
pub(super) fn heed_path_mtu(socket: &impl AsRawFd, heeds: bool) -> io::Result<()> {
    let discover = match heeds {
        true => libc::IP_PMTUDISC_DO,
        false => libc::IP_PMTUDISC_PROBE,
    };
    set_option(socket, libc::IPPROTO_IP, libc::IP_MTU_DISCOVER, discover)
}

/// A socket by which the kernel tells what becomes of interfaces.
pub(super) fn open_links() -> io::Result<OwnedFd> {
    let kind = libc::SOCK_RAW | libc::SOCK_NONBLOCK | libc::SOCK_CLOEXEC;
    // SAFETY: the call takes numbers.
    let number = answer(unsafe { libc::socket(libc::AF_NETLINK, kind, libc::NETLINK_ROUTE) })?;
    // SAFETY: the kernel just gave this descriptor, and nobody else has it.
    let socket = unsafe { OwnedFd::from_raw_fd(number) };
    // SAFETY: all zeros are a value of this record, which has numbers alone.
    let mut address: libc::sockaddr_nl = unsafe { zeroed() };
    address.nl_family = libc::AF_NETLINK as libc::sa_family_t;
    address.nl_groups = libc::RTMGRP_LINK as u32;
    let length = size_of::<libc::sockaddr_nl>() as libc::socklen_t;
    // SAFETY: the address lives until after the call, and is as long as told.
    answer(unsafe {
        libc::bind(
            number,
            (&address as *const libc::sockaddr_nl).cast(),
            length,
        )
    })?;
    Ok(socket)
}

/// The kernel's number for an interface, which no later one of its name has.
pub(super) fn index_of(name: &str) -> io::Result<u32> {
    let name = CString::new(name)?;
    // SAFETY: the name ends with a zero, and lives until after the call.
    match unsafe { libc::if_nametoindex(name.as_ptr()) } {
        0 => Err(io::Error::last_os_error()),
        index => Ok(index),
    }
}

/// Lets a socket's queues be so long, if it may: that of what came and that of what goes out.
pub(super) fn widen(socket: &impl AsRawFd, octets: i32) {
    lengthen(socket, libc::SO_RCVBUFFORCE, libc::SO_RCVBUF, octets);
    widen_out(socket, octets);
}

/// Lets a socket's queue of what goes out be so long, if it may.
pub(super) fn widen_out(socket: &impl AsRawFd, octets: i32) {
    lengthen(socket, libc::SO_SNDBUFFORCE, libc::SO_SNDBUF, octets);
}

fn lengthen(socket: &impl AsRawFd, forced: i32, allowed: i32, octets: i32) {
    if set_option(socket, libc::SOL_SOCKET, forced, octets).is_err() {
        // As long as anybody's may be. A shorter one is no fault.
        let _ = set_option(socket, libc::SOL_SOCKET, allowed, octets);
    }
}

fn set_option(socket: &impl AsRawFd, level: i32, name: i32, value: i32) -> io::Result<()> {
    let length = size_of::<i32>() as libc::socklen_t;
    let value = &value as *const i32;
    // SAFETY: the value lives until after the call, and is as long as told.
    answer(unsafe { libc::setsockopt(socket.as_raw_fd(), level, name, value.cast(), length) })?;
    Ok(())
}

/// The MTU of the path to which a socket is connected, in octets.
pub(super) fn path_mtu(socket: &impl AsRawFd) -> io::Result<u16> {
    let mut mtu: i32 = 0;
    let mut length = size_of::<i32>() as libc::socklen_t;
    let room = &mut mtu as *mut i32;
    // SAFETY: the kernel writes at most `length` octets, which `mtu` has.
    answer(unsafe {
        libc::getsockopt(
            socket.as_raw_fd(),
            libc::IPPROTO_IP,
            libc::IP_MTU,
            room.cast(),
            &mut length,
        )
    })?;
    Ok(u16::try_from(mtu).unwrap_or(u16::MAX))
}

fn address_of(address: SocketAddrV4) -> libc::sockaddr_in {
    // SAFETY: all zeros are a value of this record, which has numbers alone.
    let mut record: libc::sockaddr_in = unsafe { zeroed() };
    record.sin_family = libc::AF_INET as libc::sa_family_t;
    record.sin_port = address.port().to_be();
    record.sin_addr.s_addr = u32::from(*address.ip()).to_be();
    record
}

/// Fills a batch with what a socket of IPv4 has, by one call. An error is that of the
/// first datagram; where there is none it is `WouldBlock`.
pub(super) fn receive(socket: &impl AsRawFd, batch: &mut Batch) -> io::Result<()> {
    batch.clear();
    // SAFETY: all zeros are a value of these records: numbers, and null pointers.
    let mut headers: [libc::mmsghdr; LIST] = unsafe { zeroed() };
    // SAFETY: the same.
    let mut vectors: [libc::iovec; LIST] = unsafe { zeroed() };
    // SAFETY: the same.
    let mut addresses: [libc::sockaddr_in; LIST] = unsafe { zeroed() };
    let mut count = 0;
    let parts = headers.iter_mut().zip(&mut vectors).zip(&mut addresses);
    for (((header, vector), address), room) in parts.zip(batch.rooms()) {
        vector.iov_base = room.as_mut_ptr().cast();
        vector.iov_len = room.len();
        header.msg_hdr.msg_iov = vector;
        header.msg_hdr.msg_iovlen = 1;
        header.msg_hdr.msg_name = (address as *mut libc::sockaddr_in).cast();
        header.msg_hdr.msg_namelen = size_of::<libc::sockaddr_in>() as libc::socklen_t;
        count += 1;
    }
    // SAFETY: the first `count` headers point to a vector, an address and a room each,
    // which live until after the call and are as long as told. Nothing else reads or
    // writes them meanwhile: `batch` is borrowed to be changed.
    let came = answer(unsafe {
        libc::recvmmsg(
            socket.as_raw_fd(),
            headers.as_mut_ptr(),
            count,
            libc::MSG_DONTWAIT as _,
            std::ptr::null_mut(),
        )
    })?;
    let came = usize::try_from(came).unwrap_or(0);
    for (header, address) in headers.iter().zip(&addresses).take(came) {
        let ip = Ipv4Addr::from(u32::from_be(address.sin_addr.s_addr));
        let from = SocketAddrV4::new(ip, u16::from_be(address.sin_port));
        batch.note(from, header.msg_len as usize);
    }
    Ok(())
}

/// Sends ESP packets to an address by one call, each with its DSCP and ECN, and tells how
/// many the kernel took. An error is that of the first.
pub(super) fn send_esp(
    socket: &impl AsRawFd,
    to: Ipv4Addr,
    octets: &[u8],
    list: &[EspPacket],
) -> io::Result<usize> {
    #[repr(C, align(8))]
    #[derive(Clone, Copy)]
    struct Control([u8; CONTROL]);
    let mut address = address_of(SocketAddrV4::new(to, 0));
    let address = &mut address as *mut libc::sockaddr_in;
    // SAFETY: all zeros are a value of these records: numbers, and null pointers.
    let mut headers: [libc::mmsghdr; LIST] = unsafe { zeroed() };
    // SAFETY: the same.
    let mut vectors: [libc::iovec; LIST] = unsafe { zeroed() };
    let mut controls = [Control([0; CONTROL]); LIST];
    let mut count = 0;
    let parts = headers.iter_mut().zip(&mut vectors).zip(&mut controls);
    for (((header, vector), control), packet) in parts.zip(list) {
        let part = &octets[packet.place.clone()];
        // The kernel reads what a vector of a message that goes out points to, no more.
        vector.iov_base = part.as_ptr().cast_mut().cast();
        vector.iov_len = part.len();
        let message = &mut header.msg_hdr;
        message.msg_iov = vector;
        message.msg_iovlen = 1;
        message.msg_name = address.cast();
        message.msg_namelen = size_of::<libc::sockaddr_in>() as libc::socklen_t;
        message.msg_control = control.0.as_mut_ptr().cast();
        let class = libc::c_int::from(packet.class);
        let length = size_of::<libc::c_int>() as libc::c_uint;
        // SAFETY: the control has 32 octets and is aligned to 8; one message with a
        // number takes 24 with its padding, and nothing is written behind it.
        unsafe {
            message.msg_controllen = libc::CMSG_SPACE(length) as _;
            let first = libc::CMSG_FIRSTHDR(message);
            (*first).cmsg_level = libc::IPPROTO_IP;
            (*first).cmsg_type = libc::IP_TOS;
            (*first).cmsg_len = libc::CMSG_LEN(length) as _;
            libc::CMSG_DATA(first)
                .cast::<libc::c_int>()
                .write_unaligned(class);
        }
        count += 1;
    }
    // SAFETY: the first `count` headers point to a vector, the address and a control
    // each, which live until after the call and are as long as told.
    let sent = answer(unsafe {
        libc::sendmmsg(
            socket.as_raw_fd(),
            headers.as_mut_ptr(),
            count,
            libc::MSG_DONTWAIT as _,
        )
    })?;
    Ok(usize::try_from(sent).unwrap_or(0))
}

/// `capget` and `capset` of 64 bits (linux/capability.h).
const CAPABILITY_VERSION: u32 = 0x2008_0522;
const CAP_NET_ADMIN: u32 = 12;
const CAP_NET_RAW: u32 = 13;

/// Gives up all rights of root but to raw sockets and to interfaces, for this process
/// and those that it starts, and the chance to get others. Its memory, in which secrets are,
/// is from now on no other process's to read, and goes to no file where it crashes.
pub(super) fn drop_rights() -> io::Result<()> {
    #[repr(C)]
    struct Header {
        version: u32,
        process: libc::c_int,
    }
    #[repr(C)]
    #[derive(Clone, Copy)]
    struct Data {
        effective: u32,
        permitted: u32,
        inheritable: u32,
    }
    // The kernel reads whole words, as which plain numbers of C wouldn't be handed over.
    let (yes, no): (libc::c_ulong, libc::c_ulong) = (1, 0);
    // SAFETY: the call takes numbers.
    answer(unsafe { libc::prctl(libc::PR_SET_NO_NEW_PRIVS, yes, no, no, no) })?;
    let kept = 1 << CAP_NET_ADMIN | 1 << CAP_NET_RAW;
    let header = Header {
        version: CAPABILITY_VERSION,
        process: 0,
    };
    let low = Data {
        effective: kept,
        permitted: kept,
        inheritable: kept,
    };
    let high = Data {
        effective: 0,
        permitted: 0,
        inheritable: 0,
    };
    let data = [low, high];
    // SAFETY: the call reads one header and, of this version, two records of data.
    let result = unsafe { libc::syscall(libc::SYS_capset, &header, data.as_ptr()) };
    if result < 0 {
        return Err(io::Error::last_os_error());
    }
    // SAFETY: the call takes numbers.
    answer(unsafe { libc::prctl(libc::PR_SET_DUMPABLE, no, no, no, no) })?;
    Ok(())
}

#[cfg(test)]
mod tests {
    use super::{heed_path_mtu, index_of, widen};
    use std::net::UdpSocket;
    use std::os::unix::io::AsRawFd;

    fn option(socket: &UdpSocket, level: i32, name: i32) -> i32 {
        let mut value: i32 = 0;
        let mut length = 4;
        let room = (&mut value as *mut i32).cast();
        // SAFETY: the kernel writes at most 4 octets, which `value` has.
        let result =
            unsafe { libc::getsockopt(socket.as_raw_fd(), level, name, room, &mut length) };
        assert_eq!(result, 0);
        value
    }

    #[test]
    fn both_queues_of_a_socket_are_widened() {
        let socket = UdpSocket::bind("127.0.0.1:0").unwrap();
        // So little is anybody's to ask for. The kernel doubles it for its own records.
        widen(&socket, 50_000);
        for name in [libc::SO_RCVBUF, libc::SO_SNDBUF] {
            assert_eq!(option(&socket, libc::SOL_SOCKET, name), 100_000);
        }
    }

    #[test]
    fn the_kernels_idea_of_a_path_is_heeded_or_not() {
        let socket = UdpSocket::bind("127.0.0.1:0").unwrap();
        let cases = [
            (true, libc::IP_PMTUDISC_DO),
            (false, libc::IP_PMTUDISC_PROBE),
        ];
        for (heeds, told) in cases {
            heed_path_mtu(&socket, heeds).unwrap();
            let found = option(&socket, libc::IPPROTO_IP, libc::IP_MTU_DISCOVER);
            assert_eq!(found, told);
        }
    }

    #[test]
    fn an_interface_has_an_index_and_none_has_none() {
        assert_eq!(index_of("lo").unwrap(), 1);
        assert!(index_of("no such one").is_err());
    }
}
