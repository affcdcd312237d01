//! Word of the kernel that interfaces were set down or deleted (rtnetlink(7)).

use super::calls;
use std::fs::File;
use std::io::{self, Read};
use std::os::unix::io::{AsRawFd, RawFd};

/// The longest list of messages that is read at once, in octets: the kernel gives no longer
/// one to a room of this size.
const ROOM: usize = 32_768;

/// The octets of a message's header (`nlmsghdr`), and of what is behind it (`ifinfomsg`).
const HEADER: usize = 16;
const LINK: usize = 16;

/// The socket by which it comes.
#[derive(Debug)]
pub(super) struct Links {
    socket: File,
    room: Vec<u8>,
}

impl Links {
    /// Opens the socket. It takes no rights.
    pub(super) fn open() -> io::Result<Links> {
        Ok(Links {
            socket: File::from(calls::open_links()?),
            room: vec![0; ROOM],
        })
    }

    /// Takes all that came: the indexes of the interfaces that were set down or deleted, and
    /// an error where some word was lost.
    pub(super) fn take(&mut self) -> (Vec<u32>, Option<io::Error>) {
        let mut indexes = Vec::new();
        let mut lost = None;
        loop {
            match self.socket.read(&mut self.room) {
                Ok(0) => break,
                Ok(length) => indexes.extend(down(&self.room[..length])),
                Err(error) => match error.kind() {
                    io::ErrorKind::WouldBlock => break,
                    io::ErrorKind::Interrupted => {}
                    // ENOBUFS: the queue was full. What it holds is still read.
                    _ if lost.is_none() => lost = Some(error),
                    _ => break,
                },
            }
        }
        (indexes, lost)
    }
}

impl AsRawFd for Links {
    fn as_raw_fd(&self) -> RawFd {
        self.socket.as_raw_fd()
    }
}

/// The indexes of the interfaces that are down or gone, as these messages say.
fn down(mut octets: &[u8]) -> Vec<u32> {
    let mut indexes = Vec::new();
    while let Some(length) = number(octets, 0) {
        let length = length as usize;
        if length < HEADER {
            break;
        }
        // Of a message that the room has cut the beginning is enough.
        let message = &octets[..length.min(octets.len())];
        // Messages begin at multiples of 4.
        let next = message.len().next_multiple_of(4);
        octets = octets.get(next..).unwrap_or_default();
        if message.len() < HEADER + LINK {
            continue;
        }
        let kind = u16::from_ne_bytes([message[4], message[5]]);
        let (Some(index), Some(flags)) = (number(message, HEADER + 4), number(message, HEADER + 8))
        else {
            continue;
        };
        let is_up = flags & libc::IFF_UP as u32 != 0;
        if kind == libc::RTM_DELLINK || kind == libc::RTM_NEWLINK && !is_up {
            indexes.push(index);
        }
    }
    indexes
}

/// The number of 32 bits at a place, in this machine's order.
fn number(octets: &[u8], at: usize) -> Option<u32> {
    let octets = octets.get(at..at + 4)?.try_into().ok()?;
    Some(u32::from_ne_bytes(octets))
}

#[cfg(test)]
mod tests {
    use super::{down, Links};

    fn message(kind: u16, index: u32, flags: i32, attributes: usize) -> Vec<u8> {
        let length = 32 + attributes;
        let mut octets = (length as u32).to_ne_bytes().to_vec();
        octets.extend(kind.to_ne_bytes());
        octets.extend([0; 10]);
        octets.extend([0, 0, 0xfe, 0xff]);
        octets.extend(index.to_ne_bytes());
        octets.extend(flags.to_ne_bytes());
        octets.extend([0; 4]);
        octets.resize(length.next_multiple_of(4), 0);
        octets
    }

    #[test]
    fn interfaces_that_are_down_or_deleted_are_told() {
        let mut list = message(libc::RTM_NEWLINK, 3, libc::IFF_UP | libc::IFF_RUNNING, 40);
        list.extend(message(libc::RTM_NEWLINK, 4, libc::IFF_RUNNING, 41));
        list.extend(message(libc::RTM_DELLINK, 5, libc::IFF_UP, 0));
        list.extend(message(libc::RTM_NEWADDR, 6, 0, 8));
        list.extend(message(libc::RTM_NEWLINK, 7, 0, 3));
        assert_eq!(down(&list), [4, 5, 7]);
        // What isn't there tells nothing, and no length leads past the end.
        for length in 0..list.len() {
            assert!([4, 5, 7].starts_with(&down(&list[..length])));
        }
        for length in [0u32, 15, 17, u32::MAX] {
            list[..4].copy_from_slice(&length.to_ne_bytes());
            down(&list);
        }
    }

    #[test]
    fn the_socket_waits_for_nobody_and_takes_no_rights() {
        let mut links = Links::open().unwrap();
        // Other interfaces of this machine may have changed meanwhile.
        let _ = links.take();
    }
}
