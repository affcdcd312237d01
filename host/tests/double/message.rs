//! Messages of the model as octets, behind a heading as IKE has it.

use crate::simulation::core::{Body, Message};

const HEADING: usize = 28;

fn tag(body: &Body) -> (u8, u64, u64) {
    match *body {
        Body::Init => (1, 0, 0),
        Body::InitAnswer => (2, 0, 0),
        Body::Auth { entry, spi } => (3, u64::from(entry), spi),
        Body::AuthAnswer { spi } => (4, u64::from(spi.is_some()), spi.unwrap_or(0)),
        Body::Child { entry, spi } => (5, u64::from(entry), spi),
        Body::ChildAnswer { spi } => (6, u64::from(spi.is_some()), spi.unwrap_or(0)),
        Body::Probe => (7, 0, 0),
        Body::DeleteChild { spi } => (8, 0, spi),
        Body::DeleteIke => (9, 0, 0),
        Body::Empty => (10, 0, 0),
    }
}

/// A message, of an end that began the IKE SA or not.
pub fn octets_of(message: &Message, by_initiator: bool) -> Vec<u8> {
    let (tag, first, second) = tag(&message.body);
    let exchange = match tag {
        1 | 2 => 34,
        3 | 4 => 35,
        5 | 6 => 36,
        _ => 37,
    };
    let answers = [2, 4, 6, 10].contains(&tag);
    let flags = u8::from(by_initiator) << 3 | u8::from(answers) << 5;
    let (initiator, responder) = match by_initiator {
        true => (message.from_spi, message.to_spi),
        false => (message.to_spi, message.from_spi),
    };
    let mut octets = Vec::new();
    octets.extend(initiator.to_be_bytes());
    octets.extend(responder.to_be_bytes());
    octets.extend([0, 0x20, exchange, flags]);
    octets.extend(message.number.to_be_bytes());
    octets.extend(45u32.to_be_bytes());
    octets.push(tag);
    octets.extend(first.to_be_bytes());
    octets.extend(second.to_be_bytes());
    octets
}

/// The message of these octets, if they are one.
pub fn message_of(octets: &[u8]) -> Option<Message> {
    let number = |at: usize| {
        let octets = octets.get(at..at + 8)?.try_into().ok()?;
        Some(u64::from_be_bytes(octets))
    };
    let (initiator, responder) = (number(0)?, number(8)?);
    let flags = *octets.get(19)?;
    let (from_spi, to_spi) = match flags & 8 != 0 {
        true => (initiator, responder),
        false => (responder, initiator),
    };
    let (first, second) = (number(HEADING + 1)?, number(HEADING + 9)?);
    let (entry, spi) = (first as u32, second);
    let told = (first == 1).then_some(second);
    let body = match *octets.get(HEADING)? {
        1 => Body::Init,
        2 => Body::InitAnswer,
        3 => Body::Auth { entry, spi },
        4 => Body::AuthAnswer { spi: told },
        5 => Body::Child { entry, spi },
        6 => Body::ChildAnswer { spi: told },
        7 => Body::Probe,
        8 => Body::DeleteChild { spi },
        9 => Body::DeleteIke,
        10 => Body::Empty,
        _ => return None,
    };
    Some(Message {
        from_spi,
        to_spi,
        number: u32::from_be_bytes(octets.get(20..24)?.try_into().ok()?),
        body,
    })
}
