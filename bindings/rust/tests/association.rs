//! One ESP SA under a given key.

use sukperin::{room_for, Error, Receiver, Refusal, Sender};

const SPI: u32 = 0x1000;

fn key() -> [u8; 32] {
    std::array::from_fn(|index| index as u8)
}

fn refused(number: u8) -> Error {
    Error::Refused(Refusal::of_number(number).unwrap())
}

// Number 1 with the payload "abcdef", made by Python's hmac.
const FOREIGN: [u8; 32] = [
    0x00, 0x00, 0x10, 0x00, 0x00, 0x00, 0x00, 0x01, 0x61, 0x62, 0x63, 0x64, 0x65, 0x66, 0x00, 0x04,
    0xa2, 0x30, 0x88, 0x14, 0x96, 0x57, 0x0b, 0x17, 0xb1, 0xd3, 0xd5, 0x13, 0x90, 0xe2, 0x2f, 0x17,
];

#[test]
fn seals_as_another_program_does() {
    let mut sender = Sender::new(SPI, &key(), false, 0).unwrap();
    let mut room = [0; room_for(6)];
    let sealed = sender.seal(4, b"abcdef", &mut room).unwrap();
    assert_eq!((sealed.number, sealed.octets), (1, &FOREIGN[..]));
}

#[test]
fn opens_each_packet_once() {
    let mut receiver = Receiver::new(SPI, &key(), false, 2).unwrap();
    let mut damaged = FOREIGN;
    damaged[31] ^= 1;
    assert_eq!(receiver.open(&damaged), Err(refused(18)));
    assert_eq!(receiver.open(&FOREIGN[..31]), Err(refused(14)));
    let opened = receiver.open(&FOREIGN).unwrap();
    assert_eq!(
        (opened.number, opened.next_header, opened.payload),
        (1, 4, &b"abcdef"[..])
    );
    assert_eq!(receiver.open(&FOREIGN), Err(refused(16)));
    damaged[3] ^= 1;
    assert_eq!(receiver.open(&damaged), Err(refused(28)));
}

#[test]
fn extended_numbers_go_on_past_32_bits() {
    let mut receiver = Receiver::new(SPI, &key(), true, 4).unwrap();
    for number in [1 << 31, (1 << 32) - 1, 1 << 32, (1 << 32) + 1] {
        let mut sender = Sender::new(SPI, &key(), true, number - 1).unwrap();
        let mut room = [0; room_for(0)];
        let sealed = sender.seal(59, b"", &mut room).unwrap();
        assert_eq!(sealed.number, number);
        assert_eq!(
            receiver.open(sealed.octets).map(|opened| opened.number),
            Ok(number)
        );
    }
}

#[test]
fn refuses_what_it_should() {
    assert_eq!(Sender::new(255, &key(), false, 0).err(), Some(Error::Spi));
    assert_eq!(Receiver::new(255, &key(), false, 2).err(), Some(Error::Spi));
    assert_eq!(
        Receiver::new(SPI, &key(), false, 3).err(),
        Some(Error::Configuration)
    );
    let mut sender = Sender::new(SPI, &key(), false, 0xffff_ffff).unwrap();
    assert_eq!(sender.seal(4, b"", &mut [0; room_for(0)]), Err(refused(12)));
    assert_eq!(
        sender.seal(4, b"", &mut [0; room_for(0) - 1]),
        Err(Error::Room)
    );
    let mut sender = Sender::new(SPI, &key(), false, 0).unwrap();
    assert_eq!(
        sender.seal(4, &[0; 16385], &mut [0; room_for(16385)]),
        Err(refused(13))
    );
}
