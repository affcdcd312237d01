"""One ESP SA, beside what Python's own hmac makes."""

import hashlib
import hmac
import struct
import unittest
from typing import Optional

from sukperin import CallFault, Inbound, Outbound, Refusal

SPI = 0x1000
KEY = bytes(range(32))


def packet_of(number: int, payload: bytes, *, extended: bool = False, padding: Optional[bytes] = None, next_header: int = 4) -> bytes:
    if padding is None:
        padding = bytes(range(1, (-len(payload) - 2) % 4 + 1))
    covered = struct.pack(">II", SPI, number % 2**32) + payload + padding + bytes([len(padding), next_header])
    high = struct.pack(">I", number >> 32) if extended else b""
    return covered + hmac.new(KEY, covered + high, hashlib.sha256).digest()[:16]


class Associations(unittest.TestCase):
    def refuses(self, number, call, *words):  # type: ignore[no-untyped-def]
        with self.assertRaises(Refusal) as caught:
            call(*words)
        self.assertEqual(caught.exception.number, number)
        self.assertTrue(str(caught.exception).startswith(f"E{number}: "))

    def faults(self, code, call, *words, **named):  # type: ignore[no-untyped-def]
        with self.assertRaises(CallFault) as caught:
            call(*words, **named)
        self.assertEqual(caught.exception.code, code)

    def test_seals_as_hmac_does(self) -> None:
        for extended in (False, True):
            sender = Outbound(SPI, KEY, extended=extended)
            for number in range(1, 70):
                payload = bytes(range(number))
                sealed = sender.seal(payload, 41)
                self.assertEqual(sealed.number, number)
                self.assertEqual(sealed.octets, packet_of(number, payload, extended=extended, next_header=41))

    def test_opens_what_hmac_made(self) -> None:
        receiver = Inbound(SPI, KEY, blocks=2)
        for number in range(1, 70):
            opened = receiver.open(packet_of(number, bytes(range(number))))
            self.assertEqual((opened.number, opened.next_header, opened.payload), (number, 4, bytes(range(number))))

    def test_window(self) -> None:
        receiver = Inbound(SPI, KEY, blocks=2)
        receiver.open(packet_of(100, b""))
        receiver.open(packet_of(37, b""))
        self.refuses(15, receiver.open, packet_of(36, b""))
        self.refuses(16, receiver.open, packet_of(37, b""))
        self.refuses(16, receiver.open, packet_of(100, b""))

    def test_refusals(self) -> None:
        receiver = Inbound(SPI, KEY)
        good = packet_of(1, b"abc")
        self.refuses(14, receiver.open, good[:-1])
        self.refuses(14, receiver.open, b"")
        self.refuses(17, receiver.open, packet_of(0, b""))
        self.refuses(18, receiver.open, good[:-1] + bytes([good[-1] ^ 1]))
        self.refuses(28, receiver.open, b"\0\0\x20\0" + good[4:])
        self.refuses(19, receiver.open, packet_of(2, b"abcd", padding=b"\x01\x09"))
        self.refuses(16, receiver.open, packet_of(2, b"abcd"))
        self.assertEqual(receiver.open(good).payload, b"abc")

    def test_extended_numbers(self) -> None:
        receiver = Inbound(SPI, KEY, extended=True)
        for number in (2**31, 2**32 - 1, 2**32, 2**32 + 1):
            sealed = Outbound(SPI, KEY, extended=True, last=number - 1).seal(b"x")
            self.assertEqual(sealed.octets, packet_of(number, b"x", extended=True))
            self.assertEqual(receiver.open(sealed.octets).number, number)

    def test_limits(self) -> None:
        sender = Outbound(SPI, KEY, last=2**32 - 2)
        self.refuses(13, sender.seal, bytes(16385))
        self.assertEqual(sender.seal(bytes(16384)).number, 2**32 - 1)
        self.refuses(12, sender.seal, b"")

    def test_what_cannot_be_used(self) -> None:
        self.faults(107, Outbound, 255, KEY)
        self.faults(107, Inbound, 255, KEY)
        self.faults(104, Inbound, SPI, KEY, blocks=3)
        with self.assertRaises(ValueError):
            Outbound(SPI, b"short")
        with self.assertRaises(ValueError):
            Outbound(2**32 + 256, KEY)

    def test_nothing_goes_on_after_close(self) -> None:
        with Outbound(SPI, KEY) as sender:
            sender.seal(b"")
        self.faults(101, sender.seal, b"")


if __name__ == "__main__":
    unittest.main()
