"""Judges ESP packets of another stack under a key that is known. Here the other stack is Python's own hmac.

    SUKPERIN_LIB=PREFIX/lib PYTHONPATH=bindings/python python3 bindings/python/examples/judge_esp.py
"""

import hashlib
import hmac
import struct
from typing import Optional

from sukperin import Inbound, Refusal

SPI = 0x1000
KEY = hashlib.sha256(b"a key of both ends").digest()


def foreign_packet(number: int, payload: bytes, padding: Optional[bytes] = None) -> bytes:
    """A packet of RFC 4303 section 2 with NULL encryption and HMAC-SHA-256-128."""
    if padding is None:
        padding = bytes(range(1, (-len(payload) - 2) % 4 + 1))
    covered = struct.pack(">II", SPI, number) + payload + padding + bytes([len(padding), 4])
    return covered + hmac.new(KEY, covered, hashlib.sha256).digest()[:16]


def judged(receiver: Inbound, packet: bytes) -> str:
    try:
        opened = receiver.open(packet)
    except Refusal as refusal:
        return str(refusal)
    return f"number {opened.number}, next header {opened.next_header}, payload {opened.payload!r}"


def main() -> None:
    receiver = Inbound(SPI, KEY, blocks=2)
    good = foreign_packet(1, b"a packet")
    damaged = good[:-1] + bytes([good[-1] ^ 1])
    for what, packet in [
        ("damaged", damaged),
        ("as it was sent", good),
        ("again", good),
        ("with wrong padding", foreign_packet(2, b"a packet", b"\x01\x09")),
        ("a number much later", foreign_packet(500, b"")),
        ("one too late", foreign_packet(3, b"")),
        ("cut", good[:-1]),
    ]:
        print(f"{what}: {judged(receiver, packet)}")


if __name__ == "__main__":
    main()
