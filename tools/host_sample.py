#!/usr/bin/env python3
"""The sample that `rt ci` runs `tool_host` on: what it is given, and what it must answer.

The answers are made here from RFC 7296 and from the format on the page of `tool_host`, with no run of the program: the first request by its
payloads (sections 3.3, 3.4 and 3.9), its public value as the power of 2 in the group of RFC 3526 section 3. From anywhere:

    python3 tools/host_sample.py            # ends with status 1 where crates/tool_host has another sample
    python3 tools/host_sample.py --write
"""
import struct
import sys

from two_hosts import (
    BY_UDP, CLEAR, DISCARDED, DONE, DROPPED, ESP, INWARD, MALFORMED, OUTWARD, READY, REFUSED, REQUEST, ROOT, SECRET, START, TICK, TICKED,
    Answer, configuration, end, entry, frame, ipv4,
)

PLACE = ROOT / "crates" / "tool_host"

# RFC 3526 section 3: 2^2048 - 2^1984 - 1 + 2^64 * ([2^1918 pi] + 124476).

def pi_times(bits: int) -> int:
    """The whole part of pi times a power of 2, by Machin's formula."""
    guard = 64
    one = 1 << (bits + guard)

    def arctangent_of_one_over(number: int) -> int:
        term = total = one // number
        sign, odd = -1, 3
        while term:
            term //= number * number
            total += sign * (term // odd)
            sign, odd = -sign, odd + 2
        return total

    return (16 * arctangent_of_one_over(5) - 4 * arctangent_of_one_over(239)) >> guard


PRIME = 2**2048 - 2**1984 - 1 + 2**64 * (pi_times(1918) + 124476)


def payload(following: int, body: bytes) -> bytes:
    """A payload with its header (RFC 7296 section 3.2): it names the type of the one that follows."""
    return struct.pack(">BBH", following, 0, 4 + len(body)) + body


def transform(is_last: bool, kind: int, number: int, attributes: bytes = b"") -> bytes:
    return struct.pack(">BBHBBH", 0 if is_last else 3, 0, 8 + len(attributes), kind, 0, number) + attributes


def first_request(spi: int, nonce: bytes, secret: bytes) -> bytes:
    """IKE_SA_INIT: AES-256-CBC, HMAC-SHA-256 as PRF and cut to 128 bits, group 14 (sections 1.2 and 3.3)."""
    transforms = [
        transform(False, 1, 12, struct.pack(">HH", 0x8000 | 14, 256)),
        transform(False, 2, 5),
        transform(False, 3, 12),
        transform(True, 4, 14),
    ]
    body = b"".join(transforms)
    proposal = struct.pack(">BBHBBBB", 0, 0, 8 + len(body), 1, 1, 0, len(transforms)) + body
    public = pow(2, int.from_bytes(secret, "big"), PRIME).to_bytes(256, "big")
    payloads = payload(34, proposal) + payload(40, struct.pack(">HH", 14, 0) + public) + payload(0, nonce)
    return struct.pack(">QQBBBBII", spi, 0, 33, 0x20, 34, 0x08, 0, 28 + len(payloads)) + payloads


SPI, NONCE, AGREED, SEAL = 0x1122334455667788, bytes(range(32)), bytes(range(32, 64)), bytes(16)
FRESH = struct.pack(">Q", SPI) + NONCE + AGREED + SEAL
REQUEST_OCTETS = first_request(SPI, NONCE, AGREED)


def moment(number: int) -> bytes:
    return struct.pack(">Q", number)


def tried() -> list:
    """Each frame that is given, and the one that answers it."""
    settings = configuration(
        end("left.example", "192.0.2.1", b"ours"),
        end("right.example", "192.0.2.2", b"theirs"),
        [entry(2, "10.1.0.0/16", "10.2.0.0/16"), entry(1, "10.1.0.0/16", "10.3.0.0/16")],
        bytes(32),
    )
    protected = ipv4("10.1.0.1", "10.2.0.1")
    clear = ipv4("10.1.0.1", "10.3.0.1")
    back = ipv4("10.3.0.1", "10.1.0.1")
    due = [(BY_UDP, REQUEST_OCTETS)]
    return [
        (settings, frame(READY)),
        (frame(TICK, moment(0)), Answer(TICKED).octets()),
        (frame(OUTWARD, protected), Answer(DROPPED, code=28).octets()),
        (frame(OUTWARD, clear), Answer(CLEAR, packet=clear).octets()),
        (frame(OUTWARD, ipv4("10.1.0.1", "10.4.0.1")), Answer(DISCARDED).octets()),
        (frame(OUTWARD, b"\x45\0\0"), Answer(DROPPED, code=21).octets()),
        (frame(INWARD, back), Answer(CLEAR, packet=back).octets()),
        (frame(ESP, bytes(32)), Answer(DROPPED, code=28).octets()),
        (frame(ESP, bytes(3)), Answer(DROPPED, code=14).octets()),
        (frame(11), frame(MALFORMED, b"an unknown kind")),
        (frame(TICK, bytes(7)), frame(MALFORMED, b"too few octets")),
        (frame(TICK, bytes(9)), frame(MALFORMED, b"octets left over")),
        (frame(SECRET, bytes(32)), Answer(DONE).octets()),
        # Entry 1 protects nothing.
        (frame(START, struct.pack(">II", 0, 1) + FRESH), Answer(REFUSED, code=23).octets()),
        (frame(START, struct.pack(">II", 0, 0) + FRESH), Answer(REQUEST, ike=1, next=1000, datagrams=due).octets()),
        (frame(TICK, moment(999)), Answer(TICKED, next=1000).octets()),
        # It goes out again after a second, and then after two more.
        (frame(TICK, moment(1000)), Answer(TICKED, next=3000, datagrams=due).octets()),
        (frame(TICK, moment(2999)), Answer(TICKED, next=3000).octets()),
    ]


def main() -> int:
    given, wanted = (b"".join(part) for part in zip(*tried()))
    differ = []
    for name, octets in (("stdin", given), ("stdout", wanted)):
        file = PLACE / name
        if not file.exists() or file.read_bytes() != octets:
            differ.append(name)
            if "--write" in sys.argv:
                file.write_bytes(octets)
    for name in differ:
        print(f"crates/tool_host/{name} is another sample")
    if not differ:
        print("the sample of tool_host is as it is made here")
    return 1 if differ else 0


if __name__ == "__main__":
    sys.exit(main())
