#!/usr/bin/env python3
"""Two of the program `tool_host`, and a wire between them that loses each third datagram.

Carries frames between the two until both hold a child, and then packets both ways through the tunnel. No clock is read: where nothing is on
its way, the time jumps to the next moment that one of them told. Ends with status 0 where a packet came up at either end as it was sent.

After (cd crates/tool_host && rt run), from anywhere: python3 tools/two_hosts.py [PROGRAM]
"""
import ipaddress
import pathlib
import secrets
import struct
import subprocess
import sys
from dataclasses import dataclass, field
from typing import List, Optional, Tuple

ROOT = pathlib.Path(__file__).resolve().parent.parent
PROGRAM = ROOT / "crates" / "tool_host" / "out" / "tool_host"

# Kinds of inputs.
IKE, START, PROBE, DELETE_CHILD, DELETE_IKE, SECRET, TICK, ESP, OUTWARD, INWARD = range(1, 11)

# Kinds of answers.
READY = 0
REPLY, REPEAT, REQUEST, COUNTED, TICKED, DONE, UP, DUMMY, SEALED, CLEAR, DISCARDED, DROPPED, REFUSED, MALFORMED = range(1, 15)

NO_MOMENT = 2**64 - 1
BY_UDP, BY_IP = 1, 2

# The most events that the two may take to come to a tunnel.
PATIENCE = 200


def frame(kind: int, body: bytes = b"") -> bytes:
    return struct.pack(">IB", 1 + len(body), kind) + body


def block(octets: bytes) -> bytes:
    return struct.pack(">H", len(octets)) + octets


def fresh() -> bytes:
    """An SPI that isn't zero, a nonce, a secret and what sealing uses."""
    return struct.pack(">Q", 1 + secrets.randbelow(2**64 - 1)) + secrets.token_bytes(80)


def end(name: str, address: str, secret: bytes) -> bytes:
    """An end that goes by a domain name (type 2)."""
    return b"\x02" + ipaddress.IPv4Address(address).packed + block(name.encode()) + block(secret)


def entry(action: int, local: str, remote: str) -> bytes:
    """All protocols and ports between two prefixes of IPv4: 0 discards, 1 lets go in the clear, 2 protects."""
    ends = [ipaddress.IPv4Network(text)[place].packed for text in (local, remote) for place in (0, -1)]
    return struct.pack(">BBBHHHH", action, 4, 0, 0, 65535, 0, 65535) + b"".join(ends)


def configuration(own: bytes, peer: bytes, entries: List[bytes], cookie_secret: bytes) -> bytes:
    """A window of one request, ESN, replay windows of two blocks, inbound SPIs from 4096 on."""
    return frame(0, struct.pack(">BBII", 1, 1, 2, 4096) + cookie_secret + own + peer + b"".join(entries))


@dataclass
class Answer:
    """What came of an input."""

    kind: int
    code: int = 0
    ike: int = 0
    child: int = 0
    number: int = 0
    next: int = NO_MOMENT
    closed: List[int] = field(default_factory=list)
    datagrams: List[Tuple[int, bytes]] = field(default_factory=list)
    packet: bytes = b""

    @staticmethod
    def read(kind: int, body: bytes) -> "Answer":
        code, ike, child, number, moment, closings = struct.unpack_from(">BIIQQI", body)
        place = struct.calcsize(">BIIQQI")
        closed = list(struct.unpack_from(f">{closings}I", body, place))
        place += 4 * closings
        (count,) = struct.unpack_from(">I", body, place)
        place += 4
        datagrams = []
        for _ in range(count):
            way, size = struct.unpack_from(">BI", body, place)
            datagrams.append((way, body[place + 5 : place + 5 + size]))
            place += 5 + size
        return Answer(kind, code, ike, child, number, moment, closed, datagrams, body[place:])

    def octets(self) -> bytes:
        """The frame of this answer."""
        body = struct.pack(">BIIQQI", self.code, self.ike, self.child, self.number, self.next, len(self.closed))
        body += struct.pack(f">{len(self.closed)}I", *self.closed) + struct.pack(">I", len(self.datagrams))
        body += b"".join(struct.pack(">BI", way, len(octets)) + octets for way, octets in self.datagrams)
        return frame(self.kind, body + self.packet)


class Host:
    """One running program: an end with its address, and what it sent that hasn't come yet."""

    def __init__(self, program: str, address: str, settings: bytes):
        self.address = ipaddress.IPv4Address(address).packed
        self.process = subprocess.Popen([program], stdin=subprocess.PIPE, stdout=subprocess.PIPE)
        self.wire: List[Tuple[int, bytes]] = []
        self.child: Optional[int] = None
        self.next = NO_MOMENT
        kind, _ = self.exchange(settings)
        if kind != READY:
            sys.exit(f"the configuration was answered by {kind}")

    def exchange(self, octets: bytes) -> Tuple[int, bytes]:
        self.process.stdin.write(octets)
        self.process.stdin.flush()
        head = self.process.stdout.read(4)
        if len(head) < 4:
            sys.exit(f"the program ended with status {self.process.wait()}")
        body = self.process.stdout.read(int.from_bytes(head, "big"))
        return body[0], body[1:]

    def give(self, kind: int, body: bytes) -> Answer:
        """One input, and what comes of it."""
        found, octets = self.exchange(frame(kind, body))
        if found == MALFORMED:
            sys.exit(f"an input was malformed: {octets.decode()}")
        answer = Answer.read(found, octets)
        self.wire += answer.datagrams
        self.next = answer.next
        if found in (REPLY, COUNTED) and answer.child:
            self.child = answer.child
        return answer

    def receive(self, way: int, octets: bytes, sender: bytes) -> Answer:
        if way == BY_UDP:
            return self.give(IKE, sender + fresh() + octets)
        return self.give(ESP, octets)

    def close(self) -> int:
        self.process.stdin.close()
        return self.process.wait()


class Wire:
    """Between two hosts; of all that goes over it, each third datagram is lost."""

    def __init__(self, a: Host, b: Host):
        self.a, self.b = a, b
        self.count = self.lost = 0

    def carry(self) -> List[Answer]:
        """What each sent comes to the other, unless it is lost."""
        answers = []
        for sender, receiver in ((self.a, self.b), (self.b, self.a)):
            sent, sender.wire = sender.wire, []
            for way, octets in sent:
                self.count += 1
                if self.count % 3 == 0:
                    self.lost += 1
                else:
                    answers.append(receiver.receive(way, octets, sender.address))
        return answers

    def is_empty(self) -> bool:
        return not self.a.wire and not self.b.wire


def connect(wire: Wire) -> int:
    """Until both hold a child, the first by its own order; the moment at which they do."""
    hosts = (wire.a, wire.b)
    moment = 0
    for host in hosts:
        host.give(TICK, struct.pack(">Q", moment))
    wire.a.give(START, struct.pack(">II", 0, 0) + fresh())
    for _ in range(PATIENCE):
        wire.carry()
        if all(host.child for host in hosts):
            return moment
        if wire.is_empty():
            moment = min(host.next for host in hosts)
            for host in hosts:
                host.give(TICK, struct.pack(">Q", moment))
    sys.exit("no tunnel came up")


def ipv4(source: str, target: str) -> bytes:
    """A header of IPv4 alone, of protocol 1."""
    head = bytes([0x45, 0, 0, 20, 0, 0, 0, 0, 64, 1, 0, 0])
    return head + ipaddress.IPv4Address(source).packed + ipaddress.IPv4Address(target).packed


def goes_through(wire: Wire, sender: Host, packet: bytes) -> bool:
    """Whether a packet comes up at the other end as it was sent, at the first or at the second try: of two in a row one is lost at most."""
    for _ in range(2):
        if sender.give(OUTWARD, packet).kind != SEALED:
            return False
        if any(answer.kind == UP and answer.packet == packet for answer in wire.carry()):
            return True
    return False


def main() -> int:
    program = sys.argv[1] if len(sys.argv) > 1 else str(PROGRAM)
    ends = [("left.example", "192.0.2.1"), ("right.example", "192.0.2.2")]
    sites = ["10.1.0.0/16", "10.2.0.0/16"]
    secret = secrets.token_bytes(24)
    hosts = []
    for own, peer in ((0, 1), (1, 0)):
        entries = [entry(2, sites[own], sites[peer])]
        settings = configuration(end(*ends[own], secret), end(*ends[peer], secret), entries, secrets.token_bytes(32))
        hosts.append(Host(program, ends[own][1], settings))
    wire = Wire(*hosts)
    moment = connect(wire)
    print(f"a tunnel after {moment} ms, {wire.count} datagrams and {wire.lost} of them lost")
    there = goes_through(wire, wire.a, ipv4("10.1.0.1", "10.2.0.1"))
    back = goes_through(wire, wire.b, ipv4("10.2.0.1", "10.1.0.1"))
    ended = [host.close() for host in hosts]
    print(f"a packet there: {there}, back: {back}; statuses {ended}")
    return 0 if there and back and ended == [0, 0] else 1


if __name__ == "__main__":
    sys.exit(main())
