"""A game: an attacker without keys who sees every datagram, and repeats, reflects, changes, cuts and makes up datagrams of every kind, against two
gateways with a pre-shared secret. After each event a plain program checks what is proved of them: only those whose peer proved itself carry, and what
passes no check changes nothing.

SEEDS and EVENTS say how many games there are and how long each is."""

import os
import random
import unittest
from dataclasses import dataclass, field
from typing import Dict, List, Optional, Set, Tuple

from sukperin import Counted, Entry, Fresh, Gateway, Keys, Phase, Refusal, Repeat, Reply, Request, Role, Sealed, Ticked, Up

from .test_gateway import packet

SEEDS = int(os.environ.get("SEEDS", "20"))
EVENTS = int(os.environ.get("EVENTS", "400"))

ADDRESSES = ("192.0.2.1", "192.0.2.2")
NAMES = ("a.example", "b.example")
NETWORKS = (("10.0.0.0/24", "10.1.0.0/24"), ("10.0.1.0/24", "10.1.1.0/24"))
HEADER, SPIS = 28, 16
INITIAL, RESPONSE = 34, 0x20
KEYED = (Phase.PROVING, Phase.HALF_OPEN, Phase.ESTABLISHED)


@dataclass
class End:
    """One end, and what the game knows of it."""

    gateway: Gateway
    # the keys that each of its IKE SAs came to, with its role
    keys: Dict[int, Tuple[Role, Keys]] = field(default_factory=dict)
    # the IKE SAs that were established
    established: Set[int] = field(default_factory=set)
    # what it sealed, by the octets inside, and what went up at it
    sealed: List[bytes] = field(default_factory=list)
    delivered: Set[bytes] = field(default_factory=set)


@dataclass(frozen=True)
class Seen:
    """A datagram on the wire: who sent it, and whether it is ESP."""

    sender: int
    esp: bool
    octets: bytes


class Game:
    def __init__(self, test: unittest.TestCase, seed: int) -> None:
        self.test, self.random, self.moment, self.count = test, random.Random(seed), 0, 0
        self.ends = [self.end(place) for place in (0, 1)]
        self.seen: List[Seen] = []
        self.due: List[Seen] = []

    def end(self, place: int) -> End:
        policy = [Entry(pair[place], pair[1 - place]) for pair in NETWORKS]
        return End(Gateway(own=NAMES[place], peer=NAMES[1 - place], psk=b"secret", policy=policy, own_address=ADDRESSES[place],
                           peer_address=ADDRESSES[1 - place], first_spi=4096 + 65536 * place, tells_keys=True))

    def fresh(self) -> Fresh:
        draw = self.random.randbytes
        return Fresh(spi=self.random.getrandbits(64) | 1, nonce=draw(32), secret=draw(32), seal=draw(16))

    # ---- events

    def play(self) -> None:
        for _ in range(EVENTS):
            event = self.random.choices((self.command, self.send, self.deliver, self.attack, self.wait), (2, 6, 14, 10, 1))[0]
            event()
            for place in (0, 1):
                self.check(place)

    def command(self) -> None:
        place = self.random.randrange(2)
        end = self.ends[place].gateway
        standing = [each for each in end.associations() if each.phase is Phase.ESTABLISHED]
        children = end.children()
        entry, fresh = self.random.randrange(len(NETWORKS)), self.fresh()
        choices = [lambda: end.start(entry, fresh=fresh)] * (4 if not standing else 1)
        if standing:
            ike = self.random.choice(standing).serial
            choices += [lambda: end.start(entry, ike=ike, fresh=fresh), lambda: end.probe(ike, fresh=fresh)] * 3
            choices += [lambda: end.delete_ike(ike, fresh=fresh)] * (len(standing) > 1)
        if len(children) > 1:
            child = self.random.choice(children).serial
            choices += [lambda: end.delete_child(child, fresh=fresh)]
        self.take(place, self.random.choice(choices))

    def send(self) -> None:
        place, pair = self.random.randrange(2), self.random.randrange(len(NETWORKS))
        self.count += 1
        source, target = f"10.{place}.{pair}.1", f"10.{1 - place}.{pair}.1"
        inner = packet(source, target, self.count.to_bytes(4, "big"))
        self.take(place, lambda: self.ends[place].gateway.outward(inner), inner)

    def deliver(self) -> None:
        """What was sent comes, mostly in order and once, to whom it is for."""
        if self.due:
            datagram = self.due.pop(0 if self.random.random() < 0.8 else self.random.randrange(len(self.due)))
            if self.random.random() < 0.9:
                self.give(1 - datagram.sender, datagram.esp, datagram.octets)

    def wait(self) -> None:
        self.moment += self.random.choice((1, 1000, 8000))
        for place in (0, 1):
            self.take(place, lambda end=self.ends[place].gateway: end.tick(self.moment))

    def attack(self) -> None:
        place = self.random.randrange(2)
        if not self.seen or self.random.random() < 0.1:
            self.strange(place, self.random.random() < 0.5, self.random.randbytes(self.random.randrange(120)))
            return
        datagram = self.random.choice(self.seen[-60:])
        if self.random.random() < 0.3:
            # As it was, to either end: a repeat, or a reflection.
            self.give(place, datagram.esp, datagram.octets)
            return
        octets = bytearray(datagram.octets)
        kind = self.random.randrange(6)
        if kind < 3 or len(octets) <= HEADER:
            at = self.random.randrange(len(octets))
            octets[at] ^= 1 << self.random.randrange(8)
        elif kind == 3:
            del octets[self.random.randrange(1, len(octets)):]
            self.mend(datagram, octets)
        elif kind == 4:
            # Another's header before it, or other SPIs.
            octets[:SPIS] = self.random.choice(self.seen).octets[:SPIS].ljust(SPIS, b"\0")
        else:
            # The body is made up.
            octets[HEADER:] = self.random.randbytes(len(octets) - HEADER)
        if bytes(octets) != datagram.octets and not any(bytes(octets) == each.octets for each in self.seen):
            self.strange(place, datagram.esp, bytes(octets))

    @staticmethod
    def mend(datagram: Seen, octets: bytearray) -> None:
        """A cut message of IKE has its new length."""
        if not datagram.esp and len(octets) >= HEADER:
            octets[24:28] = len(octets).to_bytes(4, "big")

    # ---- inputs

    def give(self, place: int, esp: bool, octets: bytes) -> None:
        end, fresh = self.ends[place].gateway, self.fresh()
        self.take(place, (lambda: end.esp(octets)) if esp else (lambda: end.ike(octets, fresh=fresh)))

    def take(self, place: int, call, inner: Optional[bytes] = None) -> None:  # type: ignore[no-untyped-def]
        end = self.ends[place]
        try:
            output = call()
        except Refusal:
            return
        if isinstance(output, (Reply, Repeat, Request)):
            self.put(Seen(place, False, output.message))
        elif isinstance(output, Ticked):
            for request in output.requests:
                self.put(Seen(place, False, request.message))
        elif isinstance(output, Sealed):
            assert inner is not None
            end.sealed.append(inner)
            self.put(Seen(place, True, output.packet))
        elif isinstance(output, Up):
            # What goes up the other end sealed, and each packet went up once.
            self.test.assertIn(output.packet, self.ends[1 - place].sealed)
            self.test.assertNotIn(output.packet, end.delivered)
            end.delivered.add(output.packet)

    def put(self, datagram: Seen) -> None:
        self.seen.append(datagram)
        self.due.append(datagram)

    def strange(self, place: int, esp: bool, octets: bytes) -> None:
        """What nobody with keys made changes nothing but IKE SAs that are just beginning."""
        end = self.ends[place].gateway
        before, children = {each.serial: each for each in end.associations()}, end.children()
        self.give(place, esp, octets)
        after = {each.serial: each for each in end.associations()}
        self.test.assertEqual(end.children(), children)
        first = not esp and len(octets) >= HEADER and octets[18] == INITIAL
        for serial in before.keys() | after.keys():
            was, now = before.get(serial), after.get(serial)
            if was == now:
                continue
            self.test.assertTrue(first, f"changed by octets that nobody made: {was} {now}")
            if was is None:
                # A first request made one that is half open, the next.
                self.test.assertIs(now and now.phase, Phase.HALF_OPEN)
                self.test.assertEqual(serial, max(before, default=0) + 1 if before else serial)
            else:
                # One that waited for the response to its first request took another's.
                self.test.assertIs(was.phase, Phase.ASKED)
        self.test.assertLessEqual(len(after.keys() - before.keys()), 1)

    # ---- what is checked after each event

    def check(self, place: int) -> None:
        end, other = self.ends[place], self.ends[1 - place]
        held = {each.serial: each for each in end.gateway.associations()}
        for association in held.values():
            if association.phase in KEYED:
                keys = (association.role, end.gateway.keys(association.serial))
                # Keys stay as long as the IKE SA is held.
                self.test.assertEqual(end.keys.setdefault(association.serial, keys), keys)
            if association.phase is Phase.ESTABLISHED:
                end.established.add(association.serial)
        for child in end.gateway.children():
            # A Child SA is of an IKE SA that is held and established, and lies inside the policy.
            self.test.assertIn(child.ike, held)
            self.test.assertIs(held[child.ike].phase, Phase.ESTABLISHED)
            self.test.assertTrue(any(self.inside(child, place, pair) for pair in NETWORKS))
        for serial in end.established:
            # Whose peer proved itself has one partner, in the other role, with the same keys.
            role, keys = end.keys[serial]
            partners = [each for each in other.keys.values() if each[1] == keys]
            self.test.assertEqual([each[0] for each in partners], [Role.RESPONDER if role is Role.INITIATOR else Role.INITIATOR])

    @staticmethod
    def inside(child, place: int, pair: Tuple[str, str]) -> bool:  # type: ignore[no-untyped-def]
        return all(
            str(each.start).rsplit(".", 1)[0] == network.rsplit(".", 1)[0] == str(each.end).rsplit(".", 1)[0]
            for selectors, network in ((child.locals, pair[place]), (child.remotes, pair[1 - place])) for each in selectors)


class Games(unittest.TestCase):
    def test_an_attacker_without_keys_gets_nowhere(self) -> None:
        carried = established = 0
        for seed in range(SEEDS):
            with self.subTest(seed=seed):
                game = Game(self, seed)
                game.play()
                carried += sum(len(end.delivered) for end in game.ends)
                established += sum(len(end.established) for end in game.ends)
                for end in game.ends:
                    end.gateway.close()
        # The games are no empty ones.
        self.assertGreater(carried, SEEDS)
        self.assertGreater(established, SEEDS)


if __name__ == "__main__":
    unittest.main()
