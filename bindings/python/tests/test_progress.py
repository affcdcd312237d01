"""Conditional progress: where the network delivers, a tunnel comes up and carries. Two gateways are played against each other over
configurations that are drawn. What has to come out is worked out here from those configurations, by ranges of numbers, and never taken
from what a gateway tells.

SEEDS says how many configurations there are."""

import os
import random
import string
import unittest
from dataclasses import dataclass, replace
from ipaddress import IPv4Address, IPv6Address
from typing import Dict, List, Optional, Sequence, Tuple, Union

from sukperin import (Action, Association, Counted, Dropped, Entry, Fresh, Gateway, Output, Phase, Refusal, Repeat, Reply, Request, Resent,
                      Role, Sealed, Selector, Ticked, Up)

SEEDS = int(os.environ.get("SEEDS", "20"))

ADDRESSES = ("192.0.2.1", "192.0.2.2")

# Only TCP and UDP have ports.
PORTED = (6, 17)
PROTOCOLS = PORTED + (1, 47, 58, 132)
ANY_PROTOCOL, ALL_PORTS = (0, 255), (0, 65535)
LONGEST_PACKET = 16384

# In a message of IKE: the responder's SPI, and which octet tells the exchange.
RESPONDER_SPI, EXCHANGE = slice(8, 16), 18
IKE_SA_INIT, IKE_AUTH = 34, 35

# When a request goes out, and when it is given up, in milliseconds after it first went out.
SENDINGS = (0, 1000, 3000, 7000, 15000, 31000)
GIVEN_UP = 47000
# How long a half-open association is held, from how many on a cookie is asked for, and how many there may be.
HALF_OPEN_TIME = 30000
COOKIE_THRESHOLD = 8
HALF_OPEN_LIMIT = 32

# What a gateway asks its peer. All but the first two come under an established association.
FIRST, PROOF, PROBE, CHILD, DELETE_CHILD, DELETE = KINDS = ("first request", "proof", "probe", "child", "delete child", "delete")

# The first number and the last one.
Interval = Tuple[int, int]


def overlap(one: Interval, other: Interval) -> Interval:
    return max(one[0], other[0]), min(one[1], other[1])


# ---- policies


@dataclass(frozen=True)
class Box:
    """One side of an entry as a set of points, each with a protocol, an address and a port of these intervals."""

    version: int
    protocols: Interval
    addresses: Interval
    ports: Interval

    def common(self, other: "Box") -> Optional["Box"]:
        """The points that lie in both, where there are any."""
        part = Box(self.version, overlap(self.protocols, other.protocols), overlap(self.addresses, other.addresses),
                   overlap(self.ports, other.ports))
        return part if self.version == other.version and part.has_points() else None

    def has_points(self) -> bool:
        if any(first > last for first, last in (self.protocols, self.addresses, self.ports)):
            return False
        # Where a protocol has no ports, only all of them are meant.
        return self.ports == ALL_PORTS or any(self.protocols[0] <= protocol <= self.protocols[1] for protocol in PORTED)

    def protocol(self) -> int:
        return 0 if self.protocols == ANY_PROTOCOL else self.protocols[0]

    def ends(self) -> Union[Tuple[IPv4Address, IPv4Address], Tuple[IPv6Address, IPv6Address]]:
        first, last = self.addresses
        return (IPv4Address(first), IPv4Address(last)) if self.version == 4 else (IPv6Address(first), IPv6Address(last))

    def selector(self) -> Selector:
        start, end = self.ends()
        return Selector(self.protocol(), start, end, self.ports)

    def text(self) -> str:
        """The addresses as a prefix, where they are one, or as a range."""
        start, end = self.ends()
        first, last = self.addresses
        count = last - first + 1
        if count & (count - 1) == 0 and first % count == 0:
            return f"{start}/{start.max_prefixlen - count.bit_length() + 1}"
        return f"{start}-{end}"


@dataclass(frozen=True)
class Rule:
    """An entry of a policy. Both sides have the same protocol."""

    local: Box
    remote: Box
    action: Action = Action.PROTECT

    def entry(self) -> Entry:
        return Entry(self.local.text(), self.remote.text(), self.local.protocol(), self.local.ports, self.remote.ports, self.action)


def narrowed(asking: Rule, policy: Sequence[Rule]) -> Optional[Tuple[Box, Box]]:
    """What the other gateway's policy leaves of both sides of the rule that is asked by, the asking gateway's side first."""
    parts = [(asking.local.common(rule.remote), asking.remote.common(rule.local)) for rule in policy if rule.action is Action.PROTECT]
    left = [(here, there) for here, there in parts if here is not None and there is not None]
    # Rules of one policy have no point in common, so that it is certain which one answers.
    assert len(left) < 2
    return left[0] if left else None


def block(version: int, side: int, place: int) -> Interval:
    """The addresses for the rules of one place in the network of one gateway. Two of these have none in common."""
    if version == 4:
        first = 10 << 24 | side << 23 | place << 16
        return first, first + 2**16 - 1
    first = 0x20010DB8 << 96 | side << 95 | place << 80
    return first, first + 2**80 - 1


def around(draw: random.Random, number: int, whole: Interval) -> Interval:
    """An interval that holds the number, as a prefix has it or any other, inside a whole one that is a prefix."""
    if draw.random() < 0.5:
        bits = draw.randint(0, (whole[1] - whole[0]).bit_length())
        first = number >> bits << bits
        return first, first + 2**bits - 1
    return draw.randint(whole[0], number), draw.randint(number, whole[1])


def meeting(draw: random.Random, place: int) -> Tuple[Rule, Rule]:
    """A rule of each gateway that protects. One point of each side is drawn first, and both rules hold both."""
    version, protocol = draw.choice((4, 6)), draw.choice(PROTOCOLS)
    points = [(draw.randint(*block(version, side, place)), draw.randrange(65536)) for side in (0, 1)]
    rules = []
    for end in (0, 1):
        protocols = draw.choice((ANY_PROTOCOL, (protocol, protocol)))
        sides = []
        for side, (address, port) in enumerate(points):
            ports = around(draw, port, ALL_PORTS) if protocol in PORTED and draw.random() < 0.7 else ALL_PORTS
            sides.append(Box(version, protocols, around(draw, address, block(version, side, place)), ports))
        rules.append(Rule(sides[end], sides[1 - end]))
    return rules[0], rules[1]


def for_protocol(rule: Rule, protocol: int) -> Rule:
    only = (protocol, protocol)
    return replace(rule, local=replace(rule.local, protocols=only), remote=replace(rule.remote, protocols=only))


def apart(draw: random.Random, place: int) -> Tuple[Rule, List[Rule]]:
    """A rule of the first gateway that protects, and what the second one has for it, of which nothing is left."""
    one, other = meeting(draw, place)
    kind = draw.randrange(5)
    if kind == 0:
        return one, []
    if kind == 1:
        return one, [replace(other, action=draw.choice((Action.BYPASS, Action.DISCARD)))]
    if kind == 2:
        # The addresses of one side lie apart.
        if draw.random() < 0.5:
            return one, [replace(other, local=replace(other.local, addresses=block(other.local.version, 1, place + 64)))]
        return one, [replace(other, remote=replace(other.remote, addresses=block(other.remote.version, 0, place + 64)))]
    if kind == 3:
        return for_protocol(one, 6), [for_protocol(other, 17)]
    one, other = for_protocol(one, 6), for_protocol(other, 6)
    return replace(one, local=replace(one.local, ports=(0, 999))), [replace(other, remote=replace(other.remote, ports=(1000, 65535)))]


# ---- packets


def ipv4(draw: random.Random, protocol: int, ends: Sequence[int], content: bytes) -> bytes:
    """A packet of IPv4 that is no fragment, with any options."""
    words = draw.randint(5, 15)
    content = content[: LONGEST_PACKET - 4 * words]
    head = bytes([0x40 | words, draw.randrange(256)]) + (4 * words + len(content)).to_bytes(2, "big") + draw.randbytes(2)
    head += draw.choice((b"\0\0", b"\x40\0")) + bytes([draw.randrange(256), protocol]) + draw.randbytes(2)
    return head + b"".join(number.to_bytes(4, "big") for number in ends) + draw.randbytes(4 * words - 20) + content


def ipv6(draw: random.Random, protocol: int, ends: Sequence[int], content: bytes) -> bytes:
    """A packet of IPv6 without extension headers."""
    content = content[: LONGEST_PACKET - 40]
    head = bytes([0x60 | draw.randrange(16)]) + draw.randbytes(3) + len(content).to_bytes(2, "big") + bytes([protocol, draw.randrange(256)])
    return head + b"".join(number.to_bytes(16, "big") for number in ends) + content


# ---- two gateways


@dataclass(frozen=True)
class Settings:
    """What a gateway is made of. The secret is that by which it proves itself."""

    identity: Union[str, IPv4Address]
    secret: bytes
    cookie_secret: bytes
    extended: bool
    window: int
    blocks: int
    first_spi: int
    rules: Sequence[Rule]


def identity(draw: random.Random, name: str) -> Union[str, IPv4Address]:
    """A name, an address of mail, or an address of IPv4."""
    name += "".join(draw.choices(string.ascii_lowercase, k=draw.randrange(60)))
    kinds: Sequence[Union[str, IPv4Address]] = (f"{name}.example", f"{name}@example", IPv4Address(draw.getrandbits(32)))
    return draw.choice(kinds)


def settings(draw: random.Random, name: str, rules: List[Rule]) -> Settings:
    draw.shuffle(rules)
    return Settings(
        identity=identity(draw, name), secret=draw.randbytes(draw.randint(1, 100)), cookie_secret=draw.randbytes(32),
        extended=draw.random() < 0.7, window=draw.randint(1, 16), blocks=2 ** draw.randint(1, 7),
        first_spi=draw.randint(256, 2**32 - 65536), rules=rules)


class Link:
    """Two gateways that name each other, 0 and 1, and the network between them."""

    def __init__(self, test: unittest.TestCase, seed: int, *, has_apart: bool = False) -> None:
        self.test, self.random = test, random.Random(seed)
        # of each gateway the rule that meets one of the other gateway
        self.meeting = meeting(self.random, 0)
        # a rule of gateway 0 that meets none
        self.apart: Optional[Rule] = None
        self.settings = [settings(self.random, name, rules) for name, rules in zip("ab", self.policies(has_apart))]
        left = narrowed(self.meeting[0], self.settings[1].rules)
        assert left is not None
        # what a child of the rules that meet carries, by the gateway on whose side it is
        self.sides = left
        self.gateways = [self.gateway(place) for place in (0, 1)]
        self.moment = self.random.randrange(2**40)
        for gateway in self.gateways:
            gateway.tick(self.moment)
        self.deliveries = 0
        # the greatest number that each gateway sealed
        self.sealed = [0, 0]
        # the answers to requests that took effect, and the moment at which a proof comes too late
        self.answers: Dict[bytes, bytes] = {}
        self.proof_until = 0

    def policies(self, has_apart: bool) -> Tuple[List[Rule], List[Rule]]:
        """Policies of 1 to 4 rules. Those of different places have no point in common."""
        first, second = [self.meeting[0]], [self.meeting[1]]
        if has_apart or self.random.random() < 0.5:
            self.apart, others = apart(self.random, 1)
            first.append(self.apart)
            second += others
        for place in range(2, 2 + self.random.randrange(3)):
            for policy, rule in zip((first, second), meeting(self.random, place)):
                if self.random.random() < 0.7:
                    policy.append(replace(rule, action=self.random.choice(list(Action))))
        return first, second

    def gateway(self, place: int) -> Gateway:
        own, peer = self.settings[place], self.settings[1 - place]
        return Gateway(
            own=own.identity, peer=peer.identity, psk=own.secret, peer_psk=peer.secret, policy=[rule.entry() for rule in own.rules],
            extended=own.extended, window=own.window, blocks=own.blocks, first_spi=own.first_spi, own_address=ADDRESSES[place],
            peer_address=ADDRESSES[1 - place], cookie_secret=own.cookie_secret, tells_keys=True)

    def fresh(self) -> Fresh:
        draw = self.random.randbytes
        return Fresh(spi=self.random.getrandbits(64) | 1, nonce=draw(32), secret=draw(32), seal=draw(16))

    # ---- commands

    def start(self, asking: int, *, rule: Optional[Rule] = None, ike: Optional[int] = None) -> Request:
        """Asks for a child by this rule, or by the one that meets."""
        entry = self.settings[asking].rules.index(self.meeting[asking] if rule is None else rule)
        return self.gateways[asking].start(entry, ike=ike, fresh=self.fresh())

    def probe(self, asking: int, ike: int) -> Request:
        return self.gateways[asking].probe(ike, fresh=self.fresh())

    def ask(self, kind: str, asking: int) -> Request:
        """A request of this kind, once it can be asked."""
        if kind == FIRST:
            return self.start(asking)
        if kind == PROOF:
            proof = self.deliver(asking, self.answer(1 - asking, self.start(asking).message))
            assert isinstance(proof, Request), proof
            return proof
        self.bring_up()
        if kind == PROBE:
            return self.probe(asking, 1)
        if kind == CHILD:
            return self.start(asking, ike=1)
        if kind == DELETE_CHILD:
            return self.gateways[asking].delete_child(1, fresh=self.fresh())
        return self.gateways[asking].delete_ike(1, fresh=self.fresh())

    # ---- a network that delivers

    def deliver(self, place: int, octets: bytes) -> Output:
        self.deliveries += 1
        return self.gateways[place].ike(octets, fresh=self.fresh())

    def reply(self, place: int, octets: bytes) -> Reply:
        output = self.deliver(place, octets)
        assert isinstance(output, Reply), output
        return output

    def carry(self, asking: int, request: Request) -> Tuple[Output, Reply]:
        """Delivers each datagram in its turn. Gives what the last answer leads to, and that answer."""
        output: Output = request
        while isinstance(output, Request):
            answer = self.reply(1 - asking, output.message)
            output = self.deliver(asking, answer.message)
        return output, answer

    def bring_up(self) -> None:
        self.test.assertEqual(self.carry(0, self.start(0))[0], Counted(1, 1))

    def crowd(self, count: int) -> None:
        """First requests that are not continued leave so many half-open associations at gateway 1."""
        stranger = self.gateway(0)
        entry = self.settings[0].rules.index(self.meeting[0])
        for number in range(count):
            answer = self.reply(1, stranger.start(entry, fresh=self.fresh()).message)
            if number >= COOKIE_THRESHOLD:
                again = stranger.ike(answer.message, fresh=self.fresh())
                assert isinstance(again, Request)
                self.reply(1, again.message)
        self.test.assertEqual([each.phase for each in self.gateways[1].associations()], [Phase.HALF_OPEN] * count)
        self.deliveries = 0

    # ---- a network that loses

    def answer(self, place: int, octets: bytes) -> bytes:
        """The answer to a request: the same octets as the first time, if the request took effect and its association is held."""
        output = self.deliver(place, octets)
        known, is_first = self.answers.get(octets), octets[EXCHANGE] == IKE_SA_INIT
        if known is not None and (self.moment < self.proof_until or not is_first):
            self.test.assertEqual(output, Repeat(known))
            return known
        assert isinstance(output, Reply), output
        if is_first and output.message[RESPONDER_SPI] == bytes(8):
            # A cookie is asked for, and nothing is kept of the request.
            return output.message
        self.answers[octets] = output.message
        if is_first:
            self.proof_until = self.moment + HALF_OPEN_TIME
        return output.message

    def wait(self, place: int) -> Ticked:
        """Time passes until something is due at a gateway, and both are told so."""
        moment = self.gateways[place].next_moment()
        assert moment is not None
        self.moment = moment
        self.gateways[1 - place].tick(moment)
        return self.gateways[place].tick(moment)

    def lose_once(self, asking: int, request: Request, chance: float, next_sending: int) -> None:
        """A request arrives by this chance, and its answer is lost; or the request is lost itself."""
        # Where a proof can arrive at all it does so before its half-open association is gone.
        is_new_proof = request.message[EXCHANGE] == IKE_AUTH and request.message not in self.answers
        has_to_arrive = is_new_proof and next_sending >= self.proof_until
        if chance and (has_to_arrive or self.random.random() < chance):
            self.answer(1 - asking, request.message)

    def lose(self, asking: int, request: Request, times: int, chance: float) -> None:
        """So many times no answer comes, and the same octets go out again when they are due."""
        first = self.moment
        for sending in SENDINGS[1 : times + 1]:
            self.lose_once(asking, request, chance, first + sending)
            self.test.assertEqual(self.wait(asking), Ticked((Resent(request.ike, request.message),)))
            self.test.assertEqual(self.moment - first, sending)

    def insist(self, asking: int, request: Request) -> Output:
        """What the answer to a request leads to, after up to five sendings in vain."""
        self.lose(asking, request, self.random.randrange(len(SENDINGS)), 0.5)
        return self.deliver(asking, self.answer(1 - asking, request.message))

    def give_up(self, asking: int, request: Request, chance: float = 0.0) -> None:
        """No answer ever comes, and after all sendings the association is closed."""
        first = self.moment
        self.lose(asking, request, len(SENDINGS) - 1, chance)
        self.lose_once(asking, request, chance, first + GIVEN_UP)
        self.check_closing(asking, request.ike, first + GIVEN_UP)

    # ---- packets

    def packet(self, sender: int) -> bytes:
        """A packet that the child carries, of any length."""
        source, target = self.sides[sender], self.sides[1 - sender]
        protocol = source.protocol()
        if protocol == 0:
            protocol = self.random.choice(PROTOCOLS if source.ports == target.ports == ALL_PORTS else PORTED)
        ports = b"".join(self.random.randint(*side.ports).to_bytes(2, "big") for side in (source, target))
        ends = [self.random.randint(*side.addresses) for side in (source, target)]
        length = self.random.choice((0, self.random.randrange(100), self.random.randrange(1500), LONGEST_PACKET))
        content = (ports if protocol in PORTED else b"") + self.random.randbytes(length)
        return (ipv4 if source.version == 4 else ipv6)(self.random, protocol, ends, content)

    def seal(self, sender: int, packets: Sequence[bytes]) -> List[bytes]:
        """Seals packets, singly or as a list, each under the next number."""
        gateway = self.gateways[sender]
        outputs: Sequence[Union[Output, Refusal]] = (
            gateway.outward_all(packets) if self.random.random() < 0.5 else [gateway.outward(each) for each in packets])
        self.test.assertEqual(len(outputs), len(packets))
        octets = []
        for number, output in enumerate(outputs, self.sealed[sender] + 1):
            assert isinstance(output, Sealed), output
            self.test.assertEqual((output.child, output.number), (1, number))
            octets.append(output.packet)
        self.sealed[sender] += len(packets)
        return octets

    def stream(self, sender: int, loss: float) -> None:
        """Some packets of a stream are lost, and each of the others goes up in its turn, singly or as a list."""
        packets = [self.packet(sender) for _ in range(self.random.randint(1, 100))]
        first = self.sealed[sender] + 1
        sealed = self.seal(sender, packets)
        arriving = [place for place in range(len(packets)) if self.random.random() >= loss]
        gateway = self.gateways[1 - sender]
        outputs: Sequence[Union[Output, Refusal]] = (
            gateway.esp_all([sealed[place] for place in arriving]) if self.random.random() < 0.5
            else [gateway.esp(sealed[place]) for place in arriving])
        self.test.assertEqual(len(outputs), len(arriving))
        for place, output in zip(arriving, outputs):
            self.test.assertEqual(output, Up(1, first + place, packets[place]))

    def lose_a_window(self, sender: int) -> None:
        """More packets are lost in a row than the receiver's window spans."""
        short = min((self.packet(sender) for _ in range(20)), key=len)
        self.seal(sender, [short] * (64 * self.settings[1 - sender].blocks))

    # ---- what is checked

    def established(self, place: int) -> Association:
        """The one established association of a gateway."""
        found = [each for each in self.gateways[place].associations() if each.phase is Phase.ESTABLISHED]
        self.test.assertEqual(len(found), 1)
        return found[0]

    def check_associations(self, initiator: int = 0) -> None:
        """Each gateway holds one established association, with the same SPIs and keys, the peer's window and its own role."""
        held = [self.established(place) for place in (0, 1)]
        self.test.assertEqual((held[initiator].role, held[1 - initiator].role), (Role.INITIATOR, Role.RESPONDER))
        spis = [(each.spi_initiator, each.spi_responder) for each in held]
        self.test.assertEqual(spis[0], spis[1])
        self.test.assertEqual([each.window for each in held], [self.settings[1].window, self.settings[0].window])
        keys = [gateway.keys(each.serial) for gateway, each in zip(self.gateways, held)]
        self.test.assertEqual(keys[0], keys[1])

    def check_children(self, count: int = 1) -> None:
        """Each gateway holds so many children, all of its established association. They mirror each other, and carry what is narrowed."""
        held = [gateway.children() for gateway in self.gateways]
        self.test.assertEqual([len(each) for each in held], [count, count])
        extended = all(each.extended for each in self.settings)
        selectors = [(side.selector(),) for side in self.sides]
        for one, other in zip(*held):
            self.test.assertEqual((one.spi_in, one.spi_out), (other.spi_out, other.spi_in))
            for place, child in enumerate((one, other)):
                self.test.assertEqual((child.ike, child.live, child.extended), (self.established(place).serial, True, extended))
                self.test.assertEqual((child.locals, child.remotes), (selectors[place], selectors[1 - place]))

    def check_closing(self, place: int, ike: int, moment: int) -> None:
        """At this moment, and not before it, an association is closed, and its children are gone."""
        self.test.assertEqual(self.wait(place), Ticked((), (ike,)))
        self.test.assertEqual(self.moment, moment)
        phases = {each.serial: each.phase for each in self.gateways[place].associations()}
        self.test.assertIs(phases[ike], Phase.CLOSED)
        self.test.assertEqual([child for child in self.gateways[place].children() if child.ike == ike], [])


class Progress(unittest.TestCase):
    def test_a_tunnel_comes_up_by_four_deliveries(self) -> None:
        for seed in range(10 * SEEDS):
            with self.subTest(seed=seed):
                link = Link(self, seed)
                output, answer = link.carry(0, link.start(0))
                self.assertEqual(output, Counted(1, 1))
                self.assertEqual((answer.ike, answer.child, answer.closed), (1, 1, None))
                self.assertEqual(link.deliveries, 4)
                self.assertEqual([len(gateway.associations()) for gateway in link.gateways], [1, 1])
                link.check_associations()
                link.check_children()

    def test_under_load_a_cookie_takes_two_deliveries_more(self) -> None:
        counts = (COOKIE_THRESHOLD - 1, COOKIE_THRESHOLD, HALF_OPEN_LIMIT - 1)
        for seed in range(SEEDS):
            with self.subTest(seed=seed):
                link = Link(self, seed)
                count = counts[seed] if seed < len(counts) else link.random.randrange(HALF_OPEN_LIMIT)
                link.crowd(count)
                self.assertEqual(link.carry(0, link.start(0))[0], Counted(1, 1))
                self.assertEqual(link.deliveries, 4 if count < COOKIE_THRESHOLD else 6)
                link.check_associations()
                link.check_children()

    def test_what_is_sealed_and_delivered_goes_up_whole(self) -> None:
        for seed in range(SEEDS):
            with self.subTest(seed=seed):
                link = Link(self, seed)
                link.bring_up()
                for _ in range(12):
                    link.stream(link.random.randrange(2), link.random.choice((0.0, 0.1, 0.5, 0.95)))
                for sender in (0, 1):
                    link.lose_a_window(sender)
                    link.stream(sender, 0.0)
                children = [gateway.children()[0] for gateway in link.gateways]
                self.assertEqual([child.sent for child in children], link.sealed)
                self.assertEqual([child.taken for child in children], link.sealed[::-1])

    def test_a_tunnel_comes_up_though_datagrams_are_lost(self) -> None:
        """Of each exchange, that of the cookie too, up to five datagrams are lost in a row."""
        for seed in range(5 * SEEDS):
            with self.subTest(seed=seed):
                link = Link(self, seed)
                link.crowd(link.random.choice((0, COOKIE_THRESHOLD)))
                output: Output = link.start(0)
                while isinstance(output, Request):
                    output = link.insist(0, output)
                self.assertEqual(output, Counted(1, 1))
                link.check_associations()
                link.check_children()

    def test_probes_and_further_children_come_through_though_datagrams_are_lost(self) -> None:
        for seed in range(2 * SEEDS):
            with self.subTest(seed=seed):
                link = Link(self, seed)
                link.bring_up()
                children = 1
                for _ in range(6):
                    asking = link.random.randrange(2)
                    if link.random.random() < 0.5:
                        self.assertEqual(link.insist(asking, link.probe(asking, 1)), Counted(1))
                    else:
                        children += 1
                        self.assertEqual(link.insist(asking, link.start(asking, ike=1)), Counted(1, children))
                    link.check_associations()
                    link.check_children(children)

    def test_a_proof_that_arrives_at_its_sixth_sending_alone_comes_too_late(self) -> None:
        """The half-open association is held for 30 seconds, and the sixth sending is 31 seconds behind the first."""
        for seed in range(SEEDS):
            with self.subTest(seed=seed):
                link = Link(self, seed)
                first = link.moment
                proof = link.ask(PROOF, 0)
                link.lose(0, proof, 5, 0.0)
                with self.assertRaises(Dropped) as caught:
                    link.deliver(1, proof.message)
                self.assertEqual(caught.exception.number, 28)
                self.assertEqual(link.gateways[1].associations(), [])
                link.check_closing(0, 1, first + GIVEN_UP)
                self.assertEqual(link.carry(0, link.start(0))[0], Counted(2, 1))
                link.check_associations()
                link.check_children()

    def test_what_is_never_answered_goes_out_six_times_and_then_a_start_leads_on(self) -> None:
        for seed in range(len(KINDS) * SEEDS):
            kind = KINDS[seed % len(KINDS)]
            with self.subTest(seed=seed, kind=kind):
                link = Link(self, seed)
                asking = 0 if kind in (FIRST, PROOF) else link.random.randrange(2)
                # Either nothing arrives, or requests do by some chance and answers don't.
                link.give_up(asking, link.ask(kind, asking), link.random.choice((0.0, 0.5, 1.0)))
                for held in link.gateways[1 - asking].associations():
                    if held.phase is Phase.ESTABLISHED:
                        link.give_up(1 - asking, link.probe(1 - asking, held.serial))
                starting = link.random.randrange(2)
                output, _ = link.carry(starting, link.start(starting))
                assert isinstance(output, Counted), output
                self.assertEqual((output.ike, output.closed), (link.established(starting).serial, None))
                link.check_associations(starting)
                link.check_children()

    def test_where_policies_leave_nothing_there_is_no_child_before_another_entry_is_asked_by(self) -> None:
        for seed in range(5 * SEEDS):
            with self.subTest(seed=seed):
                link = Link(self, seed, has_apart=True)
                assert link.apart is not None
                self.assertIsNone(narrowed(link.apart, link.settings[1].rules))
                output, answer = link.carry(0, link.start(0, rule=link.apart))
                self.assertEqual(output, Counted(1))
                self.assertEqual((answer.ike, answer.child, answer.closed), (1, None, None))
                self.assertEqual(link.deliveries, 4)
                link.check_associations()
                link.check_children(0)
                asking = link.random.randrange(2)
                output, answer = link.carry(asking, link.start(asking, ike=1))
                self.assertEqual(output, Counted(1, 1))
                self.assertEqual((answer.ike, answer.child, answer.closed), (1, 1, None))
                self.assertEqual(link.deliveries, 6)
                link.check_associations()
                link.check_children()


if __name__ == "__main__":
    unittest.main()
