"""Two gateways, brought up against each other in memory."""

import itertools
import unittest
from ipaddress import IPv4Address
from typing import Iterator, Optional, Tuple

from sukperin import (Action, CallFault, Clear, Counted, Discarded, Done, Dropped, Entry, Fresh, Gateway, Phase, Refusal, Repeat,
                      Reply, Request, Role, Sealed, Ticked, Up)

OWN, PEER = "10.0.0.0/24", "10.1.0.0/24"


def gateway(own: str, peer: str, local: str, remote: str, **terms) -> Gateway:  # type: ignore[no-untyped-def]
    policy = [Entry(local, remote), Entry(local, "10.9.0.0-10.9.0.255", action=Action.BYPASS)]
    return Gateway(own=own, peer=peer, psk=b"secret", policy=policy, **terms)


def two() -> Tuple[Gateway, Gateway]:
    return gateway("a.example", "b.example", OWN, PEER), gateway("b.example", "a.example", PEER, OWN)


def carried(request, to: Gateway, back: Gateway):  # type: ignore[no-untyped-def]
    """Carries a request and what follows on, until an answer is counted."""
    output = request
    while isinstance(output, Request):
        output = back.ike(to.ike(output.message).message)
    return output


def drawn() -> Iterator[Fresh]:
    """The same octets for each two gateways, so that they are twins: never do this outside a test."""
    for count in itertools.count(1):
        yield Fresh(spi=count, nonce=bytes([count]) * 32, secret=bytes([count + 100]) * 32, seal=bytes([count + 200]) * 16)


def up(octets: Optional[Iterator[Fresh]] = None) -> Tuple[Gateway, Gateway]:
    a, b = two()
    octets = octets or iter(Fresh, None)
    output = a.start(fresh=next(octets))
    while isinstance(output, Request):
        reply = b.ike(output.message, fresh=next(octets))
        output = a.ike(reply.message, fresh=next(octets))
    assert output == Counted(1, 1, None)
    return a, b


def packet(source: str, target: str, payload: bytes = b"") -> bytes:
    head = bytes([0x45, 0, 0, 20 + len(payload), 0, 0, 0, 0, 64, 1, 0, 0])
    return head + IPv4Address(source).packed + IPv4Address(target).packed + payload


def readable(outputs):  # type: ignore[no-untyped-def]
    """Outputs that can be compared: of a refusal its class and its number."""
    return [(type(each), each.number) if isinstance(each, Refusal) else each for each in outputs]


def single(call, octets: bytes):  # type: ignore[no-untyped-def]
    try:
        return call(octets)
    except Refusal as refusal:
        return type(refusal), refusal.number


class Gateways(unittest.TestCase):
    def refuses(self, number, call, *words, **named):  # type: ignore[no-untyped-def]
        with self.assertRaises(Refusal) as caught:
            call(*words, **named)
        self.assertEqual(caught.exception.number, number)

    def faults(self, code, **changed):  # type: ignore[no-untyped-def]
        with self.assertRaises(CallFault) as caught:
            gateway("a.example", "b.example", OWN, PEER, **changed)
        self.assertEqual(caught.exception.code, code)

    def test_a_packet_goes_through_once(self) -> None:
        a, b = up()
        inner = packet("10.0.0.1", "10.1.0.1")
        sealed = a.outward(inner)
        self.assertIsInstance(sealed, Sealed)
        self.assertEqual((sealed.child, sealed.number, len(sealed.packet)), (1, 1, 48))
        self.refuses(18, b.esp, sealed.packet[:-1] + bytes([sealed.packet[-1] ^ 1]))
        self.assertEqual(b.esp(sealed.packet), Up(1, 1, inner))
        self.refuses(16, b.esp, sealed.packet)
        self.refuses(28, b.esp, b"\xff" + sealed.packet[1:])
        self.assertEqual([(child.sent, child.taken) for child in a.children() + b.children()], [(1, 0), (0, 1)])

    def test_octets_of_any_kind(self) -> None:
        a, b = two()
        answer = b.ike(bytearray(a.start().message))
        carried(a.ike(memoryview(answer.message)), b, a)
        inner = packet("10.0.0.1", "10.1.0.1")
        sealed = a.outward(memoryview(inner))
        up = b.esp(bytearray(sealed.packet))
        self.assertEqual(up, Up(1, 1, inner))
        self.assertIsInstance(up.packet, bytes)
        listed = a.outward_all([bytearray(inner), memoryview(inner)])
        self.assertEqual(b.esp_all([memoryview(it.packet) for it in listed]), [Up(1, 2, inner), Up(1, 3, inner)])
        with self.assertRaises(TypeError):
            b.esp("text")  # type: ignore[arg-type]
        with self.assertRaises(TypeError):
            b.esp(40)  # type: ignore[arg-type]

    def test_lengths_are_told(self) -> None:
        a, _ = two()
        for given, said in (
            (lambda: a.start(fresh=Fresh(nonce=b"short")), "a nonce has 32 octets, and not 5"),
            (lambda: a.secret(bytes(31)), "a secret of cookies has 32 octets, and not 31"),
            (lambda: gateway("a.example", "b.example", OWN, PEER, cookie_secret=b""), "a secret of cookies has 32 octets, and not 0"),
        ):
            with self.assertRaises(ValueError) as caught:
                given()
            self.assertEqual(str(caught.exception), said)

    def test_policy(self) -> None:
        a, _ = up()
        passing = packet("10.0.0.1", "10.9.0.1")
        self.assertEqual(a.outward(passing), Clear(passing))
        self.assertEqual(a.outward(packet("10.0.0.1", "10.8.0.1")), Discarded())
        self.assertEqual(a.inward(packet("10.1.0.1", "10.0.0.1")), Discarded())
        self.refuses(21, a.inward, passing[:19])
        self.refuses(22, a.inward, passing[:6] + b"\x20" + passing[7:])
        self.refuses(39, a.inward, bytes([0x60, 0, 0, 0, 0, 8, 0, 64]) + bytes(40))

    def test_a_request_again_and_damaged(self) -> None:
        a, b = up()
        request = a.probe(1)
        damaged = bytearray(request.message)
        damaged[-1] ^= 1
        self.refuses(29, b.ike, bytes(damaged))
        self.refuses(2, b.ike, request.message[:-1])
        self.refuses(1, b.ike, b"")
        reply = b.ike(request.message)
        self.assertIsInstance(reply, Reply)
        self.assertEqual(b.ike(request.message), Repeat(reply.message))
        self.assertIsInstance(a.ike(reply.message), Counted)
        self.refuses(31, a.ike, reply.message)
        self.refuses(33, a.ike, request.message)

    def test_lists_are_as_single_calls(self) -> None:
        (a, b), (twin_a, twin_b) = up(drawn()), up(drawn())
        out = []
        for place in range(150):
            target = {3: "10.9.0.1", 4: "10.8.0.1"}.get(place % 6, "10.1.0.1")
            whole = packet("10.0.0.1", target, bytes(range(place % 50)))
            out.append(whole[:-1] if place % 6 == 5 else whole)
        told = a.outward_all(out)
        self.assertEqual(readable(told), [single(twin_a.outward, each) for each in out])
        self.assertEqual({type(each) for each in told}, {Sealed, Clear, Discarded, Dropped})

        packets = []
        for place, each in enumerate(each for each in told if isinstance(each, Sealed)):
            octets = each.packet
            packets.append(octets[:-1] if place % 9 == 3 else octets[:-1] + bytes([octets[-1] ^ 1]) if place % 9 == 4 else octets)
            if place % 9 == 5:
                packets.append(octets)
            if place % 9 == 6:
                packets += [b"", b"\xff" + octets[1:]]
        came = b.esp_all(packets)
        self.assertEqual(readable(came), [single(twin_b.esp, each) for each in packets])
        self.assertEqual({each.number for each in came if isinstance(each, Refusal)}, {14, 16, 18, 28})
        self.assertEqual(b.children(), twin_b.children())
        self.assertEqual((a.outward_all([]), b.esp_all([])), ([], []))
        a.close()
        with self.assertRaises(CallFault) as caught:
            a.outward_all(out)
        self.assertEqual(caught.exception.code, 101)

    def test_tables(self) -> None:
        a, b = up()
        (child,) = a.children()
        self.assertEqual((child.serial, child.ike, child.spi_in, child.live, child.extended), (1, 1, 4096, True, True))
        self.assertEqual((child.remotes[0].start, child.remotes[0].end), (IPv4Address("10.1.0.0"), IPv4Address("10.1.0.255")))
        self.assertEqual(child.locals[0].ports, (0, 65535))
        self.assertEqual([(held.role, held.phase) for held in a.associations()], [(Role.INITIATOR, Phase.ESTABLISHED)])
        self.assertEqual([(held.role, held.phase) for held in b.associations()], [(Role.RESPONDER, Phase.ESTABLISHED)])

    def test_orders(self) -> None:
        a, b = up()
        self.assertEqual(carried(a.start(ike=1), b, a).child, 2)
        order = a.delete_child(1)
        self.assertFalse(a.children()[0].live)
        carried(order, b, a)
        self.assertEqual([child.serial for child in b.children()], [2])
        self.assertEqual(carried(a.delete_ike(1), b, a).closed, 1)
        self.assertEqual(a.children(), [])
        self.refuses(32, a.probe, 1)
        self.refuses(28, a.probe, 5)
        self.refuses(23, a.start, 1)
        self.refuses(37, a.start, fresh=Fresh(spi=0))
        self.assertEqual(a.secret(bytes(32)), Done())

    def test_time(self) -> None:
        a, _ = two()
        self.assertIsNone(a.next_moment())
        request = a.start()
        moments, messages, closed = [], [], ()
        while not closed:
            moments.append(a.next_moment())
            output = a.tick(moments[-1])
            self.assertIsInstance(output, Ticked)
            messages += [resent.message for resent in output.requests]
            closed = output.closed
        self.assertEqual(moments, [1000, 3000, 7000, 15000, 31000, 47000])
        self.assertEqual(messages, [request.message] * 5)
        self.assertEqual(closed, (1,))

    def test_what_cannot_be_used(self) -> None:
        self.faults(104, window=0)
        self.faults(104, blocks=5)
        self.faults(107, first_spi=255)
        with self.assertRaises(ValueError):
            gateway("a.example", "b.example", OWN, PEER, first_spi=2**32 + 4096)
        for entry in (Entry("10.0.0.9-10.0.0.1", PEER), Entry(OWN, "2001:db8::/32")):
            with self.assertRaises(CallFault) as caught:
                Gateway(own="a", peer="b", psk=b"", policy=[entry])
            self.assertEqual(caught.exception.code, 106)

    def test_another_secret_gives_no_child(self) -> None:
        a, _ = two()
        b = Gateway(own="b.example", peer="a.example", psk=b"another", policy=[Entry(PEER, OWN)])
        self.assertEqual(carried(a.start(), b, a), Counted(1, None, 1))

    def test_ipv6(self) -> None:
        own, peer = "2001:db8:1::/64", "2001:db8:2::/64"
        a = Gateway(own="a@example", peer="b@example", psk=b"s", policy=[Entry(own, peer)], extended=False)
        b = Gateway(own="b@example", peer="a@example", psk=b"s", policy=[Entry(peer, own)])
        self.assertEqual(carried(a.start(), b, a).child, 1)
        self.assertEqual(str(b.children()[0].locals[0].start), "2001:db8:2::")
        self.assertFalse(b.children()[0].extended)

    def test_a_closed_gateway_does_nothing(self) -> None:
        a, _ = two()
        a.close()
        with self.assertRaises(CallFault) as caught:
            a.tick(0)
        self.assertEqual(caught.exception.code, 101)


if __name__ == "__main__":
    unittest.main()
