"""The keys of an IKE SA and its first Child SA, beside what Python derives of the secrets that both ends drew."""

import hashlib
import hmac
import unittest
from typing import List

from sukperin import CallFault, Entry, Fresh, Gateway, Inbound, Keys, Phase, Reply, Request, Sealed

from .test_gateway import OWN, PEER, packet

# The 2048-bit MODP group, whose generator is 2 (RFC 3526 section 3).
PRIME = int(
    "FFFFFFFFFFFFFFFFC90FDAA22168C234C4C6628B80DC1CD129024E088A67CC74020BBEA63B139B22514A08798E3404DDEF9519B3CD3A431B"
    "302B0A6DF25F14374FE1356D6D51C245E485B576625E7EC6F44C42E9A637ED6B0BFF5CB6F406B7EDEE386BFB5A899FA5AE9F24117C4B1FE6"
    "49286651ECE45B3DC2007CB8A163BF0598DA48361C55D39A69163FA8FD24CF5F83655D23DCA3AD961C62F356208552BB9ED529077096966D"
    "670C354E4ABC9804F1746C08CA18217C32905E462E36CE3BE39E772C180E86039B2783A2EC07A28FB5C55DF06F4C52C9DE2BCBF695581718"
    "3995497CEA956AE515D2261898FA051015728E5A8AACAA68FFFFFFFFFFFFFFFF", 16)


def prf(key: bytes, octets: bytes) -> bytes:
    return hmac.new(key, octets, hashlib.sha256).digest()


def keys_of(key: bytes, seed: bytes, count: int) -> List[bytes]:
    """The first keys that prf+ gives (RFC 7296 section 2.13), of 32 octets each."""
    keys = [prf(key, seed + b"\1")]
    for number in range(2, count + 1):
        keys.append(prf(key, keys[-1] + seed + bytes([number])))
    return keys


def payload_of(message: bytes, wanted: int) -> bytes:
    """The first payload of this type, without its header."""
    kind, place = message[16], 28
    while True:
        length = int.from_bytes(message[place + 2 : place + 4], "big")
        if kind == wanted:
            return message[place + 4 : place + length]
        kind, place = message[place], place + length


class World:
    """Two gateways with a child, the messages that brought it up, and the keys that Python derives (sections 2.14 and 2.17)."""

    def __init__(self, **terms) -> None:  # type: ignore[no-untyped-def]
        self.a = Gateway(own="a.example", peer="b.example", psk=b"secret", policy=[Entry(OWN, PEER)], **terms)
        self.b = Gateway(own="b.example", peer="a.example", psk=b"secret", policy=[Entry(PEER, OWN)], **terms)
        drawn = Fresh(), Fresh()
        self.messages = [self.a.start(fresh=drawn[0]).message]
        self.messages.append(self.b.ike(self.messages[0], fresh=drawn[1]).message)
        for end, kind in ((self.a, Request), (self.b, Reply)):
            output = end.ike(self.messages[-1])
            assert isinstance(output, kind)
            self.messages.append(output.message)
        self.a.ike(self.messages[-1])
        exponents = [int.from_bytes(each.secret, "big") for each in drawn]
        self.publics = [pow(2, exponent, PRIME).to_bytes(256, "big") for exponent in exponents]
        self.nonces = drawn[0].nonce + drawn[1].nonce
        shared = pow(2, exponents[0] * exponents[1], PRIME).to_bytes(256, "big")
        self.keys = keys_of(prf(self.nonces, shared), self.nonces + self.messages[1][:16], 7)
        self.child_keys = keys_of(self.keys[0], self.nonces, 2)


class KeysOfAnIkeSa(unittest.TestCase):
    def refuses(self, gateway: Gateway, ike: int, code: int = 108) -> None:
        with self.assertRaises(CallFault) as caught:
            gateway.keys(ike)
        self.assertEqual(caught.exception.code, code)

    def test_both_ends_tell_the_keys_that_python_derives(self) -> None:
        world = World(tells_keys=True)
        self.assertEqual(world.a.keys(1), Keys(*world.keys))
        self.assertEqual(world.b.keys(1), Keys(*world.keys))
        self.assertNotIn(world.keys[0].hex(), repr(world.a.keys(1)))
        self.refuses(world.a, 2)
        self.refuses(world.a, 0)
        world.a.ike(world.b.ike(world.a.delete_ike(1).message).message)
        self.assertEqual(world.a.associations()[0].phase, Phase.CLOSED)
        self.assertEqual(world.a.keys(1), Keys(*world.keys))
        world.a.close()
        self.refuses(world.a, 1, 101)

    def test_keys_are_there_from_the_answer_on(self) -> None:
        world = World(tells_keys=True)
        request = world.a.start()
        self.refuses(world.a, 2)
        reply = world.b.ike(request.message)
        self.assertEqual(world.b.associations()[1].phase, Phase.HALF_OPEN)
        world.a.ike(reply.message)
        self.assertEqual(world.a.associations()[1].phase, Phase.PROVING)
        self.assertEqual(world.a.keys(2), world.b.keys(2))
        self.assertNotEqual(world.a.keys(2), world.a.keys(1))

    def test_only_who_was_made_so_tells_them(self) -> None:
        world = World()
        self.refuses(world.a, 1)
        self.refuses(world.b, 1)

    def test_public_values(self) -> None:
        world = World()
        self.assertEqual([payload_of(message, 34)[4:] for message in world.messages[:2]], world.publics)

    def test_messages_are_under_the_keys_that_python_derives(self) -> None:
        world = World()
        for message, key in zip(world.messages[2:], world.keys[1:3]):
            self.assertEqual(prf(key, message[:-16])[:16], message[-16:])

    def test_packets_are_under_the_keys_that_python_derives(self) -> None:
        world = World()
        (child,) = world.a.children()
        for end, spi, key, inner in (
            (world.a, child.spi_out, world.child_keys[0], packet("10.0.0.1", "10.1.0.1", b"out")),
            (world.b, child.spi_in, world.child_keys[1], packet("10.1.0.1", "10.0.0.1", b"back")),
        ):
            sealed = end.outward(inner)
            assert isinstance(sealed, Sealed)
            self.assertEqual(Inbound(spi, key, extended=True).open(sealed.packet).payload, inner)


if __name__ == "__main__":
    unittest.main()
