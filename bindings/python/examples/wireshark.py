"""Two gateways come to an IKE SA, and Wireshark is told its keys: the messages go to a file, and what is printed is a line of Wireshark's
table of IKEv2 keys (Preferences, Protocols, ISAKMP).

    export SUKPERIN_LIB=PREFIX/lib PYTHONPATH=bindings/python
    python3 bindings/python/examples/wireshark.py exchange.pcap >line
    tshark -r exchange.pcap -o "uat:ikev2_decryption_table:$(cat line)" -V

Keys are secrets. Only a gateway that was made with `tells_keys` tells them.
"""

import struct
import sys
from ipaddress import IPv4Address
from typing import Iterable, Tuple

from sukperin import Association, Entry, Gateway, Keys, Reply, Request

LEFT, RIGHT = IPv4Address("192.0.2.1"), IPv4Address("192.0.2.2")


def table_line(held: Association, keys: Keys) -> str:
    """An IKE SA in Wireshark's table, with the two algorithms that the library speaks."""
    spis = f"{held.spi_initiator:016x},{held.spi_responder:016x}"
    encryption = f'{keys.sk_ei.hex()},{keys.sk_er.hex()},"AES-CBC-256 [RFC3602]"'
    integrity = f'{keys.sk_ai.hex()},{keys.sk_ar.hex()},"HMAC_SHA2_256_128 [RFC4868]"'
    return f"{spis},{encryption},{integrity}"


def datagram(source: IPv4Address, target: IPv4Address, message: bytes) -> bytes:
    """An IPv4 packet with a datagram of UDP between the ports 500. Both go without a checksum."""
    udp = struct.pack(">HHHH", 500, 500, 8 + len(message), 0)
    return struct.pack(">BBHIBBH4s4s", 0x45, 0, 28 + len(message), 0, 64, 17, 0, source.packed, target.packed) + udp + message


def capture_of(packets: Iterable[bytes]) -> bytes:
    """A capture file of packets that begin with the IP header."""
    records = [struct.pack("<IIII", number, 0, len(packet), len(packet)) + packet for number, packet in enumerate(packets)]
    return struct.pack("<IHHIIII", 0xA1B2C3D4, 2, 4, 0, 0, 65535, 101) + b"".join(records)


def exchange() -> Tuple[Gateway, "list[bytes]"]:
    """A gateway with an IKE SA, and the packets that brought it up."""
    secret = b"a long secret of both ends"
    left = Gateway(
        own="left.example", peer="right.example", psk=secret, policy=[Entry("10.0.0.0/24", "10.1.0.0/24")], tells_keys=True)
    right = Gateway(own="right.example", peer="left.example", psk=secret, policy=[Entry("10.1.0.0/24", "10.0.0.0/24")])
    packets = []
    output = left.start()
    while isinstance(output, Request):
        packets.append(datagram(LEFT, RIGHT, output.message))
        reply = right.ike(output.message)
        assert isinstance(reply, Reply)
        packets.append(datagram(RIGHT, LEFT, reply.message))
        output = left.ike(reply.message)
    return left, packets


def main() -> None:
    left, packets = exchange()
    if len(sys.argv) > 1:
        with open(sys.argv[1], "wb") as file:
            file.write(capture_of(packets))
    for held in left.associations():
        print(table_line(held, left.keys(held.serial)))


if __name__ == "__main__":
    main()
