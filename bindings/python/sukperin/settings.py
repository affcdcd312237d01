"""What a gateway is made of, and the randomness of an input."""

import enum
import ipaddress
import secrets
from dataclasses import dataclass, field
from ipaddress import IPv4Address, IPv6Address
from typing import Tuple, Union

from . import _library
from .refusals import CallFault

Address = Union[IPv4Address, IPv6Address]


@dataclass(frozen=True)
class Identity:
    """Who an end says it is: a type of RFC 7296 section 3.5 and its 1 to 256 octets."""

    kind: int
    data: bytes

    @staticmethod
    def of(value: "Union[Identity, Address, str]") -> "Identity":
        """An identity itself, an address (type 1 or 5), or a text: a name (type 2), with an @ an address of mail (type 3)."""
        if isinstance(value, Identity):
            return value
        if isinstance(value, str):
            return Identity(3 if "@" in value else 2, value.encode())
        return Identity(1 if value.version == 4 else 5, value.packed)


class Action(enum.IntEnum):
    """What is done with the packets of an entry."""

    DISCARD = 0
    BYPASS = 1
    PROTECT = 2


ALL_PORTS = (0, 65535)


@dataclass(frozen=True)
class Entry:
    """An entry of a policy. `local` and `remote` are a prefix ("10.0.0.0/24") or a range ("10.0.0.1-10.0.0.9") of one family; protocol 0
    is any."""

    local: str
    remote: str
    protocol: int = 0
    local_ports: Tuple[int, int] = ALL_PORTS
    remote_ports: Tuple[int, int] = ALL_PORTS
    action: Action = Action.PROTECT

    def record(self) -> _library.EntryRecord:
        local_start, local_end = range_of(self.local)
        remote_start, remote_end = range_of(self.remote)
        if len({address.version for address in (local_start, local_end, remote_start, remote_end)}) > 1:
            raise CallFault(106)  # no record can say it
        for port in self.local_ports + self.remote_ports:
            _library.in_range(port, 2**16)
        _library.in_range(self.protocol, 2**8)
        record = _library.EntryRecord(family=local_start.version, protocol=self.protocol, action=self.action)
        record.local_start_port, record.local_end_port = self.local_ports
        record.remote_start_port, record.remote_end_port = self.remote_ports
        record.local_start[:], record.local_end[:] = padded(local_start), padded(local_end)
        record.remote_start[:], record.remote_end[:] = padded(remote_start), padded(remote_end)
        return record


def range_of(text: str) -> Tuple[Address, Address]:
    """The first and the last address of a prefix or a range."""
    start, dash, end = text.partition("-")
    if dash:
        return ipaddress.ip_address(start.strip()), ipaddress.ip_address(end.strip())
    network = ipaddress.ip_network(text)
    return network[0], network[-1]


def padded(address: Address) -> bytes:
    """Sixteen octets: an address of IPv4 is the first four."""
    return address.packed.ljust(16, b"\0")


@dataclass(frozen=True)
class Fresh:
    """The randomness of one input. Without values it is drawn of the system; give values only in tests that have to come out the
    same."""

    spi: int = field(default_factory=lambda: secrets.randbits(64))
    nonce: bytes = field(default_factory=lambda: secrets.token_bytes(32))
    secret: bytes = field(default_factory=lambda: secrets.token_bytes(32))
    seal: bytes = field(default_factory=lambda: secrets.token_bytes(16))

    def record(self) -> _library.FreshRecord:
        record = _library.FreshRecord(spi=_library.in_range(self.spi, 2**64))
        record.nonce[:] = _library.of_length(self.nonce, 32, "a nonce")
        record.secret[:] = _library.of_length(self.secret, 32, "a secret of the key agreement")
        record.seal[:] = _library.of_length(self.seal, 16, "what sealing takes")
        return record
