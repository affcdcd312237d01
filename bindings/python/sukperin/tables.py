"""What a gateway holds."""

import enum
from dataclasses import dataclass, fields
from ipaddress import IPv4Address, IPv6Address
from typing import Tuple

from . import _library
from .settings import Address


@dataclass(frozen=True)
class Selector:
    """Protocol (0 is any), addresses and ports, each range with both its ends."""

    protocol: int
    start: Address
    end: Address
    ports: Tuple[int, int]

    @staticmethod
    def of(record: _library.SelectorRecord) -> "Selector":
        start, end = (_address(record.family, bytes(octets)) for octets in (record.start, record.end))
        return Selector(record.protocol, start, end, (record.start_port, record.end_port))


# An address of IPv4 is the first four octets.
def _address(family: int, octets: bytes) -> Address:
    return IPv4Address(octets[:4]) if family == 4 else IPv6Address(octets)


@dataclass(frozen=True)
class Child:
    """One inbound and one outbound SA of ESP. One that isn't live carries nothing outward. `sent` is the last number that it sent,
    `taken` the greatest that it took, each 0 where there is none."""

    serial: int
    ike: int
    spi_in: int
    spi_out: int
    live: bool
    extended: bool
    sent: int
    taken: int
    locals: Tuple[Selector, ...]
    remotes: Tuple[Selector, ...]


class Role(enum.IntEnum):
    """Which end began an IKE SA."""

    INITIATOR = 1
    RESPONDER = 2


class Phase(enum.IntEnum):
    """How far an IKE SA is."""

    ASKED = 1
    PROVING = 2
    HALF_OPEN = 3
    ESTABLISHED = 4
    CLOSED = 5


@dataclass(frozen=True, repr=False)
class Keys:
    """The keys of an IKE SA (RFC 7296 section 2.14), each of 32 octets. The initiator is the end that began it. It prints no key."""

    sk_d: bytes
    sk_ai: bytes
    sk_ar: bytes
    sk_ei: bytes
    sk_er: bytes
    sk_pi: bytes
    sk_pr: bytes

    @staticmethod
    def of(record: _library.KeysRecord) -> "Keys":
        return Keys(*(bytes(getattr(record, field.name)) for field in fields(Keys)))


@dataclass(frozen=True)
class Association:
    """An IKE SA. `window` is how many requests at once the peer takes; `moment` is when it was made, of one half open, or when it
    was closed, else 0."""

    serial: int
    role: Role
    phase: Phase
    deleting: bool
    window: int
    spi_initiator: int
    spi_responder: int
    moment: int

    @staticmethod
    def of(record: _library.IkeAssociationRecord) -> "Association":
        return Association(
            record.serial, Role(record.role), Phase(record.phase), bool(record.deleting), record.window,
            record.spi_i, record.spi_r, record.moment)
