"""The two ends of one ESP SA (RFC 4303) under a key that is given: to judge packets that were captured, or that another stack
made."""

import ctypes
from ctypes import byref
from dataclasses import dataclass
from types import TracebackType
from typing import Optional, Type

from . import _library
from ._library import LIBRARY
from .refusals import check

# What a packet needs more than its own octets when it is sealed.
ESP_OCTETS = 29


@dataclass(frozen=True)
class Packet:
    """A packet that was sealed."""

    number: int
    octets: bytes


@dataclass(frozen=True)
class Opened:
    """A packet that was opened: its number, the protocol of its payload (4 IPv4, 41 IPv6, 59 none), and the payload."""

    number: int
    next_header: int
    payload: bytes


class _End:
    """A handle of one end, freed when it is closed or collected."""

    def __init__(self, key: bytes) -> None:
        self._handle = _library.AssociationHandle()
        _library.of_length(key, 32, "a key")

    def close(self) -> None:
        """Overwrites and frees it; the key that was given to it stays the caller's. Any call after that raises 101."""
        LIBRARY.suk_end_association(byref(self._handle))

    def __enter__(self): # type: ignore[no-untyped-def]
        return self

    def __exit__(self, kind: Optional[Type[BaseException]], value: Optional[BaseException], trace: Optional[TracebackType]) -> None:
        self.close()

    def __del__(self) -> None:
        if hasattr(self, "_handle"):
            self.close()


class Outbound(_End):
    """The sender. `last` is the number that it sent last, 0 for a new one. `CallFault` 107 where the SPI is below 256."""

    def __init__(self, spi: int, key: bytes, *, extended: bool = False, last: int = 0) -> None:
        super().__init__(key)
        check(LIBRARY.suk_sender(byref(self._handle), spi, key, extended, last))

    def seal(self, payload: bytes, next_header: int = 4) -> Packet:
        """Seals a payload of this protocol. Raises E12 where the numbers are exhausted, E13 where it has more than 16,384 octets."""
        room = ctypes.create_string_buffer(len(payload) + ESP_OCTETS)
        told = _library.SealedRecord()
        check(LIBRARY.suk_seal(byref(self._handle), next_header, payload, len(payload), room, len(room), byref(told)))
        return Packet(told.number, room.raw[: told.length])


class Inbound(_End):
    """The receiver, with an empty replay window of `blocks`, which spans 64 numbers for each block but one. `CallFault` 104 where the
    blocks are no power of two from 2 to 128, 107 where the SPI is below 256."""

    def __init__(self, spi: int, key: bytes, *, extended: bool = False, blocks: int = 64) -> None:
        super().__init__(key)
        check(LIBRARY.suk_receiver(byref(self._handle), spi, key, extended, blocks))

    def open(self, packet: bytes) -> Opened:
        """Judges a packet, from its SPI on, and takes its number. Raises E14 to E19, or E28 where it has another SPI; only after E19 the
        number stays taken."""
        told = _library.OpenedRecord()
        check(LIBRARY.suk_open(byref(self._handle), packet, len(packet), byref(told)))
        return Opened(told.number, told.next, bytes(packet[told.offset : told.offset + told.length]))
