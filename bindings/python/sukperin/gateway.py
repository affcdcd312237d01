"""One gateway."""

import ctypes
import itertools
import secrets
from ctypes import byref
from ipaddress import IPv4Address
from types import TracebackType
from typing import List, Optional, Sequence, Tuple, Type, TypeVar, Union

from . import _library
from ._library import LIBRARY
from .association import ESP_OCTETS
from .outputs import (KINDS, Clear, Counted, Discarded, Done, Dummy, Output, Repeat, Reply, Request, Resent, Sealed, Ticked, Up)
from .refusals import CallFault, Dropped, Refusal, Refused, check
from .settings import Address, Entry, Fresh, Identity
from .tables import Association, Child, Keys, Selector

# No message has more than 3000 octets, and no more than 128 IKE SAs are held beside those that the peer closed.
MESSAGE_ROOM = 3000
ASSOCIATION_ROOM = 256

One = TypeVar("One", Request, Ticked, Done)


class Gateway:
    """One end, with one peer. `with Gateway(..) as gateway` closes it at the end.

    `own` and `peer` are identities: a name, an address of mail, an address of `ipaddress`, or an `Identity`. A text is a name, even one
    like "192.0.2.1". `psk` is the secret of both ends, unless `peer_psk` is another one for the peer. Only one with `tells_keys`
    answers `keys`. Raises `CallFault` with 104 (an identity, the window or the blocks), 106 (the policy) or 107 (the first SPI).
    """

    def __init__(
        self,
        *,
        own: Union[str, Address, Identity],
        peer: Union[str, Address, Identity],
        psk: bytes,
        policy: Sequence[Entry],
        peer_psk: Optional[bytes] = None,
        extended: bool = True,
        window: int = 1,
        blocks: int = 64,
        first_spi: int = 4096,
        own_address: str = "192.0.2.1",
        peer_address: str = "192.0.2.2",
        cookie_secret: Optional[bytes] = None,
        tells_keys: bool = False,
    ) -> None:
        self._handle = _library.GatewayHandle()
        self._peer_address = IPv4Address(peer_address).packed
        own_identity, peer_identity = Identity.of(own), Identity.of(peer)
        for value, limit in ((own_identity.kind, 2**8), (peer_identity.kind, 2**8), (window, 2**8), (blocks, 2**32), (first_spi, 2**32)):
            _library.in_range(value, limit)
        terms = _library.TermsRecord(
            own_kind=own_identity.kind, peer_kind=peer_identity.kind, extended=extended, window=window, blocks=blocks, first_spi=first_spi,
            tells_keys=tells_keys)
        terms.own_address[:], terms.peer_address[:] = IPv4Address(own_address).packed, self._peer_address
        terms.cookie_secret[:] = _cookie_secret(secrets.token_bytes(32) if cookie_secret is None else cookie_secret)
        entries = (_library.EntryRecord * len(policy))(*(entry.record() for entry in policy))
        peer_secret = psk if peer_psk is None else peer_psk
        check(LIBRARY.suk_new(
            byref(self._handle), byref(terms), own_identity.data, len(own_identity.data), peer_identity.data, len(peer_identity.data),
            psk, len(psk), peer_secret, len(peer_secret), entries, len(policy)))

    def start(self, entry: int = 0, *, ike: Optional[int] = None, fresh: Optional[Fresh] = None) -> Request:
        """The command to ask for a Child SA by an entry of the policy: with a new IKE SA where `ike` is None or 0, else as an additional
        one of that IKE SA."""
        output = _library.OutputRecord()
        check(LIBRARY.suk_start(byref(self._handle), ike or 0, entry, _fresh(fresh), byref(output)))
        return self._only(Request, output)

    def ike(self, datagram: bytes, *, source: Optional[str] = None, fresh: Optional[Fresh] = None) -> Output:
        """A datagram of IKE that came, from the peer's address if `source` is no other one."""
        address = self._peer_address if source is None else IPv4Address(source).packed
        output = _library.OutputRecord()
        check(LIBRARY.suk_ike(byref(self._handle), address, datagram, len(datagram), _fresh(fresh), byref(output)))
        return self._output(output)

    def probe(self, ike: int, *, fresh: Optional[Fresh] = None) -> Request:
        """The command to ask the peer of an IKE SA whether it is there."""
        output = _library.OutputRecord()
        check(LIBRARY.suk_probe(byref(self._handle), ike, _fresh(fresh), byref(output)))
        return self._only(Request, output)

    def delete_child(self, child: int, *, fresh: Optional[Fresh] = None) -> Request:
        """The command to delete a Child SA."""
        output = _library.OutputRecord()
        check(LIBRARY.suk_delete_child(byref(self._handle), child, _fresh(fresh), byref(output)))
        return self._only(Request, output)

    def delete_ike(self, ike: int, *, fresh: Optional[Fresh] = None) -> Request:
        """The command to delete an IKE SA with all its Child SAs."""
        output = _library.OutputRecord()
        check(LIBRARY.suk_delete_ike(byref(self._handle), ike, _fresh(fresh), byref(output)))
        return self._only(Request, output)

    def secret(self, secret: bytes) -> Done:
        """The command to make cookies under another secret, of 32 octets."""
        output = _library.OutputRecord()
        check(LIBRARY.suk_secret(byref(self._handle), _cookie_secret(secret), byref(output)))
        return self._only(Done, output)

    def tick(self, moment: int) -> Ticked:
        """The time, in milliseconds from any beginning. An earlier one counts as the greatest so far. To be told before each command and
        each datagram of IKE too: a request counts from the last moment before it."""
        output = _library.OutputRecord()
        check(LIBRARY.suk_tick(byref(self._handle), moment, byref(output)))
        return self._only(Ticked, output)

    def next_moment(self) -> Optional[int]:
        """When `tick` is due next; None where nothing will ever be due."""
        moment = ctypes.c_uint64()
        code = LIBRARY.suk_next(byref(self._handle), byref(moment))
        return moment.value if _is_told(code) else None

    def esp(self, packet: bytes) -> Output:
        """An ESP packet that came, from its SPI on."""
        output = _library.OutputRecord()
        check(LIBRARY.suk_esp(byref(self._handle), packet, len(packet), byref(output)))
        return self._output(output, packet)

    def outward(self, packet: bytes) -> Output:
        """A whole IP packet on its way out."""
        output = _library.OutputRecord()
        room = ctypes.create_string_buffer(len(packet) + ESP_OCTETS)
        check(LIBRARY.suk_outward(byref(self._handle), packet, len(packet), room, len(room), byref(output)))
        return self._output(output, packet, room.raw)

    def esp_all(self, packets: Sequence[bytes]) -> List[Union[Output, Refusal]]:
        """ESP packets that came, in their order: what `esp` gives for each of them, or the refusal that it raises. Up to 64 at a time
        have their ICVs computed side by side."""
        outputs = (_library.OutputRecord * len(packets))()
        check(LIBRARY.suk_esp_all(byref(self._handle), *_listed(packets), outputs, len(outputs)))
        return [_refusal(output) or self._output(output, packet) for output, packet in zip(outputs, packets)]

    def outward_all(self, packets: Sequence[bytes]) -> List[Union[Output, Refusal]]:
        """Whole IP packets on their way out, in their order: what `outward` gives for each of them, or the refusal that it raises."""
        outputs = (_library.OutputRecord * len(packets))()
        room = ctypes.create_string_buffer(sum(len(packet) + ESP_OCTETS for packet in packets))
        check(LIBRARY.suk_outward_all(byref(self._handle), *_listed(packets), room, len(room), outputs, len(outputs)))
        octets = room.raw
        return [_refusal(output) or self._output(output, packet, octets) for output, packet in zip(outputs, packets)]

    def inward(self, packet: bytes) -> Output:
        """A whole IP packet that came in unprotected."""
        output = _library.OutputRecord()
        check(LIBRARY.suk_inward(byref(self._handle), packet, len(packet), byref(output)))
        return self._output(output, packet)

    def children(self) -> List[Child]:
        """The Child SAs, by rising serial."""
        children: List[Child] = []
        record = _library.ChildRecord()
        while _is_told(LIBRARY.suk_child_after(byref(self._handle), record.serial, byref(record))):
            selectors = [
                tuple(self._selector(record.serial, remote, place) for place in range(count))
                for remote, count in ((0, record.locals), (1, record.remotes))
            ]
            children.append(Child(
                record.serial, record.ike, record.spi_in, record.spi_out, bool(record.live), bool(record.extended),
                record.sent, record.taken, *selectors))
        return children

    def associations(self) -> List[Association]:
        """The IKE SAs that are held, those half open or closed among them."""
        room = (_library.IkeAssociationRecord * ASSOCIATION_ROOM)()
        count = ctypes.c_uint64()
        check(LIBRARY.suk_associations(byref(self._handle), room, ASSOCIATION_ROOM, byref(count)))
        return [Association.of(record) for record in room[: count.value]]

    def keys(self, ike: int) -> Keys:
        """The keys of an IKE SA, by its serial: for tests, and to read captured messages. `CallFault` 108 where the gateway wasn't made
        with `tells_keys`, no such IKE SA is held, or it has no keys yet."""
        record = _library.KeysRecord()
        check(LIBRARY.suk_keys(byref(self._handle), ike, byref(record)))
        return Keys.of(record)

    def close(self) -> None:
        """Overwrites and frees it; secrets that were given to it stay the caller's. Any call after that raises 101."""
        LIBRARY.suk_end(byref(self._handle))

    def __enter__(self) -> "Gateway":
        return self

    def __exit__(self, kind: Optional[Type[BaseException]], value: Optional[BaseException], trace: Optional[TracebackType]) -> None:
        self.close()

    def __del__(self) -> None:
        if hasattr(self, "_handle"):
            self.close()

    def _selector(self, child: int, remote: int, place: int) -> Selector:
        record = _library.SelectorRecord()
        check(LIBRARY.suk_selector(byref(self._handle), child, remote, place, byref(record)))
        return Selector.of(record)

    # Messages are kept in the handle until its next input: here they are taken at once.
    def _message(self, place: int = 0) -> Resent:
        room = ctypes.create_string_buffer(MESSAGE_ROOM)
        told = _library.MessageRecord()
        check(LIBRARY.suk_message(byref(self._handle), place, room, len(room), byref(told)))
        return Resent(told.ike, room.raw[: told.length])

    def _closing(self, place: int) -> int:
        ike = ctypes.c_uint32()
        check(LIBRARY.suk_closing(byref(self._handle), place, byref(ike)))
        return ike.value

    # Of an input that has no other output, unless it is refused.
    def _only(self, kind: Type[One], told: _library.OutputRecord) -> One:
        output = self._output(told)
        if not isinstance(output, kind):
            raise CallFault(told.kind)
        return output

    def _output(self, told: _library.OutputRecord, packet: bytes = b"", room: bytes = b"") -> Output:
        refusal = _refusal(told)
        if refusal is not None:
            raise refusal
        kind = KINDS.get(told.kind)
        if kind == "REPLY":
            return Reply(self._message().message, told.ike or None, told.child or None, told.closed or None)
        if kind == "REPEAT":
            return Repeat(self._message().message)
        if kind == "REQUEST":
            return Request(told.ike, self._message().message)
        if kind == "COUNTED":
            return Counted(told.ike, told.child or None, told.closed or None)
        if kind == "TICKED":
            requests = tuple(self._message(place) for place in range(told.messages))
            return Ticked(requests, tuple(self._closing(place) for place in range(told.closings)))
        if kind == "DONE":
            return Done()
        if kind == "UP":
            return Up(told.child, told.number, bytes(packet[told.offset : told.offset + told.length]))
        if kind == "DUMMY":
            return Dummy(told.child, told.number)
        if kind == "SEALED":
            return Sealed(told.child, told.number, room[told.offset : told.offset + told.length])
        if kind == "CLEAR":
            return Clear(bytes(packet))
        if kind == "DISCARDED":
            return Discarded()
        raise CallFault(told.kind)


def _refusal(told: _library.OutputRecord) -> Optional[Refusal]:
    kind = KINDS.get(told.kind)
    return Dropped(told.code) if kind == "DROPPED" else Refused(told.code) if kind == "REFUSED" else None


# The packets one behind the other, and their places, each with its count.
def _listed(packets: Sequence[bytes]) -> "Tuple[bytes, int, ctypes.Array[_library.PlaceRecord], int]":
    octets = b"".join(packets)
    ends = itertools.accumulate(len(packet) for packet in packets)
    listed = (_library.PlaceRecord(offset=end - len(packet), length=len(packet)) for end, packet in zip(ends, packets))
    places = (_library.PlaceRecord * len(packets))(*listed)
    return octets, len(octets), places, len(packets)


def _cookie_secret(secret: bytes) -> bytes:
    return _library.of_length(secret, 32, "a secret of cookies")


def _fresh(fresh: Optional[Fresh]) -> "ctypes._Pointer[_library.FreshRecord]":
    return ctypes.pointer((fresh or Fresh()).record())


# Whether a view told something; 108 says that there is no such thing.
def _is_told(code: int) -> bool:
    if code == 108:
        return False
    check(code)
    return True
