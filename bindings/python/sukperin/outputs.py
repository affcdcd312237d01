"""What comes of an input. IKE SAs and Child SAs are named by their serials, from 1; None names nothing."""

from dataclasses import dataclass
from typing import Optional, Tuple, Union


@dataclass(frozen=True)
class Reply:
    """A request of IKE took effect, and this message answers it. The serials tell what it came under, made and closed."""

    message: bytes
    ike: Optional[int] = None
    child: Optional[int] = None
    closed: Optional[int] = None


@dataclass(frozen=True)
class Repeat:
    """A retransmission of a request that took effect before is answered by the same message again."""

    message: bytes


@dataclass(frozen=True)
class Request:
    """A request of this end goes to the peer."""

    ike: int
    message: bytes


@dataclass(frozen=True)
class Counted:
    """A response was counted; it made `child` and closed `closed`."""

    ike: int
    child: Optional[int] = None
    closed: Optional[int] = None


@dataclass(frozen=True)
class Resent:
    """A request that goes out again."""

    ike: int
    message: bytes


@dataclass(frozen=True)
class Ticked:
    """What a moment brought: requests that go out again, and IKE SAs that were closed since no answer came."""

    requests: Tuple[Resent, ...] = ()
    closed: Tuple[int, ...] = ()


@dataclass(frozen=True)
class Done:
    """A command was carried out."""


@dataclass(frozen=True)
class Up:
    """What an ESP packet carried goes up, inside."""

    child: int
    number: int
    packet: bytes


@dataclass(frozen=True)
class Dummy:
    """An ESP packet carried nothing."""

    child: int
    number: int


@dataclass(frozen=True)
class Sealed:
    """A packet goes out protected, as this ESP packet."""

    child: int
    number: int
    packet: bytes


@dataclass(frozen=True)
class Clear:
    """A packet goes on as it is."""

    packet: bytes


@dataclass(frozen=True)
class Discarded:
    """A packet doesn't go on, by the policy."""


Output = Union[Reply, Repeat, Request, Counted, Ticked, Done, Up, Dummy, Sealed, Clear, Discarded]

# The numbers of the kinds; Dropped and Refused are exceptions of `sukperin.refusals`.
KINDS = {
    1: "REPLY",
    2: "REPEAT",
    3: "REQUEST",
    4: "COUNTED",
    5: "TICKED",
    6: "DONE",
    7: "UP",
    8: "DUMMY",
    9: "SEALED",
    10: "CLEAR",
    11: "DISCARDED",
    12: "DROPPED",
    13: "REFUSED",
}
