"""The proved core of an IPsec gateway (IKEv2, and ESP with NULL encryption and HMAC-SHA-256-128), for testers.

    from sukperin import Entry, Gateway
    a = Gateway(own="a.example", peer="b.example", psk=b"secret", policy=[Entry("10.0.0.0/24", "10.1.0.0/24")])
    request = a.start()            # a Request: request.message goes to the peer's UDP port 500

A `Gateway` is one end with one peer. Each input gives one of the outputs in `sukperin.outputs`, or raises: `Dropped` and `Refused` with
the number (E1 to E39) and its text where the core says so, `CallFault` where the call itself can't be used. What an argument can't be (a
number out of its range, no address, octets of a wrong length) is a `ValueError`. Octets are `bytes`, `bytearray` or `memoryview`.

`Outbound` and `Inbound` are the two ends of one ESP SA under a key that is given, to judge captured packets.

The shared library is `libsukperin.so.1`, looked for where the system looks, or in the folder that SUKPERIN_LIB names.
"""

from .association import Inbound, Opened, Outbound, Packet
from .gateway import Gateway
from .outputs import (Clear, Counted, Discarded, Done, Dummy, Output, Repeat, Reply, Request, Resent, Sealed, Ticked, Up)
from .refusals import CallFault, Dropped, Error, Refusal, Refused
from .settings import Action, Entry, Fresh, Identity
from .tables import Association, Child, Keys, Phase, Role, Selector

__all__ = [
    "Action", "Association", "CallFault", "Child", "Clear", "Counted", "Discarded", "Done", "Dropped", "Dummy", "Entry", "Error", "Fresh",
    "Gateway", "Identity", "Inbound", "Keys", "Opened", "Outbound", "Output", "Packet", "Phase", "Refusal", "Refused", "Repeat", "Reply",
    "Request", "Resent", "Role", "Sealed", "Selector", "Ticked", "Up",
]
