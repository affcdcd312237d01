"""Why something was dropped or refused, and why a call did nothing."""

# By number, from E1 on (docs/ERRORS.md).
REFUSALS = {
    1: "fewer octets than a header has",
    2: "the length field is not the length of the datagram",
    3: "the version is not supported",
    4: "the chain of payloads is broken",
    5: "a proposal is malformed",
    6: "a traffic selector is malformed",
    7: "the nonce has a wrong length",
    8: "a field is malformed",
    9: "the message is too long",
    10: "out of memory",
    11: "more than 8160 octets of key material",
    12: "the sequence numbers are exhausted",
    13: "the payload has more than 16384 octets",
    14: "the packet's length is not that of a packet",
    15: "the number lies below the replay window",
    16: "the number was taken already",
    17: "the packet has no sequence number",
    18: "the ICV is wrong",
    19: "the padding is wrong",
    20: "out of memory",
    21: "not a whole IP packet",
    22: "a fragment of a packet",
    23: "no entry that protects, or outside the selectors",
    24: "out of memory for the selectors",
    25: "the table is full, or 128 IKE SAs are held",
    26: "the inbound SPIs are spent",
    27: "out of memory for the table",
    28: "no such IKE SA, Child SA or SPI",
    29: "the message doesn't open",
    30: "the request was answered, and its reply is kept no more",
    31: "the number lies outside the window",
    32: "the IKE SA is in another phase, or this message is not due to it",
    33: "the message claims the role of this end",
    34: "too many IKE SAs are half open or held",
    35: "the peer's window is full, or the IKE SA is being deleted",
    36: "the numbers are spent",
    37: "the fresh SPI is zero or in use",
    38: "no room for an answer",
    39: "a packet with an extension header",
}

# What a call answers beside them.
CODES = {
    101: "the handle leads to nothing, or to an end of another kind",
    102: "the handle leads to something already",
    103: "the room is too short",
    104: "an identity, the window or the blocks can't be used",
    106: "an entry of the policy is at fault",
    107: "an SPI is out of its range",
    108: "there is no such thing to tell",
    109: "a packet's place isn't in the buffer",
}


class Error(Exception):
    """What every exception of this package is."""


class Refusal(Error):
    """The core refuses: `number` is that behind the E, `text` the phrase."""

    def __init__(self, number: int) -> None:
        self.number = number
        self.text = REFUSALS.get(number, "an unknown refusal")
        super().__init__(f"E{number}: {self.text}")


class Dropped(Refusal):
    """What came, or was to go out, is dropped."""


class Refused(Refusal):
    """The input is refused, and nothing has changed, but that after E19 of `Inbound.open` the packet's number stays taken."""


class CallFault(Error):
    """The call did nothing, since what it was given can't be used: `code` is the library's number."""

    def __init__(self, code: int) -> None:
        self.code = code
        self.text = CODES.get(code, "an unknown code")
        super().__init__(f"{code}: {self.text}")


def check(code: int) -> None:
    """Raises what a call's answer says; 0 says nothing."""
    if code == 0:
        return
    raise Refused(code) if code in REFUSALS else CallFault(code)
