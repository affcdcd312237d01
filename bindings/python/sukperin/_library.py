"""The calls and records of libsukperin, as the header sukperin.h declares them. tools/declarations.py compares the two."""

import ctypes
import os
from ctypes import POINTER, Structure, c_bool, c_char_p, c_size_t, c_uint8, c_uint16, c_uint32, c_uint64, c_void_p
from types import SimpleNamespace
from typing import Any, Callable


class AssociationHandle(Structure):
    _fields_ = [("private_at", c_void_p), ("private_live", c_bool)]


class SealedRecord(Structure):
    _fields_ = [("number", c_uint64), ("length", c_uint64)]


class OpenedRecord(Structure):
    _fields_ = [("number", c_uint64), ("offset", c_uint64), ("length", c_uint64), ("next", c_uint32), ("reserved", c_uint32)]


class GatewayHandle(Structure):
    _fields_ = [("private_at", c_void_p), ("private_live", c_bool)]


class TermsRecord(Structure):
    _fields_ = [
        ("own_kind", c_uint8), ("peer_kind", c_uint8), ("extended", c_uint8), ("window", c_uint8),
        ("blocks", c_uint32), ("first_spi", c_uint32),
        ("own_address", c_uint8 * 4), ("peer_address", c_uint8 * 4), ("cookie_secret", c_uint8 * 32),
        ("tells_keys", c_uint8), ("reserved", c_uint8 * 3),
    ]


class EntryRecord(Structure):
    _fields_ = [
        ("family", c_uint8), ("protocol", c_uint8), ("action", c_uint8), ("reserved", c_uint8),
        ("local_start_port", c_uint16), ("local_end_port", c_uint16), ("remote_start_port", c_uint16), ("remote_end_port", c_uint16),
        ("local_start", c_uint8 * 16), ("local_end", c_uint8 * 16), ("remote_start", c_uint8 * 16), ("remote_end", c_uint8 * 16),
    ]


class FreshRecord(Structure):
    _fields_ = [("spi", c_uint64), ("nonce", c_uint8 * 32), ("secret", c_uint8 * 32), ("seal", c_uint8 * 16)]


class OutputRecord(Structure):
    _fields_ = [
        ("kind", c_uint32), ("code", c_uint32), ("ike", c_uint32), ("child", c_uint32), ("closed", c_uint32), ("keyed", c_uint32),
        ("messages", c_uint64), ("closings", c_uint64), ("number", c_uint64), ("offset", c_uint64), ("length", c_uint64),
    ]


class PlaceRecord(Structure):
    _fields_ = [("offset", c_uint64), ("length", c_uint64)]


class MessageRecord(Structure):
    _fields_ = [("length", c_uint64), ("ike", c_uint32), ("reserved", c_uint32)]


class ChildRecord(Structure):
    _fields_ = [
        ("serial", c_uint32), ("ike", c_uint32), ("spi_in", c_uint32), ("spi_out", c_uint32),
        ("live", c_uint8), ("extended", c_uint8), ("reserved", c_uint16), ("more", c_uint32),
        ("locals", c_uint64), ("remotes", c_uint64), ("sent", c_uint64), ("taken", c_uint64),
    ]


class SelectorRecord(Structure):
    _fields_ = [
        ("family", c_uint8), ("protocol", c_uint8), ("start_port", c_uint16), ("end_port", c_uint16),
        ("start", c_uint8 * 16), ("end", c_uint8 * 16),
    ]


class IkeAssociationRecord(Structure):
    _fields_ = [
        ("spi_i", c_uint64), ("spi_r", c_uint64), ("moment", c_uint64),
        ("serial", c_uint32), ("role", c_uint8), ("phase", c_uint8), ("deleting", c_uint8), ("window", c_uint8),
    ]


class KeysRecord(Structure):
    _fields_ = [
        ("sk_d", c_uint8 * 32), ("sk_ai", c_uint8 * 32), ("sk_ar", c_uint8 * 32), ("sk_ei", c_uint8 * 32), ("sk_er", c_uint8 * 32),
        ("sk_pi", c_uint8 * 32), ("sk_pr", c_uint8 * 32),
    ]


NUMBERS = (c_uint8, c_uint32, c_uint64, c_size_t)

# Octets that are read are each followed by their length; lists of records are followed by their count.
CALLS: "dict[str, tuple[Any, list[Any]]]" = {
    "suk_sender": (c_uint32, [POINTER(AssociationHandle), c_uint32, c_char_p, c_uint8, c_uint64]),
    "suk_receiver": (c_uint32, [POINTER(AssociationHandle), c_uint32, c_char_p, c_uint8, c_uint32]),
    "suk_seal": (c_uint32, [POINTER(AssociationHandle), c_uint8, c_char_p, c_size_t, c_void_p, c_size_t, POINTER(SealedRecord)]),
    "suk_open": (c_uint32, [POINTER(AssociationHandle), c_char_p, c_size_t, POINTER(OpenedRecord)]),
    "suk_end_association": (None, [POINTER(AssociationHandle)]),
    "suk_new": (c_uint32, [
        POINTER(GatewayHandle), POINTER(TermsRecord), c_char_p, c_size_t, c_char_p, c_size_t, c_char_p, c_size_t, c_char_p, c_size_t,
        c_void_p, c_size_t]),
    "suk_end": (None, [POINTER(GatewayHandle)]),
    "suk_ike": (c_uint32, [POINTER(GatewayHandle), c_char_p, c_char_p, c_size_t, POINTER(FreshRecord), POINTER(OutputRecord)]),
    "suk_start": (c_uint32, [POINTER(GatewayHandle), c_uint32, c_uint32, POINTER(FreshRecord), POINTER(OutputRecord)]),
    "suk_probe": (c_uint32, [POINTER(GatewayHandle), c_uint32, POINTER(FreshRecord), POINTER(OutputRecord)]),
    "suk_delete_child": (c_uint32, [POINTER(GatewayHandle), c_uint32, POINTER(FreshRecord), POINTER(OutputRecord)]),
    "suk_delete_ike": (c_uint32, [POINTER(GatewayHandle), c_uint32, POINTER(FreshRecord), POINTER(OutputRecord)]),
    "suk_secret": (c_uint32, [POINTER(GatewayHandle), c_char_p, POINTER(OutputRecord)]),
    "suk_tick": (c_uint32, [POINTER(GatewayHandle), c_uint64, POINTER(OutputRecord)]),
    "suk_next": (c_uint32, [POINTER(GatewayHandle), POINTER(c_uint64)]),
    "suk_esp": (c_uint32, [POINTER(GatewayHandle), c_char_p, c_size_t, POINTER(OutputRecord)]),
    "suk_outward": (c_uint32, [POINTER(GatewayHandle), c_char_p, c_size_t, c_void_p, c_size_t, POINTER(OutputRecord)]),
    "suk_esp_all": (c_uint32, [POINTER(GatewayHandle), c_char_p, c_size_t, c_void_p, c_size_t, c_void_p, c_size_t]),
    "suk_outward_all": (c_uint32, [
        POINTER(GatewayHandle), c_char_p, c_size_t, c_void_p, c_size_t, c_void_p, c_size_t, c_void_p, c_size_t]),
    "suk_inward": (c_uint32, [POINTER(GatewayHandle), c_char_p, c_size_t, POINTER(OutputRecord)]),
    "suk_message": (c_uint32, [POINTER(GatewayHandle), c_uint64, c_void_p, c_size_t, POINTER(MessageRecord)]),
    "suk_closing": (c_uint32, [POINTER(GatewayHandle), c_uint64, POINTER(c_uint32)]),
    "suk_child_after": (c_uint32, [POINTER(GatewayHandle), c_uint32, POINTER(ChildRecord)]),
    "suk_selector": (c_uint32, [POINTER(GatewayHandle), c_uint32, c_uint8, c_uint64, POINTER(SelectorRecord)]),
    "suk_associations": (c_uint32, [POINTER(GatewayHandle), c_void_p, c_size_t, POINTER(c_uint64)]),
    "suk_keys": (c_uint32, [POINTER(GatewayHandle), c_uint32, POINTER(KeysRecord)]),
}


def in_range(value: int, limit: int) -> int:
    """The value itself, if it is from 0 to below the limit."""
    if not 0 <= value < limit:
        raise ValueError(f"{value} isn't a number from 0 to {limit - 1}")
    return value


def of_length(value: bytes, length: int, what: str) -> bytes:
    """The value itself, if it has so many octets."""
    if len(value) != length:
        raise ValueError(f"{what} has {length} octets, and not {len(value)}")
    return value


# ctypes itself would cut a number that is too great, and takes `bytes` alone for octets.
def _checked(function: Any, parameters: "list[Any]") -> "Callable[..., Any]":
    limits = [(place, 1 << 8 * ctypes.sizeof(kind)) for place, kind in enumerate(parameters) if kind in NUMBERS]
    octets = [place for place, kind in enumerate(parameters) if kind is c_char_p]

    def call(*given: Any) -> Any:
        words = list(given)
        for place, limit in limits:
            in_range(words[place], limit)
        for place in octets:
            if not isinstance(words[place], bytes):
                words[place] = bytes(memoryview(words[place]))
        return function(*words)

    return call


def _load() -> SimpleNamespace:
    folder = os.environ.get("SUKPERIN_LIB")
    name = "libsukperin.so.1"
    try:
        library = ctypes.CDLL(os.path.join(folder, name) if folder else name)
    except OSError as error:
        raise OSError(f"{error}: SUKPERIN_LIB names the folder of {name}, unless the system knows it") from error
    calls = {}
    for call, (answer, parameters) in CALLS.items():
        function = getattr(library, call)
        function.restype = answer
        function.argtypes = parameters
        calls[call] = _checked(function, parameters)
    return SimpleNamespace(**calls)


LIBRARY = _load()
