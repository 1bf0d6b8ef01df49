"""A token that the C library has read, and the key that made its signature."""

from __future__ import annotations

import ctypes
import functools
import struct
from typing import Any, NamedTuple

from . import _library as lib
from ._bundles import Edition
from ._signatures import Verifies
from ._words import no_memory
from .errors import REFUSALS

_LEN = struct.Struct(">I")
_NONE = lib.size(0)
_LONG = 8192  # a token of so many bytes may take some milliseconds to read: other threads go on

Evidence = tuple[Any, ...]
"""Which key made which signature over which bytes, as the calls of the library take it."""
NO_KEY: Evidence = (None, _NONE, None, _NONE, None, _NONE)


class Said(NamedTuple):
    """What a token says. Nobody has vouched for it."""

    key: bytes
    """32 bytes by which all uses of the token are known."""
    expires: int
    trust_domain: str
    key_id: str
    """The name of its key; "" if it has none."""
    audiences: tuple[str, ...]


def says(token: bytes) -> Said:
    """Reads a token. Raises Refused for what is no JWT-SVID, and looks at no signature."""
    said, told, lens = lib.Said(), lib.Told(), (ctypes.c_size_t * 0)()
    status, room = lib.TOO_SHORT, bytearray(1)
    while status == lib.TOO_SHORT:
        lent = (lib.address(said), lens, len(lens), lib.address(room), len(room))
        status = lib.library.svid_token_says(token, len(token), *lent, lib.address(told))
        if status == lib.TOO_SHORT:
            lens, room = (ctypes.c_size_t * said.texts)(), bytearray(told.len + 1)
    if status != lib.OK:
        raise no_memory() if status == lib.NO_MEMORY else REFUSALS[status]()
    texts, at = [], 0
    for size in lens:
        texts.append(room[at : at + size].decode())
        at += size
    _alg, _subject, domain, key_id, *audiences = texts
    return Said(bytes(said.key), said.exp, domain, key_id, tuple(audiences))


def payload(token: bytes) -> bytes:
    """The claims of a token as JSON, byte for byte as they were signed."""
    told, room = lib.Told(), bytearray(len(token) + 1)
    lent = (token, len(token), lib.address(room), len(room), lib.address(told))
    status = lib.library.svid_token_payload(*lent)
    if status != lib.OK:
        raise no_memory() if status == lib.NO_MEMORY else REFUSALS[status]()
    return bytes(room[: told.len])


class _Read(ctypes.Structure):
    """A `svid_token`, and what the call tells that opens it."""

    _fields_ = [("token", ctypes.c_uint64 * 2), ("told", lib.Told)]
    told: lib.Told


class Token:
    """A token that is read once, for all calls about it. Only one thread may use it at a time."""

    def __init__(self, text: bytes) -> None:
        """Reads it. `status` says whether it is a token. Close it in the end."""
        self.text = text
        self.evidence = NO_KEY
        self.bundles: Edition | None = None  # those whose keys were asked about
        self._read = _Read()
        self.told = self._read.told
        self.at = ctypes.byref(self._read)
        library = lib.library if len(text) >= _LONG else lib.quick
        told = ctypes.byref(self._read, _Read.told.offset)
        self.status: int = library.svid_token_open(self.at, text, lib.size(len(text)), told)

    def close(self) -> None:
        """Frees what it holds. Closing twice does nothing."""
        lib.quick.svid_token_close(self.at)


def evidence(rows: bytes, text: bytes, verifies: Verifies) -> Evidence:
    """Looks for the key that made a signature, by what `svid_validator_ask_token` wrote."""
    (length,) = _LEN.unpack_from(rows)
    signed, (signature, at) = text[:length], _field(rows, _LEN.size)
    for alg, key, key_size in _keys(rows[at:]):
        if _is_yes(verifies(alg, key, signed, signature)):
            size = lib.size(len(signature))
            return key, key_size, signed, lib.size(length), signature, size
    return NO_KEY


@functools.lru_cache(maxsize=16)  # (a key may have 64 kB)
def _keys(rows: bytes) -> list[tuple[str, bytes, Any]]:
    """The keys that rows have, with algorithm and length. Many tokens have the same."""
    keys, at = [], 0
    while at < len(rows):
        alg, at = _field(rows, at)
        key, at = _field(rows, at)
        keys.append((alg.decode(), key, lib.size(len(key))))
    return keys


def _field(rows: bytes, at: int) -> tuple[bytes, int]:
    """The field that begins here, which has its length in front of it, and where it ends."""
    (length,) = _LEN.unpack_from(rows, at)
    end = at + _LEN.size + length
    return rows[end - length : end], end


def _is_yes(answer: object) -> bool:
    """Whether a verifier says yes. (The coroutine of an async one is true of any signature.)"""
    if not isinstance(answer, bool):
        raise TypeError(f"verifies returns True or False, and not a {type(answer).__name__}")
    return answer
