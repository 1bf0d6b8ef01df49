"""One `svid_validator` of the C library, with the lock that orders its calls."""

from __future__ import annotations

import ctypes
import os
import struct
import threading
import weakref
from collections.abc import Callable, Iterator
from typing import Any

from . import _library as lib
from ._bundles import Edition, bundle_words
from ._signatures import Verifies
from ._token import NO_KEY, Token, evidence, says
from ._words import REASONS, no_memory, reason, said
from .errors import (
    REFUSALS,
    BadBundles,
    BadMessages,
    Closed,
    Forked,
    Gone,
    Jump,
    NotAllowed,
    TooFar,
    Unavailable,
    UnknownDomain,
)
from .records import Accepted, Use, entries, news_of_twice

_USE = struct.Struct("=QQ32s16s")
_MOST = lib.size(lib.MOST_CANDIDATES)
_ROOM = 65_536
_TELLS = 2**22
_ROOM_SIZE = lib.size(_ROOM)

_Call = Callable[..., int]


class _LeftBehind:
    """What a fork has instead of the lock."""

    def __enter__(self) -> None:
        raise Forked

    def __exit__(self, *_: object) -> None:
        """Is not called."""


class Handle:
    """An open validator of the C library. A call holds the lock for as long as the library runs.

    All times are whole seconds since 1970, and `now` is the time of the call. Every call may raise
    Closed, Forked, and MemoryError where the library has no memory; every call with `now` may raise
    Jump, and every call that takes messages TooFar and BadMessages.
    """

    def __init__(
        self,
        *,
        longest: int,
        ahead: int,
        step: int,
        validator_id: bytes,
        own: list[bytes],
        bundles: bytes,
        edition: Edition,
    ) -> None:
        """Opens it, for these audiences. Raises BadBundles."""
        self._lock: threading.Lock | _LeftBehind = threading.Lock()
        self._words = (ctypes.c_uint64 * 2)()
        self._told = lib.Told()
        self._room = bytearray(_ROOM)
        self._view = memoryview(self._room)
        self._used = bytearray(_USE.size)
        self._at = lib.address(self._words)
        self._told_at = lib.address(self._told)
        self._room_at = lib.address(self._room)
        self._used_at = lib.address(self._used)
        self._out = (self._room_at, _ROOM_SIZE, self._used_at)
        self._bundles = edition  # another one for each renewal
        terms = lib.Terms(longest, ahead, step, (ctypes.c_uint8 * 16)(*validator_id))
        names, lens = b"".join(own), (ctypes.c_size_t * len(own))(*map(len, own))
        lent = (lib.address(terms), names, len(names), lib.address(lens), len(own))
        opens = lib.library.svid_validator_open_by_lengths
        status = opens(self._at, *lent, bundles, len(bundles), self._told_at)
        if status != lib.OK:
            raise _bundles_fault(status, self._told)
        self._freeing = weakref.finalize(self, _close, self._words)
        self._freeing.atexit = False  # a thread that outlives the interpreter may be in a call
        _handles.add(self)

    def close(self) -> None:
        """Frees what the validator holds. Does nothing to a closed one, and nothing in a fork."""
        if self._freeing.alive:
            with self._lock:
                self._freeing()
                self._end()

    def _end(self) -> None:
        """The validator is closed, and the lock is held."""

    def leave_behind(self) -> None:
        """Leaves it to the parent process: the fork may have come while a thread was in a call."""
        self._freeing.detach()
        self._lock = _LeftBehind()

    def stand(self) -> None:
        """Raises Forked, and waits for nothing."""
        if isinstance(self._lock, _LeftBehind):
            raise Forked

    def renew(self, bundles: bytes, edition: Edition) -> None:
        """Replaces the bundles. Raises BadBundles, and then the old ones stay.

        They are read before the lock is taken, and the old ones are freed after it.
        edition: another object than that of the old ones.
        """
        words, told = (ctypes.c_uint64 * 2)(), lib.Told()
        at = lib.address(words)
        status = lib.library.svid_bundles_open(at, bundles, len(bundles), lib.address(told))
        if status != lib.OK:
            raise _bundles_fault(status, told)
        try:
            with self._lock:
                status = lib.library.svid_validator_renew_by(self._at, at, self._told_at)
                if status != lib.OK:
                    raise self._fault(status)
                self._bundles = edition
                self._renewed()
        finally:
            lib.library.svid_bundles_close(at)

    def _renewed(self) -> None:
        """The bundles are other ones, and the lock is held."""

    def read(self, text: bytes, now: int) -> Token:
        """Reads a token. Raises Refused for what is none, and then advances the record too."""
        token = Token(text)
        if token.status != lib.OK:
            self.tick(now)
            raise fault(token.status, token.told)
        return token

    def judge(self, token: Token, now: int, verifies: Verifies) -> Accepted:
        """Says what a check would, and adds nothing. Raises Refused."""
        call, at = lib.quick.svid_validator_judge_token, (self._at, lib.moment(now))
        while True:
            self.find(token, verifies)
            with self._lock:
                if token.bundles is not self._bundles:
                    continue
                status = call(*at, *token.evidence, token.at, *self._out, self._told_at)
                if status != lib.OK:
                    raise self._refusal(status, token)
                expires, moment, key, validator_id = _USE.unpack(self._used)
                return Accepted(self._subject(), Use(expires, key, validator_id, moment))

    def find(self, token: Token, verifies: Verifies) -> None:
        """Finds the key that made the signature of a token, among those of the bundles now.

        The lock is free while signatures are verified.
        """
        ask: _Call = lib.quick.svid_validator_ask_token
        with self._lock:
            token.bundles = self._bundles
            lent = (token.at, _MOST)
            status = ask(self._at, *lent, self._room_at, _ROOM_SIZE, self._told_at)
            if status == lib.OK:
                rows = self._view[: self._told.len].tobytes()
            elif status in REFUSALS:
                rows = b""  # Another reason may come before this one, and `now` is to be told.
            else:
                rows = self._rest(status, ask, *lent)
        token.evidence = evidence(rows, token.text, verifies) if rows else NO_KEY

    def withdraw(self, now: int, key: bytes, expires: int) -> Use:
        """Withdraws the token with this key of 32 bytes. Raises Gone."""
        with self._lock:
            lent = (now, key, expires, self._used_at, self._told_at)
            status = lib.library.svid_validator_withdraw(self._at, *lent)
            if status != lib.OK:
                raise self._fault(status)
            expires, at, key, validator_id = _USE.unpack(self._used)
        return Use(expires, key, validator_id, at, withdrawn=True)

    def tick(self, now: int) -> None:
        """Advances the record."""
        self._run(lib.library.svid_validator_tick, now)

    def take(self, now: int, messages: bytes) -> None:
        """Joins the record with what the messages tell."""
        self._run(lib.library.svid_validator_take, now, messages, len(messages))

    def take_and_tell(self, now: int, messages: bytes) -> list[bytes]:
        """Does so, and says which tokens it learns to be accepted more than once.

        Of more than 4 MiB of messages it says none: `report` has them.
        """
        looked_at = entries(messages) if len(messages) <= _TELLS else []
        keys = [key for *_, key, _ in looked_at]
        with self._lock:
            beside = b"".join(self._bucket(it) for it in {key[0] for key in keys})
            status = lib.library.svid_validator_take(
                self._at, now, messages, len(messages), self._told_at
            )
            if status != lib.OK:
                raise self._fault(status)
        if len(set(keys)) == len(keys) and not any(key in beside for key in keys):
            return []
        return news_of_twice(beside, messages)

    def has_withdrawal(self, key: bytes, expires: int) -> bool:
        """Whether the record has this very withdrawal."""
        with self._lock:
            beside = self._bucket(key[0])
        return key in beside and any(
            (withdrawn, until, of) == (1, expires, key)
            for withdrawn, until, _, of, _ in entries(beside)
        )

    def parts(self, size: int) -> Iterator[bytes]:
        """The record, a batch of at most so many bytes at a time, with the lock free in between."""
        part, room = lib.Part(), bytearray(size)
        lent = (lib.address(part), lib.address(room), len(room))
        while not part.done:
            written = self._run(lib.library.svid_validator_parts, *lent)
            yield bytes(room[:written])

    def summary(self) -> bytes:
        """The summary of the record."""
        return self._written(lib.library.svid_validator_summary)

    def answer(self, now: int, summary: bytes) -> bytes:
        """The answer to the summary of another validator."""
        return self._written(lib.library.svid_validator_answer, now, summary, len(summary))

    def _subject(self) -> str:
        """The subject that the last call has written."""
        return self._room[: self._told.len].decode()

    def _run(self, call: _Call, *lent: Any) -> int:
        """Makes a call, and gives the length that it tells."""
        with self._lock:
            status = call(self._at, *lent, self._told_at)
            if status != lib.OK:
                raise self._fault(status)
            return self._told.len

    def _written(self, call: _Call, *lent: Any) -> bytes:
        """What a call writes, in a room that is long enough."""
        with self._lock:
            return self._text(call, *lent)

    def _bucket(self, number: int) -> bytes:
        """The entries whose keys begin with this byte, as messages, with the lock held."""
        return self._text(lib.library.svid_validator_bucket, number, 0)

    def _text(self, call: _Call, *lent: Any) -> bytes:
        """What a call writes, with the lock held."""
        status = call(self._at, *lent, self._room_at, _ROOM, self._told_at)
        if status == lib.OK:
            return bytes(self._room[: self._told.len])
        return self._rest(status, call, *lent)

    def _rest(self, status: int, call: _Call, *lent: Any) -> bytes:
        """What a call writes that had this status, with the lock held: now in a longer room."""
        if status != lib.TOO_SHORT:
            raise self._fault(status)
        room = bytearray(self._told.len)
        size = ctypes.c_size_t(len(room))
        status = call(self._at, *lent, lib.address(room), size, self._told_at)
        if status != lib.OK:
            raise self._fault(status)
        return bytes(room)

    def _refusal(self, status: int, token: Token) -> Exception:
        """The exception for a status of a token, which was judged by `token.bundles`."""
        if REFUSALS.get(status) is UnknownDomain and token.bundles is not None:
            domain = says(token.text).trust_domain
            if token.bundles.awaits(domain):
                return Unavailable(f"the bundle of {domain} was not read yet", "NoBundle")
        return self._fault(status)

    def _fault(self, status: int) -> Exception:
        return fault(status, self._told)


def fault(status: int, told: lib.Told | None = None) -> Exception:
    """The exception for a status that is not OK."""
    if status in REFUSALS:
        return REFUSALS[status]()
    if status in _FAULTS:
        return _FAULTS[status]()
    if status in REASONS:
        return Unavailable(said(status), REASONS[status])
    if told and status in lib.MESSAGE_FAULTS:
        return BadMessages(reason(status), told.message, told.offset)
    return RuntimeError(f"libsvid answered {status}, which include/svid.h does not explain")


def _bundles_fault(status: int, told: lib.Told) -> Exception:
    """The exception for a status of a call that has read bundles that is not OK."""
    if status == lib.TOO_MUCH:
        return BadBundles(said(status))
    if status in (
        lib.BUNDLES_NOT_OBJECT,
        lib.BUNDLES_DOMAIN,
        lib.BUNDLES_KEYS,
        lib.BUNDLES_UNNAMED,
    ):
        return BadBundles(bundle_words(status, told.offset))
    return fault(status, told)


_FAULTS: dict[int, Callable[[], Exception]] = {
    lib.NO_MEMORY: no_memory,
    lib.CLOSED: Closed,
    lib.GONE: Gone,
    lib.TOO_FAR: TooFar,
    lib.JUMP: Jump,
    lib.NOT_ALLOWED: NotAllowed,
}


def _close(words: ctypes.Array[ctypes.c_uint64]) -> None:
    lib.library.svid_validator_close(lib.address(words))


def _leave_all() -> None:
    for handle in list(_handles):
        handle.leave_behind()


_handles: weakref.WeakSet[Handle] = weakref.WeakSet()
os.register_at_fork(after_in_child=_leave_all)
