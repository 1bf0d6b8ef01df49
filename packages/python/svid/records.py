"""What a validator answers: an acceptance, a use, and a report of the record."""

from __future__ import annotations

import json
import struct
from collections import defaultdict
from collections.abc import Iterable
from dataclasses import dataclass, field
from typing import Any

from . import _library as lib
from ._token import payload, says
from ._words import no_memory, reason, said
from .errors import BadMessages

__all__ = ["Accepted", "Report", "Use"]

_ENTRY = struct.Struct("@QQQ32s16s")
"""`svid_entry`, as the C library has it in memory."""
_LEAST = 64
"""So many bytes an entry takes in messages, or more."""


# (Each check makes one of these two. A frozen one would take four times as long.)
@dataclass(slots=True, unsafe_hash=True)
class Use:
    """One entry of a record: a token was accepted, or withdrawn."""

    expires: int
    """When the token expires, in seconds since 1970. The entry is dropped then."""
    key: bytes
    """32 bytes by which all uses of the token are known."""
    validator_id: bytes
    """16 bytes that name the validator that made the entry."""
    at: int
    """The record's moment when the entry was made, in seconds since 1970."""
    withdrawn: bool = False
    """Whether the token was withdrawn, and not accepted."""

    @property
    def message(self) -> bytes:
        """The entry as a message of 82 bytes, for `Validator.take` of other validators.

        Raises ValueError if it expires when it was made, or before: no message can tell it.
        """
        return batches([self])


def batches(uses: Iterable[Use]) -> bytes:
    """Uses as messages: those that were made at one moment share a batch.

    Raises ValueError if one of them expires when it was made, or before.
    """
    packed = [_ENTRY.pack(it.withdrawn, it.expires, it.at, it.key, it.validator_id) for it in uses]
    entries, told = b"".join(packed), lib.Told(len=lib.BATCH_OF_LEN * len(packed))
    status = lib.TOO_SHORT
    while status == lib.TOO_SHORT:
        room = bytearray(told.len)
        lent = (lib.address(room) if room else None, len(room), lib.address(told))
        status = lib.quick.svid_entries_write(entries, len(packed), *lent)
    if status == lib.NO_MEMORY:
        raise no_memory()
    if status != lib.OK:
        where = f"It is number {told.offset} of the uses, counted from 0."
        raise ValueError(said(status, where))
    return bytes(room[: told.len])


def entries(messages: bytes) -> list[tuple[Any, ...]]:
    """The entries of messages, as `svid_entry` has them; none where these are no messages."""
    try:
        return entries_of(messages)
    except BadMessages:
        return []


def entries_of(messages: bytes) -> list[tuple[Any, ...]]:
    """The same. Raises BadMessages where these are no messages."""
    told, room = lib.Told(), bytearray(_ENTRY.size * (len(messages) // _LEAST + 1))
    lent = (messages, len(messages), lib.address(room), len(room) // _ENTRY.size)
    status = lib.library.svid_entries_read(*lent, lib.address(told))
    if status == lib.NO_MEMORY:
        raise no_memory()
    if status != lib.OK:
        raise BadMessages(reason(status), told.message, told.offset)
    return [*_ENTRY.iter_unpack(room[: told.len * _ENTRY.size])]


def news_of_twice(before: bytes, messages: bytes) -> list[bytes]:
    """The keys of tokens that were accepted more than once, by these messages and not before."""
    had: defaultdict[bytes, set[object]] = defaultdict(set)
    has: defaultdict[bytes, set[object]] = defaultdict(set)
    for uses, these in (had, before), (has, messages):
        for withdrawn, *times, key, validator_id in entries(these):
            if not withdrawn:
                uses[key].add((*times, validator_id))
    return [key for key, uses in has.items() if len(had[key]) < 2 <= len(had[key] | uses)]


@dataclass(slots=True, unsafe_hash=True)
class Accepted:
    """A token that a validator accepted."""

    spiffe_id: str
    """The SPIFFE ID of the token's subject, as "spiffe://example.org/billing/api"."""
    use: Use
    """What the record has gained; of `judge`, what it would have."""
    _token: bytes = field(default=b"", repr=False, compare=False)
    _own: tuple[str, ...] = field(default=(), repr=False, compare=False)

    @property
    def claims(self) -> dict[str, Any]:
        """The claims of the token, as `json.loads` reads its payload."""
        claims: dict[str, Any] = json.loads(payload(self._token))
        return claims

    @property
    def audience(self) -> str:
        """The first of the validator's audiences that the token names."""
        named = says(self._token).audiences
        return next(it for it in self._own if it in named)

    @property
    def key_id(self) -> str | None:
        """The ID of the key that the token names (`kid`), if it names one."""
        return says(self._token).key_id or None

    @property
    def expires(self) -> int:
        """When the token expires, in seconds since 1970."""
        return self.use.expires

    @property
    def trust_domain(self) -> str:
        """The trust domain of the subject, as "example.org"."""
        return self._parts()[0]

    @property
    def path(self) -> str:
        """The path of the subject with its first "/", as "/billing/api"; "" where it has none."""
        return self._parts()[1]

    def _parts(self) -> tuple[str, str]:
        """The trust domain and the path, where the library cuts the ID."""
        text, cut = self.spiffe_id.encode(), lib.Id()
        if lib.quick.svid_id_parse(text, len(text), lib.address(cut)) != lib.OK:
            raise ValueError(f"{self.spiffe_id!r} is no SPIFFE ID")
        path = len(text) - cut.path_len
        return text[path - cut.domain_len : path].decode(), text[path:].decode()


@dataclass(frozen=True)
class Report:
    """What a record holds."""

    moment: int
    """The time that the record has seen, in seconds since 1970."""
    uses: tuple[Use, ...]
    """All entries, the first to expire first."""
    twice: dict[bytes, int]
    """The keys of tokens that were accepted more than once, each with the number of its uses."""

    @classmethod
    def of(cls, messages: bytes) -> Report:
        """What messages hold. Raises BadMessages."""
        told, room = lib.Told(), bytearray(1)
        while True:
            lent = (messages, len(messages), 0, lib.address(room), len(room))
            status = lib.library.svid_report(*lent, lib.address(told))
            if status == lib.OK:
                return cls.parse(room[: told.len].decode())
            if status == lib.NO_MEMORY:
                raise no_memory()
            if status != lib.TOO_SHORT:
                raise BadMessages(reason(status), told.message, told.offset)
            room = bytearray(told.len)

    @classmethod
    def parse(cls, text: str) -> Report:
        """Reads what `svid report` prints (docs/FORMATS.md)."""
        lines = iter(text.splitlines())
        moment, uses = (int(next(lines).split(" ")[1]) for _ in range(2))
        entries = tuple(_entry(next(lines)) for _ in range(uses))
        next(lines)
        twice = (line.split(" ") for line in lines)
        return cls(moment, entries, {bytes.fromhex(key): int(count) for key, count in twice})


def _entry(line: str) -> Use:
    expires, key, validator_id, at, *withdrawn = line.split(" ")
    return Use(
        int(expires),
        bytes.fromhex(key),
        bytes.fromhex(validator_id),
        int(at),
        withdrawn == ["withdrawn"],
    )
