"""What the statuses of the C library say in words. The library has the texts (include/svid.h)."""

from __future__ import annotations

import functools
from collections.abc import Callable

from . import _library as lib

# lists:begin due (written by tools/lists from lists/statuses.toml)
DUE: dict[int, str] = {
    11: "4A 53 52, which is JSR, and then 02 or 01",
    12: "01 for a batch, or 02 for a summary, which only version 2 has",
    13: "a number of at most 65,536 uses, or of 4,096 in version 1",
    14: "a use whose last byte is 00 or 01",
    15: "a use that expires after the batch's moment",
    16: "a use that was made at the batch's moment or before it",
    17: "a use that is greater than the one before it",
    18: "the rest of the message",
}
# lists:end
"""What is due where messages are at fault, by status."""

# lists:begin reasons (written by tools/lists from lists/statuses.toml)
REASONS: dict[int, str] = {
    2: "NoMemory",
    9: "ClockJump",
    58: "NotClaimed",
    59: "EntriesLost",
    201: "NotJudged",
    202: "NotKept",
    203: "NotJudged",
    **dict.fromkeys(range(211, 223), "NotReady"),
}
# lists:end
"""Why there is no answer about a token, by status: the words of docs/SIDECAR-REFERENCE.md."""


def _written(write: Callable[..., int], status: int) -> tuple[bytes, int]:
    """A text that the library has for a status, and how much of it is no advice."""
    room, told = bytearray(64), lib.Told()
    while write(status, lib.address(room), len(room), lib.address(told)) != lib.OK:
        room = bytearray(told.len)  # (it had no room)
    return bytes(room[: told.len]), told.more


@functools.cache
def _sentences(status: int) -> list[str]:
    """What is wrong, and what to do, where there is something to do: a sentence each."""
    text, before = _written(lib.quick.svid_status_sentence, status)
    return [it.decode() for it in (text[:before], text[before + 1 :]) if it]


@functools.cache
def reason(status: int) -> str:
    """The name of a status, as docs/FORMATS.md has it: "UseKind"."""
    name, _ = _written(lib.quick.svid_status_name, status)
    return "".join(it.capitalize() for it in name.decode().removeprefix("SVID_").split("_"))


def said(status: int, where: str = "") -> str:
    """What a status says: what is wrong, where that is, and what to do."""
    wrong, *advice = _sentences(status)
    return " ".join(filter(None, (wrong, where, *advice)))


def clause(status: int) -> str:
    """What is wrong, and what to do, as a part of a sentence."""
    return ": ".join(it[0].lower() + it[1:].removesuffix(".") for it in _sentences(status))


def message_words(name: str) -> str:
    """Why bytes are no messages, by the name of the reason, as the rest of a sentence."""
    status = next((it for it in lib.MESSAGE_FAULTS if reason(it) == name), None)
    if status is None:
        return "these are no messages"
    return clause(status) + (f", and due is {DUE[status]}" if status in DUE else "")


def no_memory() -> MemoryError:
    """What a call raises that has no memory."""
    return MemoryError(said(lib.NO_MEMORY))
