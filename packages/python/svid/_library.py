"""The C library libsvid: where it is, and the calls of include/svid.h that this package makes.

A pointer to a room, a structure or a validator is its `address`, and an input is `bytes` with its
length.
"""

from __future__ import annotations

import ctypes
import os
import pathlib
from ctypes import c_char, c_char_p, c_size_t, c_uint8, c_uint32, c_uint64, c_void_p
from typing import Any, TypeVar

_Library = TypeVar("_Library", ctypes.CDLL, ctypes.PyDLL)

OK = 0
TOO_SHORT = 1
NO_MEMORY = 2
TOO_MUCH = 3
NOT_SUMMARY = 4
CLOSED = 5
GONE = 7
TOO_FAR = 8
JUMP = 9

MAGIC = 11
MESSAGE_FAULTS = (TOO_MUCH, NOT_SUMMARY, *range(MAGIC, 19))
"""Why bytes are no messages."""

BEARER_SEVERAL = 82
BEARER_SCHEME = 83
BEARER_SPELLING = 84
NOT_ALLOWED = 91
CLAIM_FAR = 58
CLAIM_DEAF = 59
TOO_LONG = 101
LATE = 201
NOT_KEPT = 202
LEFT = 203
UNREADY = range(211, 223)
"""Why a member judges no token, or why none is to be sent to it."""

FOLDER_FAULTS = range(41, 52)
"""Why a state folder takes no call."""
FILE_END = 52
FILE_TEAR = 53
FILE_DAMAGE = 54
FILE_OTHER = 55

MODES = {"once": 0, "strict": 1, "bound": 2, "reuse": 3}
"""The modes of a member, by their names."""
DEED_NOTHING = 0
DEED_JUDGE = 1
DEED_APPEND = 2
DEED_CLAIM = 3
DEED_ANSWER = 4
AT_DISK = 0
AT_STORE = 1
AT_LOG = 2
MAY_LACK = 2
"""What `svid_withdrawal` has where the withdrawal may not be."""
NONE = 2**64 - 1
"""No request, no withdrawal, no moment."""

CALL_NOTHING = 0
CALL_CREATE_JOURNAL = 1
CALL_SYNC_FOLDER = 2
CALL_WRITE_SNAPSHOT = 3
CALL_SYNC_SNAPSHOT = 4
CALL_RENAME_SNAPSHOT = 5
CALL_REMOVE_JOURNAL = 6

BUNDLES_NOT_OBJECT = 31
BUNDLES_DOMAIN = 32
BUNDLES_KEYS = 33
BUNDLES_UNNAMED = 37
BUNDLES_TWICE = 38

MOST_CANDIDATES = 3
"""How many keys are tried for a token."""
SPKI_ROOM = 2100
"""Enough room for any key as SubjectPublicKeyInfo."""
USUAL_RSA_BITS = 4096
RSA_BITS = range(2048, 16_384 + 1)
"""How many bits an RSA key may be let have."""
BATCH_OF_LEN = 82
"""The most bytes that a use takes in messages."""
INPUT_MOST = 67_108_864
NO_LIMIT = 2**64 - 1
PAYLOAD_MOST = 16_777_215
"""The most bytes that one frame of a state folder bears."""
FRAME_MORE = 39
"""How many bytes a frame has at most beside its payload."""


class Told(ctypes.Structure):
    """`svid_told`: what a call tells beside its status."""

    _fields_ = [
        ("len", c_size_t),
        ("input", c_size_t),
        ("message", c_size_t),
        ("offset", c_size_t),
        ("more", c_size_t),
    ]
    len: int
    input: int
    message: int
    offset: int
    more: int


class Bearer(ctypes.Structure):
    """`svid_bearer`: where a bearer token stands in the value of its header."""

    _fields_ = [("at", c_size_t), ("len", c_size_t)]
    at: int
    len: int


class Said(ctypes.Structure):
    """`svid_said`: what a token says, beside its texts."""

    _fields_ = [("key", c_uint8 * 32), ("exp", c_uint64), ("texts", c_size_t)]
    key: ctypes.Array[c_uint8]
    exp: int
    texts: int


class Id(ctypes.Structure):
    """`svid_id`: the lengths of an ID's parts, or the offset of its fault."""

    _fields_ = [("offset", c_size_t), ("domain_len", c_size_t), ("path_len", c_size_t)]
    offset: int
    domain_len: int
    path_len: int


class Document(ctypes.Structure):
    """`svid_document`: how long a document of trust bundles and its name are, and what it is."""

    _fields_ = [("name_len", c_size_t), ("text_len", c_size_t), ("keys", c_uint64)]
    name_len: int
    text_len: int
    keys: int


class Terms(ctypes.Structure):
    """`svid_terms`: what a validator is given for its whole life."""

    _fields_ = [
        ("longest", c_uint64),
        ("ahead", c_uint64),
        ("step", c_uint64),
        ("validator_id", c_uint8 * 16),
    ]


class Part(ctypes.Structure):
    """`svid_part`: how far the record is written."""

    _fields_ = [
        ("begun", c_uint64),
        ("done", c_uint64),
        ("withdrawn", c_uint64),
        ("exp", c_uint64),
        ("at", c_uint64),
        ("key", c_uint8 * 32),
        ("validator_id", c_uint8 * 16),
    ]
    done: int


class Mark(ctypes.Structure):
    """`svid_mark`: what a payload says that is not of a record."""

    _fields_ = [("passed", c_uint64), ("begun", c_size_t), ("deaf", c_uint64)]


class Bears(ctypes.Structure):
    """`svid_bears`: what a payload bears."""

    _fields_ = [("mark", Mark), ("marked", c_size_t), ("messages", c_size_t)]
    messages: int


class Folder(ctypes.Structure):
    """`svid_folder`: how a state folder stands."""

    _fields_ = [
        ("step", c_uint64),
        ("oldest", c_uint64),
        ("newest", c_uint64),
        ("ended", c_uint64),
        ("count", c_uint64),
        ("end", c_uint64),
        ("flying", c_uint64),
        ("pieces", c_uint64),
    ]
    newest: int
    end: int


class Due(ctypes.Structure):
    """`svid_due`: a call of the system, and the number of a journal."""

    _fields_ = [("call", c_uint64), ("journal", c_uint64)]
    call: int
    journal: int


class Reader(ctypes.Structure):
    """`svid_reader`: how far a file is read."""

    _fields_ = [("count", c_uint64), ("at", c_uint64), ("marked", c_uint64)]
    at: int


class Frame(ctypes.Structure):
    """`svid_frame`: where in the bytes of a file a payload stands."""

    _fields_ = [("payload", c_size_t), ("len", c_size_t), ("format", c_uint64)]
    payload: int
    len: int
    format: int


class MemberTerms(ctypes.Structure):
    """`svid_member_terms`: what a member is given for its life."""

    _fields_ = [
        ("mode", c_uint64),
        ("disk", c_uint64),
        ("store", c_uint64),
        ("log", c_uint64),
        ("wait", c_uint64),
        ("ahead", c_uint64),
        ("lasts", c_uint64),
        ("life", c_uint8 * 16),
    ]


class Known(ctypes.Structure):
    """`svid_known`: what a member knows, as its calls say."""

    _fields_ = [
        ("bundled", c_uint64),
        ("loaded", c_uint64),
        ("opened", c_uint64),
        ("heard", c_uint64),
        ("joined", c_uint64),
        ("caught_up", c_uint64),
        ("draining", c_uint64),
        ("jumped", c_uint64),
        ("full", c_uint64),
        ("away", c_uint64),
        ("deaf", c_uint64),
        ("ended", c_uint64),
    ]


class Deadline(ctypes.Structure):
    """`svid_deadline`: a moment by the clock that only goes ahead."""

    _fields_ = [("at", c_uint64)]
    at: int


class Withdrawal(ctypes.Structure):
    """`svid_withdrawal`: how far a withdrawal is at each place."""

    _fields_ = [("number", c_uint64), ("disk", c_uint64), ("store", c_uint64), ("log", c_uint64)]
    number: int
    disk: int
    store: int


class Pacing(ctypes.Structure):
    """`svid_pacing`: when the claims that wait go out."""

    _fields_ = [("calls", c_uint64), ("at", c_uint64), ("pause", c_uint64)]


PACING_FIRST = (0, 0, 10)

_MAJOR = 3
_LENT = [c_char_p, c_size_t]
_OUT = [c_void_p, c_size_t]
_TOLD = [c_void_p]
_VALIDATOR = [c_void_p]
_NOW = [c_uint64]
_FOLDER = [c_void_p]
_FOLDER_ID = [c_char_p]
_CALLS = {
    "svid_bearer_token": [c_uint64, *_LENT, c_void_p],
    "svid_bundles_join": [*_LENT, c_void_p, c_size_t, *_OUT, *_TOLD],
    "svid_bundles_open": [*_VALIDATOR, *_LENT, *_TOLD],
    "svid_entries_read": [*_LENT, *_OUT, *_TOLD],
    "svid_entries_write": [*_OUT, *_OUT, *_TOLD],
    "svid_id_allows": [*_LENT, *_LENT, c_void_p],
    "svid_id_parse": [*_LENT, c_void_p],
    "svid_journal_answer": [*_FOLDER, c_uint32],
    "svid_journal_begin": _FOLDER,
    "svid_journal_due": [*_FOLDER, c_void_p],
    "svid_journal_failed": _FOLDER,
    "svid_journal_open": [*_FOLDER, c_uint64, c_uint64],
    "svid_journal_piece": [*_FOLDER, *_FOLDER_ID, *_LENT, *_OUT, *_TOLD],
    "svid_journal_put": [*_FOLDER, *_FOLDER_ID, *_LENT, *_OUT, *_TOLD],
    "svid_journal_read": [*_FOLDER_ID, c_uint64, *_LENT, c_void_p, c_void_p],
    "svid_journal_synced": _FOLDER,
    "svid_journal_unwritten": _FOLDER,
    "svid_key_spki": [*_LENT, *_LENT, c_size_t, *_OUT, *_TOLD],
    "svid_token_payload": [*_LENT, *_OUT, *_TOLD],
    "svid_token_says": [*_LENT, c_void_p, *_OUT, *_OUT, *_TOLD],
    "svid_member_due": [*_VALIDATOR, c_void_p],
    "svid_member_know": [*_VALIDATOR, c_void_p],
    "svid_member_leave": [*_VALIDATOR, *_NOW, c_uint64, c_void_p],
    "svid_member_open": [*_VALIDATOR, c_void_p],
    "svid_member_overdue": [*_VALIDATOR, *_NOW, c_void_p],
    "svid_member_ready": _VALIDATOR,
    "svid_member_rules": [*_VALIDATOR, *_LENT, c_uint64, *_LENT],
    "svid_member_send": [*_VALIDATOR, *_NOW, c_uint64, c_void_p],
    "svid_member_wrote": [*_VALIDATOR, *_NOW, c_uint64, c_uint64, c_void_p],
    "svid_pacing_may_send": [c_void_p, *_NOW, c_uint64],
    "svid_report": [*_LENT, *_NOW, *_OUT, *_TOLD],
    "svid_status_name": [c_uint32, *_OUT, *_TOLD],
    "svid_status_sentence": [c_uint32, *_OUT, *_TOLD],
    "svid_validator_answer": [*_VALIDATOR, *_NOW, *_LENT, *_OUT, *_TOLD],
    "svid_validator_bucket": [*_VALIDATOR, c_uint8, *_NOW, *_OUT, *_TOLD],
    "svid_validator_open_by_lengths": [*_VALIDATOR, c_void_p, *_LENT, *_OUT, *_LENT, *_TOLD],
    "svid_validator_renew_by": [*_VALIDATOR, *_VALIDATOR, *_TOLD],
    "svid_validator_parts": [*_VALIDATOR, c_void_p, *_OUT, *_TOLD],
    "svid_validator_summary": [*_VALIDATOR, *_OUT, *_TOLD],
    "svid_validator_take": [*_VALIDATOR, *_NOW, *_LENT, *_TOLD],
    "svid_validator_tick": [*_VALIDATOR, *_NOW, *_TOLD],
    "svid_validator_withdraw": [*_VALIDATOR, *_NOW, c_char_p, c_uint64, c_void_p, *_TOLD],
    "svid_version": [],
    "svid_withdrawal_come": [*_VALIDATOR, *_NOW, c_void_p],
    "svid_withdrawal_overdue": [*_VALIDATOR, *_NOW, c_void_p],
    "svid_withdrawal_told": [*_VALIDATOR, c_uint64, c_uint64, c_uint64, c_void_p],
}
_CALLS_OF_NO_STATUS: dict[str, tuple[list[Any], Any]] = {
    "svid_bundles_close": (_VALIDATOR, None),
    "svid_claim_deaf": ([c_uint64, c_uint64, c_uint64], c_uint64),
    "svid_claim_owner": ([c_char_p, c_char_p, c_uint64, c_void_p], None),
    "svid_claim_owner_of_caller": ([c_char_p, c_uint64, c_void_p], None),
    "svid_claim_until": ([c_uint64, c_uint64], c_uint64),
    "svid_journal_bears": ([*_LENT, c_void_p], None),
    "svid_pacing_answered": ([c_void_p], None),
    "svid_pacing_due": ([c_void_p], c_uint64),
    "svid_pacing_sent": ([c_void_p, *_NOW], None),
    "svid_pacing_unanswered": ([c_void_p], c_uint64),
    "svid_token_close": (_VALIDATOR, None),
    "svid_validator_close": (_VALIDATOR, None),
}
_CALLS_OF_A_CHECK = [
    "svid_member_come",
    "svid_member_found",
    "svid_member_judge",
    "svid_token_open",
    "svid_validator_ask_token",
    "svid_validator_judge_token",
]
"""ctypes converts no argument of these, which would take a twentieth of a check. Each of them is an
`address`, `bytes`, a `size` or a `moment`. Give them no `int`: they would see 32 bits of it."""


def _path() -> str:
    """The library that LIBSVID names, or the one in this package, or the system's."""
    beside = pathlib.Path(__file__).with_name("libsvid.so")
    return os.environ.get("LIBSVID") or (str(beside) if beside.exists() else "libsvid.so.3")


size = c_size_t.from_param
"""A length, as an argument of the calls of a check."""

moment = c_uint64.from_param
"""A time in seconds, as an argument of the calls of a check."""


def address(room: Any) -> Any:
    """Where a structure or a writable buffer is, as an argument. It keeps the room alive."""
    return ctypes.byref(c_char.from_buffer(room))


def _load(path: str, kind: type[_Library]) -> _Library:
    """The library with the types of its calls."""
    try:
        library = kind(path)
    except OSError as error:
        raise ImportError(
            f"the C library of svid can't be loaded: {error}. Install the wheel for your machine, "
            "or let LIBSVID name libsvid.so"
        ) from error
    version: int = library.svid_version()
    if version // 10_000 != _MAJOR:
        raise ImportError(f"{path} has version {version}, and this package needs {_MAJOR}xxxx")
    try:
        for name, takes in _CALLS.items():
            call = getattr(library, name)
            call.argtypes = takes
            call.restype = c_uint32
        for name in _CALLS_OF_A_CHECK:
            getattr(library, name).restype = c_uint32
        for name, (takes, gives) in _CALLS_OF_NO_STATUS.items():
            call = getattr(library, name)
            call.argtypes = takes
            call.restype = gives
    except AttributeError as error:
        raise ImportError(f"{path} has version {version}, which is too old: {error}") from error
    return library


library = _load(_path(), ctypes.CDLL)
"""The library. A call lets other threads run Python in the meantime."""

quick = _load(_path(), ctypes.PyDLL)
"""The same library for calls of some microseconds: no other thread runs Python in the meantime."""
