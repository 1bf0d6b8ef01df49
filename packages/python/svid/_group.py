"""What the stores of a group have alike, whatever server keeps them."""

from __future__ import annotations

import abc
import contextlib
import logging
import math
import os
import select
import socket
import struct
import threading
import time
import weakref
from collections.abc import Sequence
from typing import NamedTuple, TypeVar

from . import _library as lib
from . import _scripts
from . import _statements
from .errors import Error, Forked
from .stores import WITHDRAWN, Claim, Found

DEFAULT_LONGEST = 3600
DEFAULT_AHEAD = 30
DEFAULT_WAIT = 2.0
CELL = 33
_MOST_WAIT = 86_400.0  # (calls of the system take some weeks at the most)
_MOST_LASTS = 1 << 52  # (servers count in numbers of 53 bits, and add a time)
_LONGEST_ERROR = 1024
_LOG = logging.getLogger("svid")
_WITHDRAWAL = struct.Struct(">32sQ")
_FAULTS = {**_statements.FAULTS, **_scripts.FAULTS}
_Self = TypeVar("_Self", bound="GroupStore")


class StoreFault(Error):
    """The store has no answer. Nobody knows what it has: the same call may be made again.

    `name` says why: "missing" (there is no store), "rights", "unfit" (the server may lose entries,
    or the members don't agree), "epoch", "late" (the token expires too late), "silent", ..
    """

    def __init__(self, name: str, more: str = "") -> None:
        super().__init__(name, more)
        self.name = name
        self._more = more

    def __str__(self) -> str:
        return _FAULTS.get(self.name, "") + self._more


class State(NamedTuple):
    """What a store is at the moment."""

    epoch: str
    """Names one history of the store in which nothing was lost."""
    deaf: int
    """As in `Found`."""
    time: int
    """The store's time in seconds since 1970."""


class GroupStore(abc.ABC):
    """A member of a group's store. It is for any number of threads."""

    def _begin_group(
        self, servers: Sequence[str], replicas: int, wait: float, terms: tuple[int, int, int]
    ) -> None:
        """Begins without a thread. terms: lasts, the margin for members' clocks, and back."""
        if not servers or replicas < 1 or not 0 < wait < math.inf:
            raise ValueError("give a server, at least 1 of replicas, and a wait of some seconds")
        self._lasts, margin, self._back = terms
        if self._lasts >= _MOST_LASTS:
            raise ValueError("longest is too great for a store: with twice ahead it is below 2**52")
        self._margin = margin + self._back
        self._replicas, self._wait = replicas, min(wait, _MOST_WAIT)
        self._process = os.getpid()
        self._end = End()
        self._turn = threading.Lock()  # who looks at the store has it
        self._lock = threading.Lock()  # guards what follows
        self._epoch: str | None = None
        self._position = ""  # up to which withdrawals are read
        self._heard = False  # they were read to the end once
        self._withdrawn: dict[bytes, int] = {}

    def _watch(self) -> None:
        """Looks at the store once a second from now on."""
        threading.Thread(
            target=_watch, args=(weakref.ref(self), self._end), name="svid-store", daemon=True
        ).start()

    def __enter__(self: _Self) -> _Self:
        return self

    def __exit__(self, *_: object) -> None:
        self.close()

    @abc.abstractmethod
    def close(self) -> None:
        """Ends all connections, and the calls that are under way."""

    def put(self, claims: Sequence[Claim]) -> list[Found]:
        """As `Store.put`. Raises StoreFault, for all claims of a call where one has no answer.

        A token that was withdrawn after it was claimed has the owner WITHDRAWN within a second.
        """
        found = []
        for it in self.put_each(claims):
            if isinstance(it, StoreFault):
                raise it
            found.append(it)
        return found

    def put_each(self, claims: Sequence[Claim]) -> list[Found | StoreFault]:
        """As `put`, but each claim has an answer of its own, or why it has none.

        So one server of a Cluster that is away stops none of the others.
        """
        end = self._until()
        if self._epoch is None or not self._heard or not claims:
            if self._look(end)[1]:
                raise StoreFault("run")
            self._hear(end)
        answers = self._put_each(claims, end)
        with self._lock:
            return [
                it._replace(owner=WITHDRAWN)
                if isinstance(it, Found) and claim.key in self._withdrawn
                else it
                for claim, it in zip(claims, answers)
            ]

    def withdraw(self, key: bytes, expires: int) -> None:
        """As `Store.withdraw`. Raises StoreFault."""
        self._withdraw(key, expires, self._until())
        with self._lock:
            self._know([(key, expires)])

    def withdrawals(self, after: str = "") -> tuple[list[tuple[bytes, int]], str]:
        """The keys that were withdrawn after a position, and when their tokens expire.

        Returns some of them, and the position up to which they are read. Ask again until it stays.
        The first position is "". Raises StoreFault.
        """
        return self._withdrawals(after, self._until())

    def state(self) -> State:
        """Looks at the store, and says what it is. Raises StoreFault."""
        return self._look(self._until())[0]

    def _until(self) -> float:
        return time.monotonic() + self._wait

    @abc.abstractmethod
    def _look(self, end: float) -> tuple[State, int]:
        """Looks at the store. Also says for how many milliseconds no claim has an answer yet."""

    @abc.abstractmethod
    def _put_each(self, claims: Sequence[Claim], end: float) -> list[Found | StoreFault]:
        """Puts claims. Each has an answer of its own, or why it has none."""

    @abc.abstractmethod
    def _withdraw(self, key: bytes, expires: int, end: float) -> bytes:
        """Withdraws a token, and returns whose claim is there: WITHDRAWN if none."""

    @abc.abstractmethod
    def _withdrawals(self, after: str, end: float) -> tuple[list[tuple[bytes, int]], str]:
        """The withdrawals after a position, and the position up to which they are read."""

    def _hear(self, end: float) -> None:
        """Reads the withdrawals that have come."""
        while True:
            after = self._position
            these, last = self._withdrawals(after, end)
            with self._lock:
                self._know(these)
                self._position = last
            if last == after:
                self._heard = True
                return

    def _know(self, these: Sequence[tuple[bytes, int]]) -> None:
        """Keeps withdrawals in mind. One that ends earlier takes none back."""
        for key, expires in these:
            self._withdrawn[key] = max(expires, self._withdrawn.get(key, 0))

    def _forget(self, moment: int) -> None:
        """Forgets withdrawals that are over."""
        with self._lock:
            over = [
                it for it, expires in self._withdrawn.items() if expires + self._margin < moment
            ]
            for it in over:
                del self._withdrawn[it]

    def _same_process(self) -> None:
        if self._process != os.getpid():
            raise Forked
        if self._end.is_set:
            raise StoreFault("closed")


def terms_of(longest: int, ahead: int) -> tuple[int, int, int]:
    """The terms of a member: lasts, the margin for members' clocks, and back."""
    margin = max(ahead, _statements.LEAST_MARGIN // 1000)
    return lib.quick.svid_claim_until(longest, 2 * ahead), margin, _statements.STEP_BACK // 1000


def _watch(of: weakref.ref[GroupStore], end: End) -> None:
    """Looks at a store once a second until it is closed or dropped."""
    why = ""
    while True:
        store = of()
        if store is None or end.is_set:
            end.set()
            return
        begun = time.monotonic()
        fault: Exception | None = None
        try:
            state, _ = store._look(begun + _statements.STATE_WAIT / 1000)
            store._forget(state.time)
        except Exception as now:
            fault = now
        try:  # (the server that has the withdrawals may be there though another one is not)
            store._hear(time.monotonic() + _statements.HEAR_WAIT / 1000)
        except Exception as now:
            fault = fault or now
        compares = getattr(fault, "name", "") == "run"
        if fault and not (why or end.is_set or compares):
            # (a record that somebody keeps must not keep the store)
            _warn("the group's store can't be looked at: %s", str(fault))
        if not compares:
            why = (str(fault) or "unknown") if fault else ""
        del store, fault
        end.wait(max(0.0, begun + _statements.STATE_EVERY / 1000 - time.monotonic()))


def _warn(text: str, *words: object) -> None:
    with contextlib.suppress(Exception):  # (who is warned must not end a call)
        _LOG.warning(text, *words)


def warn_of_end(deaf: int) -> None:
    """Warns of the end of an epoch."""
    _warn(
        "the epoch of the group's store has ended: tokens that expire by %d "
        "may have been claimed before",
        deaf,
    )


class Answer(NamedTuple):
    """What a call like put answers."""

    status: int
    time: int
    deaf: int
    epoch: str
    cells: bytes


def found_of(answer: Answer, claim: Claim, n: int) -> Found | StoreFault:
    """What is answered to one of the claims."""
    if not answer.cells:  # (each is there by this call)
        return Found(claim.owner, answer.time, answer.deaf)
    cell = answer.cells[n * CELL : (n + 1) * CELL]
    if cell[0] in (1, _statements.STORED):
        return Found(cell[1:], answer.time, answer.deaf)
    return StoreFault(_statements.OF_CELL.get(cell[0], "answer"))


def withdrawals_of(these: bytes) -> list[tuple[bytes, int]]:
    """Reads withdrawals, as a store tells them."""
    if len(these) % _WITHDRAWAL.size:
        raise StoreFault("answer")
    return [(key, expires) for key, expires in _WITHDRAWAL.iter_unpack(these)]


def brief(text: str) -> str:
    """What a server says, cut."""
    text = text.strip()
    return (
        text
        if len(text) <= _LONGEST_ERROR
        else f"{text[:_LONGEST_ERROR]}.. ({len(text)} characters)"
    )


class End:
    """The end of a store: an event that also ends the polling of whoever polls it."""

    def __init__(self) -> None:
        self._reader, self._writer = socket.socketpair()
        self.is_set = False

    def fileno(self) -> int:
        return self._reader.fileno()

    def set(self) -> None:
        self.is_set = True
        self._writer.close()

    def wait(self, seconds: float) -> None:
        """Waits for so long, or until the end."""
        poll = select.poll()  # (which takes a descriptor of any number)
        poll.register(self._reader, select.POLLIN)
        poll.poll(seconds * 1000)
