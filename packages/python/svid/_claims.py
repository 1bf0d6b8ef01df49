"""Claims on their way to the store of a group. Threads of their own put them, many in a call."""

from __future__ import annotations

import contextlib
import logging
import os
import struct
import threading
import time
import weakref
from collections.abc import Callable, Sequence
from typing import NamedTuple, Protocol, cast

from . import _library as lib
from ._ending import Ending
from ._looks import Looks
from .errors import Closed, Forked
from .stores import Claim, Found, Store, TellingStore

_LOG = logging.getLogger("svid")
_FOUND = struct.Struct("=QQ32s")
_MOST = 256
"""How many claims share a call."""
_LONGEST = 60.0
"""For how many seconds a thread waits at once."""
_REST = 0.05
"""How many seconds a thread rests that had no memory."""
_HEARS = 1.0
"""How many seconds pass between two looks at the store's withdrawals."""


class Due(NamedTuple):
    """A claim that is due."""

    number: int
    """The number of the request that it is for."""
    key: bytes
    expires: int
    validator_id: bytes


class Claimant(Protocol):
    """Who the claims are for."""

    def send(self, due: Due) -> Claim | None:
        """The claim as it goes out now. None if it is not to go out any more."""

    def found(self, number: int, found: bytes) -> None:
        """The store has answered the claim of this request."""

    def reached(self) -> None:
        """The store has answered for the first time."""

    def heard(self, these: Sequence[tuple[bytes, int]], is_whole: bool) -> None:
        """The store tells of withdrawals. Whole: there are no more at the moment."""

    def now(self) -> int:
        """The time, in seconds since 1970."""


def up() -> int:
    """The moment of the clock that only goes ahead, in milliseconds."""
    return int(time.monotonic() * 1000)


class Claims:
    """The claims of a validator. The library says when a call to the store goes out."""

    def __init__(self, store: Store, claimant: Claimant, tells: bool) -> None:
        """tells: the store's withdrawals are read too."""
        self._store = store
        self._tells = tells
        self._claimant = weakref.ref(claimant)  # (its threads must not keep a validator)
        self._process = os.getpid()
        self._gate = threading.Condition()  # guards what follows
        self._waiting: list[Due] = []
        self._later: list[tuple[int, list[Due]]] = []  # without an answer: when they are put again
        self._pacing = lib.Pacing(*lib.PACING_FIRST)
        self._pacing_at = lib.address(self._pacing)
        self._idle = 0  # threads that wait for claims
        self._asks = True  # whether the store is to say that it is there
        self._silent: float | None = None  # since when the store does not answer
        self._untold: float | None = None  # since when it does not tell withdrawals
        self._closing = False
        self._ended = Ending()  # what reads withdrawals is to end
        self.looks = Looks(self._ended)
        self._heard = threading.Event()  # all withdrawals were read once
        self.deaf = 0
        self.is_there = False  # the store has answered once
        self._announced = threading.Event()  # the claimant knows that too

    def begin(self, wait: float) -> None:
        """Begins to put claims, and waits until the store answers, but at most for `wait`.

        Then it has told its withdrawals too.
        """
        self._grow()
        if self._tells:
            threading.Thread(target=self._hear, name="svid-withdrawals", daemon=True).start()
        end = time.monotonic() + wait
        self._announced.wait(wait)
        if self._tells:
            self._heard.wait(max(end - time.monotonic(), 0))

    def add(self, due: Due) -> None:
        """Puts a claim, and again until the store answers or the claim is not to go out."""
        with self._gate:
            self._waiting.append(due)
            self._gate.notify()

    def withdraw(
        self, key: bytes, expires: int, told: Callable[[BaseException | None], None]
    ) -> None:
        """Withdraws a token in the background, and tells why that failed, or None."""

        def work() -> None:
            try:
                self._store.withdraw(key, expires)
            except BaseException as why:  # (a store may raise anything)
                told(why)
            else:
                told(None)

        try:
            threading.Thread(target=work, name="svid-withdraw", daemon=True).start()
        except RuntimeError as why:  # (the process may have no other thread)
            told(why)

    def look(self, wait: float) -> bool:
        """Whether the store has not answered for longer than `wait`. If so it is asked again."""
        with self._gate:
            if self._silent is not None:
                self._asks = True
                self._gate.notify()
            since = [it for it in (self._silent, self._untold) if it is not None]
        return bool(since) and time.monotonic() - min(since) > wait

    def close(self) -> None:
        """Lets the threads end. Waits for nothing, since the store may not answer."""
        if self._process == os.getpid():
            with self._gate:
                self._closing = True
                self._gate.notify_all()
            self._ended.set()
            self.looks.close()

    def _grow(self) -> None:
        threading.Thread(target=self._work, name="svid-claims", daemon=True).start()

    def _work(self) -> None:
        """Puts claims until it is closed. One thread more than calls are under way does so."""
        while True:
            try:
                if (these := self._next()) is None:
                    return
                fault = None
                try:
                    found = self._found(these)
                except BaseException as why:  # (a store may raise anything)
                    fault = why
                pause = self._over(fault is None)
                if fault is None:
                    self._answered([due for due, _ in these], found)
                else:
                    self._failed([due for due, _ in these], fault, pause)
            except MemoryError:  # (whoever waits is late, and later claims need a thread)
                time.sleep(_REST)
                self._asks = True  # (nobody may know what the store has answered)

    def _found(self, these: list[tuple[Due, Claim]]) -> list[tuple[bytes, int] | Exception]:
        """What the store answers to claims. Raises what it does where none has an answer."""
        # (a store that sorted a list in place would give each answer to another request)
        claims = tuple(claim for _, claim in these)
        # (one of them may have an answer though another one has none)
        put = getattr(self._store, "put_each", self._store.put)
        found = [_packed(it) for it in put(claims)]
        if len(found) != len(these):
            raise ValueError(f"{len(these)} claims have {len(found)} answers")
        faults = [it for it in found if isinstance(it, Exception)]
        if faults and len(faults) == len(found):
            raise faults[0]
        return found

    def _over(self, is_answered: bool) -> int:
        """A call is over. Says how many milliseconds its claims rest, if they have no answer."""
        with self._gate:
            if is_answered:
                lib.quick.svid_pacing_answered(self._pacing_at)
                return 0
            pause: int = lib.quick.svid_pacing_unanswered(self._pacing_at)
            return pause

    def _hear(self) -> None:
        """Reads the store's withdrawals once a second, until it is closed."""
        position, last, was_well = "", "", True
        while not self._ended.is_set():
            try:
                if self._untold is None:
                    self._untold = time.monotonic()
                self.looks.begin(self._now())
                position, last = last, self._heard_after(last)
                self._untold, was_well = None, True
            except (Closed, Forked):
                return
            except BaseException as why:  # (a store may raise anything)
                position = last
                if was_well:
                    with contextlib.suppress(Exception):
                        _LOG.warning("the group's store tells no withdrawals: %s", why)
                was_well = False
            if position == last:
                self.looks.end()
                self._ended.wait(_HEARS)

    def _now(self) -> int:
        """The claimant's time."""
        claimant = self._claimant()
        if claimant is None:
            raise Closed
        return claimant.now()

    def _heard_after(self, position: str) -> str:
        """Reads the withdrawals that came after a position, and says up to which it has read."""
        these, last = cast(TellingStore, self._store).withdrawals(position)
        claimant = self._claimant()
        if claimant is None:
            raise Closed
        claimant.heard(these, last == position)
        if last == position:
            self._heard.set()
        return last

    def _next(self) -> list[tuple[Due, Claim]] | None:
        """The claims of the next call, once it is to go out. None at the end."""
        with self._gate:
            self._idle += 1
            try:
                while not self._closing:
                    if (these := self._taken()) is not None:
                        return these
                    self._gate.wait(self._pause())
                return None
            finally:
                self._idle -= 1

    def _taken(self) -> list[tuple[Due, Claim]] | None:
        """The claims that go out now. None if no call is to go out."""
        moment = up()
        for when, these in self._later:
            if when <= moment:
                self._waiting += these
                self._asks = self._asks or not self.is_there
        self._later = [it for it in self._later if it[0] > moment]
        waiting = len(self._waiting) + self._asks
        if not lib.quick.svid_pacing_may_send(self._pacing_at, moment, waiting):
            return None
        these, self._waiting = self._waiting[:_MOST], self._waiting[_MOST:]
        claimant = self._claimant()
        claims = [(it, claim) for it in these if claimant and (claim := claimant.send(it))]
        if not claims and not self._asks:
            return None
        if self._silent is None:
            self._silent = time.monotonic()
        if self._idle == 1:
            # (the process may have no other thread, or no memory for it)
            with contextlib.suppress(RuntimeError, MemoryError):
                self._grow()
        self._asks = False
        lib.quick.svid_pacing_sent(self._pacing_at, moment)  # (from here on nothing may fail)
        return claims

    def _pause(self) -> float | None:
        """For how many seconds nothing is to be done."""
        moments = [when for when, _ in self._later]
        if self._waiting or self._asks:
            moments.append(lib.quick.svid_pacing_due(self._pacing_at))
        return min(_LONGEST, max(0, min(moments) - up()) / 1000) if moments else None

    def _answered(self, these: list[Due], found: list[tuple[bytes, int] | Exception]) -> None:
        """The store has answered a call. A claim without an answer is put again."""
        answers = [(due, it) for due, it in zip(these, found) if not isinstance(it, Exception)]
        others = [due for due, it in zip(these, found) if isinstance(it, Exception)]
        with self._gate:
            self._silent = self._silent if others else None
            self.deaf = max([self.deaf, *(deaf for _, (_, deaf) in answers)])
            self.is_there = True
            if others:
                self._later.append((up() + self._pacing.pause, others))
        claimant = self._claimant()
        if claimant is None:
            return
        with contextlib.suppress(Closed, Forked):
            if not self._announced.is_set():
                claimant.reached()
                self._announced.set()
            for due, (answer, _) in answers:
                claimant.found(due.number, answer)

    def _failed(self, these: list[Due], why: BaseException, pause: int) -> None:
        """A call has ended without an answer: its claims are put again."""
        with self._gate:
            self._later.append((up() + pause, these))
        if pause == lib.PACING_FIRST[2]:  # (it had answered before)
            with contextlib.suppress(Exception):  # (who is warned must not end the claims)
                _LOG.warning("the group's store does not answer: %s", why)


def _packed(found: Found | Exception) -> tuple[bytes, int] | Exception:
    """A store's answer as the library takes it, and its `deaf`. Or why there is none."""
    if isinstance(found, Exception):
        return found
    if len(found.owner) != 32:
        raise ValueError("an owner has 32 bytes")
    return _FOUND.pack(found.time, found.deaf, found.owner), found.deaf
