"""The member of a validator: which request is answered, and what has to be done before.

The C library decides (include/svid.h, "A member"). Here stand a map from the numbers of requests to
the threads that wait for their answers, and what the library says is to be done.
"""

from __future__ import annotations

import contextlib
import ctypes
import functools
import os
import queue
import struct
import threading
import time
import weakref
from collections.abc import Callable, Sequence
from typing import Any, NamedTuple, TypeVar

from . import _library as lib
from ._bundles import Edition
from ._claims import Claims, Due, up
from ._handle import Handle, fault
from ._journal import Journal
from ._signatures import Verifies
from ._token import Token
from ._words import REASONS, said
from .errors import Closed, Error, Gone, Jump, Unavailable
from .records import Accepted, Use
from .stores import Claim, Store

_DEED = struct.Struct("=QQQQQQ32s16s")
_BEGIN = struct.Struct("=QQ")  # what is to be done, and for which request
_LONGEST = 2.0**63
_LOOKS = 0.75
"""For which part of its time a request waits until withdrawals are read."""
_Call = Callable[..., int]
_T = TypeVar("_T")


class _Deed(NamedTuple):
    """`svid_deed`: what is to be done for a request."""

    what: int
    number: int
    status: int
    next: int
    expires: int
    at: int
    key: bytes
    validator_id: bytes


class _Outcome(NamedTuple):
    """`svid_withdrawal`: what became of a withdrawal at its keepers."""

    disk: int
    store: int


_Steps = queue.SimpleQueue[_Deed | bytes | Exception]
"""What comes to a request: what is to be done, an answer of the store, or why nothing comes."""
_Ends = queue.SimpleQueue[_Outcome | Exception]
"""What comes to a withdrawal."""


class Request:
    """A token on its way to an answer. Its thread does what comes by `steps`."""

    __slots__ = (
        *("token", "clock", "caller", "verifies"),
        *("steps", "number", "end", "subject", "is_writing", "why"),
    )

    def __init__(
        self, token: Token, clock: Callable[[], int], caller: bytes, verifies: Verifies
    ) -> None:
        """clock: gives the time of each call. caller: 32 bytes that say who presents the token."""
        self.token = token
        self.clock = clock
        self.caller = caller
        self.verifies = verifies
        self.steps: _Steps = queue.SimpleQueue()
        self.number = lib.NONE
        self.end = 0.0  # when it is late
        self.subject = ""
        self.is_writing = False  # its use is on its way to the disk
        self.why: Exception | None = None  # why the disk did not take it


class Member(Handle):
    """A validator that answers requests."""

    def __init__(
        self,
        *,
        mode: str,
        wait: float,
        callers: tuple[str, ...] | None,
        journal: Journal | None,
        store: Store | None,
        longest: int,
        ahead: int,
        step: int,
        validator_id: bytes,
        own: list[bytes],
        bundles: bytes,
        edition: Edition,
        clock: Callable[[float | None], int],
    ) -> None:
        """Opens it. It judges no token before `begin`.

        clock: gives the time of now.
        """
        super().__init__(
            longest=longest,
            ahead=ahead,
            step=step,
            validator_id=validator_id,
            own=own,
            bundles=bundles,
            edition=edition,
        )
        self._wait = min(wait, threading.TIMEOUT_MAX)
        self._longest = longest
        self._journal = journal
        self._clock = clock
        tells = mode != "strict" and hasattr(store, "withdrawals")
        self._claims = None if store is None else Claims(store, self, tells)
        self._looks = None if self._claims is None or not tells else self._claims.looks
        self._has_heard = not tells
        late = "NotClaimed" if mode in ("strict", "bound") else "NotKept"
        self._reasons = {**REASONS, lib.LATE: late if journal or store else "NotJudged"}
        if self._claims is not None:
            weakref.finalize(self, self._claims.close).atexit = False
        self._life = os.urandom(16)
        self._known = lib.Known(loaded=1, joined=1, caught_up=1)
        self._known_at = lib.address(self._known)
        self._is_bound = mode == "bound"
        self._open: dict[int, Request] = {}
        self._withdrawals: dict[int, _Ends] = {}
        self._unkept: tuple[Request, bytes] | None = None  # what the disk did not take last
        self._deed = bytearray(_DEED.size)
        self._deed_at = lib.address(self._deed)
        self._due, self._made = lib.Deadline(), lib.Withdrawal()
        self._due_at, self._made_at = lib.address(self._due), lib.address(self._made)
        has = (journal is not None, store is not None, False)
        within, lasts = int(min(wait * 1000, _LONGEST)), min(longest + 2 * ahead, lib.NO_LIMIT)
        life = (ctypes.c_uint8 * 16)(*self._life)
        given = lib.MemberTerms(lib.MODES[mode], *has, within, ahead, lasts, life)
        self._make(lib.quick.svid_member_open, lib.address(given))
        if callers is not None:
            names, patterns = b"\n".join(own), "\n".join(callers).encode()
            lent = (names, len(names), 0, patterns, len(patterns))
            self._make(lib.library.svid_member_rules, *lent)

    def begin(self) -> None:
        """The record is read: tokens are judged from now on, or once the store is there."""
        self._know()
        if self._claims is not None:
            self._claims.begin(self._wait)

    def close(self) -> None:
        """Frees it. Whoever waits for an answer gets Closed."""
        if self._claims is not None:
            self._claims.close()
        super().close()

    def _end(self) -> None:
        for request in self._open.values():
            request.steps.put(Closed())
        for ends in self._withdrawals.values():
            ends.put(Closed())
        self._open.clear()

    def check(
        self, text: bytes, clock: Callable[[], int], caller: bytes, verifies: Verifies
    ) -> Accepted:
        """Answers a token. Raises Refused, NotAllowed and Unavailable."""
        request = Request(self.read(text, clock()), clock, caller, verifies)
        try:
            self._come(request)
            self._look()
            return self._see_through(request)
        finally:
            self._leave(request)
            request.token.close()

    def judge(self, token: Token, now: int, verifies: Verifies) -> Accepted:
        """As `Handle.judge`. It looks at the store's withdrawals first where that is due."""
        self.stand()
        self._look()
        return super().judge(token, now, verifies)

    def looks_first(self) -> bool:
        """Whether a token waits until the store's withdrawals are read."""
        return self._looks is not None and self._looks.is_due(self.now())

    def in_time(self, come: float) -> None:
        """Raises Unavailable if a request that came at this moment is late."""
        if time.monotonic() - come > self._wait:
            raise Unavailable(said(lib.LATE), self._reasons[lib.LATE])

    def withdraw(self, now: int, key: bytes, expires: int) -> Use:
        """Withdraws a token, everywhere. Raises Gone, and Unavailable if a keeper may lack it."""
        use = super().withdraw(now, key, expires)
        ends: _Ends = queue.SimpleQueue()
        with self._lock:
            self._check(lib.quick.svid_withdrawal_come(self._at, up(), self._made_at))
            number = self._made.number
            self._withdrawals[number] = ends
            end = time.monotonic() + self._wait
        try:
            self._bring(number, use)
            ended = self._next(ends, end)
        finally:
            with self._lock:
                self._withdrawals.pop(number, None)
        if isinstance(ended, Exception):
            raise ended
        if lib.MAY_LACK in ended:
            raise Unavailable(
                "the token is withdrawn here, but the state folder or the group's store may not "
                "have that: withdraw it again"
            )
        return use

    def unready(self, now: int) -> str | None:
        """The first reason why the validator is to get no tokens, as a sentence."""
        try:
            self.tick(now)
            self._know(now)
        except Jump:
            self._know(now, jumped=True)
        self._keep_again()
        with self._lock:
            status = lib.quick.svid_member_ready(self._at)
        if status not in lib.UNREADY:
            self._check(status)
            return None
        return said(status)

    # -- For the claims

    def send(self, due: Due) -> Claim | None:
        """The claim of a request, if it is to go out now."""
        owner = bytearray(32)
        with contextlib.suppress(Closed), self._lock:
            request = self._open.get(due.number)
            self._check(lib.quick.svid_member_send(self._at, up(), due.number, self._deed_at))
            if request is not None and self._read().what == lib.DEED_CLAIM:
                self._own(request, due, lib.address(owner))
                return Claim(due.key, bytes(owner), due.expires)
            self._hand()
        return None

    def found(self, number: int, found: bytes) -> None:
        """The store has answered the claim of a request."""
        with self._lock:
            request = self._open.get(number)
        if request is not None:
            request.steps.put(found)

    def reached(self) -> None:
        """The store is there."""
        self._know()

    def heard(self, these: Sequence[tuple[bytes, int]], is_whole: bool) -> None:
        """The store tells of withdrawals. Whole: there are no more at the moment."""
        for key, expires in these:
            if not self.has_withdrawal(key, expires):
                with contextlib.suppress(Gone):
                    use = super().withdraw(self._clock(None), key, expires)
                    if self._journal is not None:
                        self._journal.keep(use.message, _nothing)
        if is_whole and not self._has_heard:
            self._has_heard = True
            self._know()

    def now(self) -> int:
        """The time, in seconds since 1970."""
        return self._clock(None)

    def _own(self, request: Request, due: Due, owner: Any) -> None:
        """Writes whose the claim of a request is."""
        if self._is_bound:
            lib.quick.svid_claim_owner_of_caller(request.caller, due.expires, owner)
        else:
            lib.quick.svid_claim_owner(due.validator_id, self._life, due.expires, owner)

    # -- The way of a request

    def _come(self, request: Request) -> None:
        with self._lock:
            come = lib.quick.svid_member_come
            self._check(come(self._at, lib.moment(up()), self._deed_at))
            what, request.number = _BEGIN.unpack_from(self._deed)
            if what != lib.DEED_JUDGE:
                raise Unavailable("no more requests can be told apart: open another validator")
            self._open[request.number] = request
            request.end = time.monotonic() + self._wait

    def _look(self) -> None:
        """Waits until the store's withdrawals are read, where nobody has looked for long."""
        if self._looks is not None and self._looks.is_due(now := self.now()):
            self._looks.wait(now, _LOOKS * self._wait)

    def _see_through(self, request: Request) -> Accepted:
        """Does what is to be done for a request, until it is answered."""
        self._ask(request, lib.quick.svid_member_judge)
        while True:
            step = self._next(request.steps, request.end)
            if isinstance(step, bytes):
                self._ask(request, lib.quick.svid_member_found, request.caller, step)
            elif isinstance(step, Exception):
                raise step
            elif step.what == lib.DEED_JUDGE:
                self._ask(request, lib.quick.svid_member_judge)
            elif step.what == lib.DEED_APPEND and self._journal is not None:
                self._keep(self._journal, request, step)
            elif step.what == lib.DEED_CLAIM and self._claims is not None:
                due = Due(step.number, step.key, step.expires, step.validator_id)
                self._claims.add(due)
            else:
                return self._answered(request, step)

    def _ask(self, request: Request, call: _Call, *about: Any) -> None:
        """Makes a call by which the validator judges the token."""
        token = request.token
        while True:
            if token.bundles is not self._bundles:
                self.find(token, request.verifies)
            with self._lock:
                if token.bundles is not self._bundles:
                    continue
                moments = (lib.moment(request.clock()), lib.moment(up()))
                lent = (*moments, lib.moment(request.number), *about, *token.evidence, token.at)
                status = call(self._at, *lent, *self._out, self._deed_at, self._told_at)
                if status in (lib.CLOSED, lib.JUMP):  # (nothing happened)
                    raise self._fault(status)
                if status == lib.OK:
                    request.subject = self._subject()
                self._hand()
                return

    def _keep(self, journal: Journal, request: Request, deed: _Deed) -> None:
        """Brings a use to the disk."""
        use = Use(deed.expires, deed.key, deed.validator_id, deed.at).message
        request.is_writing = True
        journal.keep(use, functools.partial(self._wrote, request, use))

    def _wrote(self, request: Request, use: bytes, why: Exception | None) -> None:
        """The disk has a use, or may not have it."""
        with contextlib.suppress(Closed), self._lock:
            request.is_writing = False
            request.why = why
            self._unkept = None if why is None else (request, use)
            self._tell(lib.quick.svid_member_wrote, up(), request.number, why is None)

    def _keep_again(self) -> None:
        """Tries again to keep the last use that the disk did not take."""
        unkept, self._unkept = self._unkept, None
        if unkept is not None and self._journal is not None:
            self._journal.keep(unkept[1], functools.partial(self._wrote, *unkept))

    def _answered(self, request: Request, deed: _Deed) -> Accepted:
        """What an answer says. Raises Refused, NotAllowed and Unavailable."""
        if deed.status == lib.OK:
            use = Use(deed.expires, deed.key, deed.validator_id, deed.at)
            return Accepted(request.subject, use)
        with self._lock:
            if request.is_writing:  # (the disk hangs, until it says otherwise)
                self._tell(lib.quick.svid_member_wrote, up(), request.number, False)
        if deed.status in self._reasons:
            text = said(deed.status) + (f" ({request.why})" if request.why else "")
            raise Unavailable(text, self._reasons[deed.status]) from request.why
        raise self._refusal(deed.status, request.token)

    def _leave(self, request: Request) -> None:
        """Nobody waits for the answer any more."""
        if request.number in self._open:
            with contextlib.suppress(Error), self._lock:
                self._tell(lib.quick.svid_member_leave, up(), request.number)

    def _next(self, steps: queue.SimpleQueue[_T], end: float) -> _T:
        """The next step. Whatever is due meanwhile is answered that it is late.

        end: when it is late itself. One comes by then, unless there was no memory to hand it on.
        """
        while True:
            try:
                return steps.get_nowait()
            except queue.Empty:
                left = end - time.monotonic()
                with contextlib.suppress(queue.Empty):
                    return steps.get(timeout=min(self._until_due(), max(left, 0)))
                self._overdue()
                if left < 0 and steps.empty():
                    raise Unavailable(said(lib.LATE), self._reasons[lib.LATE]) from None

    def _until_due(self) -> float:
        """For how many seconds nothing is due."""
        with self._lock:
            self._check(lib.quick.svid_member_due(self._at, self._due_at))
            due = self._due.at
        return min(max(due / 1000 - time.monotonic(), 0), threading.TIMEOUT_MAX)

    def _overdue(self) -> None:
        """Answers whatever is due."""
        with self._lock:
            overdue, moment = lib.quick.svid_member_overdue, up()
            while self._tell(overdue, moment).what != lib.DEED_NOTHING:
                pass
            while self._ended(lib.quick.svid_withdrawal_overdue, moment):
                pass

    # -- Calls, with the lock held

    def _tell(self, call: _Call, *lent: Any) -> _Deed:
        """Makes a call, and hands on what is to be done."""
        self._check(call(self._at, *lent, self._deed_at))
        return self._hand()

    def _read(self) -> _Deed:
        """What the last call says is to be done."""
        return _Deed._make(_DEED.unpack(self._deed))

    def _hand(self) -> _Deed:
        """Hands what is to be done to the thread whose request it is for."""
        deed = self._read()
        if deed.what == lib.DEED_ANSWER:
            request = self._open.pop(deed.number, None)
            if deed.next != lib.NONE:
                again = deed._replace(what=lib.DEED_JUDGE, number=deed.next)
                self._open[deed.next].steps.put(again)
        else:
            request = self._open.get(deed.number) if deed.what != lib.DEED_NOTHING else None
        if request is not None:
            request.steps.put(deed)
        return deed

    def _ended(self, call: _Call, *lent: Any) -> bool:
        """Makes a call, and hands on the withdrawal that has ended, if one has."""
        self._check(call(self._at, *lent, self._made_at))
        steps = self._withdrawals.pop(self._made.number, None)
        if steps is not None:
            steps.put(_Outcome(self._made.disk, self._made.store))
        return self._made.number != lib.NONE

    def _check(self, status: int) -> None:
        if status != lib.OK:
            raise fault(status)

    def _renewed(self) -> None:
        self._known.bundled = self._bundles.is_there
        self._check(lib.quick.svid_member_know(self._at, self._known_at))

    # -- Calls that take the lock

    def _make(self, call: _Call, *lent: Any) -> None:
        with self._lock:
            self._check(call(self._at, *lent))

    def _know(self, now: int = 0, jumped: bool = False) -> None:
        """Tells the library what the validator has."""
        claims = self._claims
        away = claims is not None and claims.look(self._wait)
        deaf = claims is not None and claims.deaf >= now + self._longest
        with self._lock:
            known = self._known
            known.away, known.deaf, known.jumped = away, deaf, jumped
            # (read with the lock held: who looked earlier must not say later that the store was
            # not reached)
            known.opened = claims is None or claims.is_there
            known.heard = self._has_heard
            self._renewed()

    def _bring(self, number: int, use: Use) -> None:
        """Brings a withdrawal to its keepers."""
        self._told_of(number, lib.AT_LOG, None)
        at_disk = functools.partial(self._told_of, number, lib.AT_DISK)
        at_store = functools.partial(self._told_of, number, lib.AT_STORE)
        if self._claims is None:
            at_store(None)
        else:
            self._claims.withdraw(use.key, use.expires, at_store)
        if self._journal is None:
            at_disk(None)
        else:
            self._journal.keep(use.message, at_disk)

    def _told_of(self, number: int, keeper: int, why: BaseException | None) -> None:
        """A keeper has a withdrawal, or may not have it."""
        with contextlib.suppress(Closed), self._lock:
            self._ended(lib.quick.svid_withdrawal_told, number, keeper, why is None)


def _nothing(_: Exception | None) -> None:
    """The store has the withdrawal, whether the disk takes it or not."""
