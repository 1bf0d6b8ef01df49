"""The store of a group in PostgreSQL 15 or later, over psycopg 3 (`pip install svid[postgres]`).

`PostgresStore` is a member of the same store as svidd with `--store postgres://..`: services with
this package and sidecars accept a token once together.
"""

from __future__ import annotations

import contextlib
import os
import re
import select
import struct
import threading
import time
from collections.abc import Callable, Iterator, Sequence
from typing import Any, NamedTuple

import psycopg
from psycopg import conninfo, pq

from . import _statements
from ._group import (
    CELL,
    DEFAULT_AHEAD,
    DEFAULT_LONGEST,
    DEFAULT_WAIT,
    Answer,
    End,
    GroupStore,
    State,
    StoreFault,
    brief,
    found_of,
    terms_of,
    warn_of_end,
    withdrawals_of,
)
from ._moments import Moment
from .stores import WITHDRAWN, Claim, Found

__all__ = ["PostgresStore", "State", "StoreFault"]

_HEAD = struct.Struct(">Bqq16s")
_INTEGERS = (20, 21, 23)
_BYTES = 17
_BINARY = pq.Format.BINARY
_NAME = re.compile(r"(?!pg_)[A-Za-z0-9_-]{1,63}")
_Value = bytes | str | int | None


class PostgresStore(GroupStore):
    """The store of a group in PostgreSQL. An administrator makes it by what `svidd schema` prints.

    It looks at the store once a second, by a thread of its own, until `close`. It is for any number
    of threads. Make it in each process, after a fork.
    """

    def __init__(
        self,
        *servers: str,
        group: str = "svid",
        longest: int = DEFAULT_LONGEST,
        ahead: int = DEFAULT_AHEAD,
        replicas: int = 1,
        wait: float = DEFAULT_WAIT,
    ) -> None:
        """Connects in the background.

        servers: the address of each server, `postgres://USER@HOST/DATABASE?sslmode=verify-full`.
            With several, the one that is the primary is used. Without `sslmode` the server must
            speak TLS, and nobody checks its certificate. A password may stand in PGPASSFILE.
        group: the group's name, which is that of the schema.
        longest, ahead: those of the validators, in seconds.
        replicas: how many servers must have a claim before it counts.
        wait: how many seconds a call may take.

        Raises ValueError for what can't be used.
        """
        if not _NAME.fullmatch(group):
            raise ValueError(
                "group: letters, digits, - and _ alone, at most 63, and not pg_ in front"
            )
        self._begin(servers, group, replicas, wait, terms_of(longest, ahead))
        self._watch()

    def _begin(
        self,
        servers: Sequence[str],
        group: str,
        replicas: int,
        wait: float,
        terms: tuple[int, int, int],
    ) -> None:
        """Begins without a thread."""
        self._begin_group(servers, replicas, wait, terms)
        self._statements = {
            name: text.replace("{S}", f'"{group}"') for name, text in _statements.STATEMENTS.items()
        }
        self._group = group
        self._servers = _Servers(servers, self._statements["role"], self._end)
        self._calls = threading.BoundedSemaphore(_statements.MOST_CALLS)
        # (_lock guards what follows)
        self._idle: list[_Connection] = []
        self._left: list[str] = []  # sessions that may do yet what was given up
        self._unfit: StoreFault | None = None  # why nothing is accepted
        self._marks: list[Claim] = []

    def close(self) -> None:
        """Ends all connections, and the calls that are under way."""
        if self._process == os.getpid():
            self._end.set()
            with self._lock:
                idle, self._idle = self._idle, []
            for it in idle:
                it.close()

    def _look(self, end: float) -> tuple[State, int]:
        """Looks at the store, one thread at a time, and removes what is over.

        Also says for how many milliseconds no claim has an answer yet.
        """
        self._same_process()
        if self._epoch is not None:  # (who hangs here must not hinder the next look)
            end = min(end, time.monotonic() + _statements.STATE_WAIT / 1000)
        if not self._turn.acquire(timeout=max(0, end - time.monotonic())):
            raise StoreFault("silent")
        try:
            self._end_left(end)
            state, wait, due = self._see(end)
            now = time.monotonic()
            half = min(now + 1, (now + end) / 2)
            while due and time.monotonic() < half:
                due = self._call("expire", [], end)[0][0] == _statements.PIECES
            return state, wait
        finally:
            self._turn.release()

    def _see(self, end: float) -> tuple[State, int, bool]:
        """Asks what the store is, and keeps what of that matters to a claim."""
        with self._lock:
            epoch, marks = self._epoch, list(self._marks)
        terms = [self._replicas, self._margin, self._back]
        row = self._call("state", [epoch, *_arrays(marks), *terms], end)[0]
        is_now, deaf, moment, wait, lasts, margin, due, unfit = row
        with self._lock:
            self._unfit = StoreFault("unfit", unfit) if unfit else None
            if self._unfit:
                raise self._unfit
            if self._epoch != is_now:
                ended, self._epoch, self._marks = self._epoch, is_now, []
                if ended is not None:
                    warn_of_end(deaf)
            kept = (it for it in self._marks if it.expires + margin >= moment)
            self._marks = list(kept)
        if lasts < self._lasts:
            self._call("agree", [self._lasts], end)
        return State(is_now, deaf, moment), wait, due == 1

    def _end_left(self, end: float) -> None:
        """Ends what was given up: a call that waits for a standby does so for ever."""
        with self._lock:
            left, self._left = self._left, []
        if left:
            try:
                self._call("terminate", [",".join(left)], end)
            except Exception:
                with self._lock:
                    self._left = left + self._left
                raise

    def _put_each(self, claims: Sequence[Claim], end: float) -> list[Found | StoreFault]:
        """Puts claims. Each has an answer of its own, or why it has none."""
        if not claims:
            return []
        try:
            if len(claims) == 1:
                key, owner, expires = claims[0]
                answer = self._decide("put one", [key, owner, _expiry(expires)], 1, end)
            else:
                answer = self._decide("put", _arrays(claims), len(claims), end)
        except StoreFault as why:
            if why.name == "held" and len(claims) > 1:
                half = len(claims) // 2  # (one of them may hold up all)
                return [
                    *self._put_each(claims[:half], end),
                    *self._put_each(claims[half:], end),
                ]
            return [why] * len(claims)
        found = [found_of(answer, claim, n) for n, claim in enumerate(claims)]
        self._keep(claims, found, answer)
        return found

    def _withdraw(self, key: bytes, expires: int, end: float) -> bytes:
        """Withdraws a token, and returns whose claim is there: WITHDRAWN if none."""
        one = Claim(key, WITHDRAWN, expires)
        answer = self._decide("withdraw", [key, _expiry(expires)], 1, end)
        found = found_of(answer, one, 0)
        if isinstance(found, StoreFault):
            raise found
        if _is_stored(answer, 0):  # (a withdrawal that was there may end earlier)
            self._keep([one], [found], answer)
        return found.owner

    def _withdrawals(self, after: str, end: float) -> tuple[list[tuple[bytes, int]], str]:
        ((last, these),) = self._call("withdrawals", [after.replace("\0", " ")], end)
        return withdrawals_of(these), last

    def _keep(
        self, claims: Sequence[Claim], found: Sequence[Found | StoreFault], answer: Answer
    ) -> None:
        """Keeps claims in mind: each look asks whether they are there.

        Of those that the call stored it is the one that lives longest.
        """
        mine = [n for n, it in enumerate(claims) if getattr(found[n], "owner", None) == it.owner]
        stored = [claims[n] for n in mine if _is_stored(answer, n)]
        with self._lock:
            if self._epoch != answer.epoch:
                return
            for n in mine:
                if not _is_stored(answer, n):
                    self._marks = _marked_late(self._marks, claims[n])
            if stored:
                self._marks = _marked(self._marks, max(stored, key=lambda it: it.expires))

    def _decide(self, name: str, values: list[_Value], count: int, end: float) -> Answer:
        """Calls a function that answers as put does for so many claims.

        Where the answer does not count, looks at the store, so that the next one may.
        """
        if self._epoch is None:
            self._look(end)
        with self._lock:
            epoch, unfit = self._epoch, self._unfit
        if unfit:
            raise unfit
        try:
            if not self._calls.acquire(timeout=max(0, end - time.monotonic())):
                raise StoreFault("silent")
            try:
                rows = self._call(name, values, end, confirm=True)
            finally:
                self._calls.release()
        except StoreFault as why:
            if why.name in ("missing", "alone"):
                self._look(end)
            raise
        answer = _answered(rows, count)
        if answer.status == 0 and answer.epoch == epoch:
            return answer
        if answer.status != _statements.QUARANTINE or answer.epoch != epoch:
            self._look(end)
        raise StoreFault(
            _statements.OF_STATUS.get(answer.status, "answer") if answer.status else "epoch"
        )

    def _call(
        self, name: str, values: Sequence[_Value], end: float, confirm: bool = False
    ) -> list[list[Any]]:
        """Makes a call on a connection to the primary, whose answer counts.

        confirm: other servers must have what it commits, where `replicas` says so. For the server
            it is no error if somebody cancelled the wait for them.
        """
        self._same_process()
        with self._connection(end) as one:
            begun = Moment.now()
            rows = one.call(self._statements[name], values, end)
            if confirm and self._replicas > 1:
                kept = one.call(self._statements["kept"], [self._replicas], end)
                if kept != [[1]]:
                    raise StoreFault("alone")
            if confirm and begun.until(Moment.now()) * 1000 > _statements.SOON:
                # (it may be gone, and who was away would see that later than its answer)
                one.call(self._statements["role"], [], end)
        self._servers.counts(one.at)
        return rows

    @contextlib.contextmanager
    def _connection(self, end: float) -> Iterator[_Connection]:
        """A connection to the primary. After an error it ends, with all that wait."""
        one = self._taken(end)
        try:
            yield one
        except _Answered as why:
            fault = _statements.CODES.get(why.code, "server")
            self._give(one, keep=fault == "held")
            more = f"{self._lacking(end)}" if fault == "rights" else ""
            raise StoreFault(fault, more if fault in _statements.FAULTS else str(why)) from why
        except BaseException as why:
            with self._lock:
                if len(self._left) < _statements.MOST_LEFT:
                    self._left.append(one.session)
            self._give(one, keep=False)
            if isinstance(why, psycopg.Error):
                raise StoreFault("server", brief(str(why))) from why
            raise
        self._give(one, keep=True)

    def _taken(self, end: float) -> _Connection:
        while True:
            with self._lock:
                one = self._idle.pop() if self._idle else None
            if one is None:
                break
            try:
                self._servers.counts(one.at)
                return one
            except StoreFault:
                one.close()
        at = self._servers.await_primary(end)
        dial = min(end, time.monotonic() + _statements.DIAL_WAIT / 1000)
        try:
            one, role = _reach(at, self._servers.role, self._end, dial)
            if not role.primary:
                one.close()
                raise StoreFault("standby")
            try:
                one.session = one.call(self._statements["session"], [], dial)[0][-1]
            except BaseException:
                one.close()
                raise
            return one
        except (psycopg.Error, _Answered) as why:
            raise StoreFault("server", f"address {at.number}: {brief(str(why))}") from why

    def _give(self, one: _Connection, keep: bool) -> None:
        ended = [] if keep else [one]
        with self._lock:
            if not keep:
                ended += self._idle
                self._idle = []
            elif self._end.is_set or len(self._idle) > _statements.MOST_CALLS:
                ended.append(one)
            else:
                self._idle.append(one)
        for it in ended:
            it.close()

    def _lacking(self, end: float) -> str:
        """The rights that are missing, as SQL; "" where that is unknown."""
        with contextlib.suppress(StoreFault), self._connection(end) as one:
            found = one.call(self._statements["lacking"], [self._group], end)[0][0]
            return f": {found}" if found else ""
        return ""


def _answered(rows: list[list[Any]], count: int) -> Answer:
    """Reads an answer for so many claims."""
    answer = rows[0][0] if len(rows) == 1 and len(rows[0]) == 1 else None
    if not isinstance(answer, bytes) or len(answer) not in (_HEAD.size, _HEAD.size + count * CELL):
        raise StoreFault("answer")
    status, moment, deaf, epoch = _HEAD.unpack_from(answer)
    digits = epoch.hex()
    name = "-".join((digits[:8], digits[8:12], digits[12:16], digits[16:20], digits[20:]))
    return Answer(status, moment, deaf, name, answer[_HEAD.size :])


def _is_stored(answer: Answer, n: int) -> bool:
    """Whether the call stored the claim with a number, where it is there."""
    return not answer.cells or answer.cells[n * CELL] == _statements.STORED


def _marked_late(marks: list[Claim], one: Claim) -> list[Claim]:
    """Marks with one more, which an earlier call had stored, whose answer may not have come.

    Its order at the server is not known.
    """
    if any(it.key == one.key for it in marks):
        return marks
    older, last = marks[: -_statements.RECENT_MARKS], marks[-_statements.RECENT_MARKS :]
    if len(older) == _statements.MOST_MARKS - _statements.RECENT_MARKS:
        older.pop()
    older = sorted([*older, one], key=lambda it: -it.expires)
    return [*older, *last]


def _marked(marks: list[Claim], one: Claim) -> list[Claim]:
    """Marks with one more: the last ones, and before them those that outlive all that came later.

    What a store loses at its end is the last claim, or some of the last. So one of the marks is
    lost too, while it has not expired.
    """
    marks = [*marks, one]
    older, last = marks[: -_statements.RECENT_MARKS], marks[-_statements.RECENT_MARKS :]
    if older:
        newest = older.pop()
        while older and older[-1].expires <= newest.expires:
            older.pop()
        if len(older) == _statements.MOST_MARKS - _statements.RECENT_MARKS:
            older.pop()  # (the one before it in time says nearly as much)
        older.append(newest)
    return older + last


def _expiry(expires: int) -> int:
    return min(expires, _statements.MOST_EXPIRY)


def _arrays(claims: Sequence[Claim]) -> list[_Value]:
    """The arguments of put, as arrays in text."""
    keys = ",".join(f'"\\\\x{it.key.hex()}"' for it in claims)
    owners = ",".join(f'"\\\\x{it.owner.hex()}"' for it in claims)
    ends = ",".join(str(_expiry(it.expires)) for it in claims)
    return [f"{{{keys}}}", f"{{{owners}}}", f"{{{ends}}}"]


class _Answered(Exception):
    """The server answered an error."""

    def __init__(self, code: str, message: str) -> None:
        super().__init__(brief(message))
        self.code = code


class _Connection:
    """A connection. It is for one thread at a time."""

    session = ""

    def __init__(self, at: _Server, ends: End, end: float) -> None:
        """Connects until a moment. Raises psycopg.Error and StoreFault."""
        self.at = at
        self._ends = ends
        self._prepared: dict[str, bytes] = {}
        self._pg = pq.PGconn.connect_start(at.conninfo())
        try:
            while (status := self._pg.connect_poll()) != pq.PollingStatus.OK:
                if status == pq.PollingStatus.FAILED:
                    raise psycopg.OperationalError(pq.error_message(self._pg))
                is_reading = status == pq.PollingStatus.READING
                self._await(select.POLLIN if is_reading else select.POLLOUT, end)
            self._pg.nonblocking = 1
        except BaseException:
            self.close()
            raise

    def close(self) -> None:
        self._pg.finish()

    def call(self, text: str, values: Sequence[_Value], end: float) -> list[list[Any]]:
        """Returns the rows that a statement answers, which the connection prepares once."""
        name = self._prepared.get(text, b"s%d" % len(self._prepared))
        if text not in self._prepared:
            self._run(lambda: self._pg.send_prepare(name, text.encode()), end)
            self._prepared[text] = name
        lent = [_lent(it) for it in values]
        formats = [_BINARY if isinstance(it, bytes) else pq.Format.TEXT for it in values]
        send = self._pg.send_query_prepared
        result = self._run(lambda: send(name, lent, formats, _BINARY), end)
        columns = range(result.nfields)
        return [[_read(result, row, it) for it in columns] for row in range(result.ntuples)]

    def _run(self, send: Callable[[], None], end: float) -> pq.abc.PGresult:
        send()
        while self._pg.flush():
            self._await(select.POLLIN | select.POLLOUT, end)
            self._pg.consume_input()
        last = None
        while True:
            while self._pg.is_busy():
                self._await(select.POLLIN, end)
                self._pg.consume_input()
            result = self._pg.get_result()
            if result is None:
                break
            last = result
        if last is None:
            raise StoreFault("answer")
        if last.status not in (pq.ExecStatus.COMMAND_OK, pq.ExecStatus.TUPLES_OK):
            code = last.error_field(pq.DiagnosticField.SQLSTATE)
            if not code:  # (the connection is lost)
                raise psycopg.OperationalError(pq.error_message(last))
            raise _Answered(code.decode(), pq.error_message(last))
        return last

    def _await(self, events: int, end: float) -> None:
        """Waits for the socket. Raises StoreFault where the store ends or the time is over."""
        poll = select.poll()
        poll.register(self._pg.socket, events)
        poll.register(self._ends, select.POLLIN)
        ready = poll.poll(max(0, (end - time.monotonic()) * 1000))
        if self._ends.is_set:
            raise StoreFault("closed")
        if not ready:
            raise StoreFault("silent")


def _lent(value: _Value) -> bytes | None:
    return value if value is None or isinstance(value, bytes) else str(value).encode()


def _read(result: pq.abc.PGresult, row: int, column: int) -> Any:
    value, kind = result.get_value(row, column), result.ftype(column)
    if value is None or kind == _BYTES:
        return value
    if kind in _INTEGERS:
        return int.from_bytes(value, "big", signed=True)
    return value.decode(errors="replace")


class _Role(NamedTuple):
    """What a server is."""

    primary: bool
    system: str
    """Which servers have alike that came of one."""
    started: str
    line: str
    """The timeline of a primary, in 8 digits."""


class _Server:
    """One of the addresses, and what the last look at it saw where there are several."""

    role: _Role | None = None
    fault: str = ""
    at: Moment | None = None

    def __init__(self, number: int, url: str) -> None:
        self.number = number
        self._url = url
        self.conninfo()

    def conninfo(self) -> bytes:
        """What libpq takes. An error has no part of the address, which may be secret."""
        try:
            words = conninfo.conninfo_to_dict(self._url)
        except psycopg.Error:
            words = {}
        if not self._url.startswith(("postgres://", "postgresql://")) or not words:
            raise ValueError(f"address {self.number} is no URL like postgres://USER@HOST/DATABASE")
        if "," in str(words.get("host", "")):
            raise ValueError(f"address {self.number} names several servers: give each its own")
        words.pop("target_session_attrs", None)
        if "PGSSLMODE" not in os.environ:
            words.setdefault("sslmode", "require")
        return conninfo.make_conninfo(**words).encode()


def _reach(at: _Server, ask: str, ends: End, end: float) -> tuple[_Connection, _Role]:
    """Connects to a server, and asks what it is."""
    one = _Connection(at, ends, end)
    try:
        return one, _role(one, ask, end)
    except BaseException:
        one.close()
        raise


def _role(one: _Connection, ask: str, end: float) -> _Role:
    ((primary, *rest),) = one.call(ask, [], end)
    return _Role(primary == 1, *map(str, rest))


class _Servers:
    """All addresses. Where there are several, each one is looked at all the time.

    So a member does not go on with a primary whose place another server has taken.
    """

    def __init__(self, urls: Sequence[str], role: str, ends: End) -> None:
        self.all = [_Server(n, url) for n, url in enumerate(urls, 1)]
        self.role = role
        self._ends = ends
        self._changed = threading.Condition()  # guards what was seen
        self._begun = False

    def await_primary(self, end: float) -> _Server:
        """The primary, once each server was looked at."""
        if len(self.all) == 1:
            return self.all[0]
        with self._changed:
            if not self._begun:
                self._begun = True
                for one in self.all:
                    threading.Thread(
                        target=self._watch, args=(one,), name="svid-server", daemon=True
                    ).start()
            while not self._is_looked_at():
                if self._ends.is_set:
                    raise StoreFault("closed")
                if not self._changed.wait(end - time.monotonic()):
                    raise StoreFault("silent")
            return self._primary()

    def counts(self, at: _Server) -> None:
        """Raises StoreFault if what a server answers does not count."""
        if len(self.all) == 1:
            return
        with self._changed:
            if not self._is_looked_at():
                raise StoreFault("server", "not all servers were looked at")
            first = self._primary()
            if first is not at and first.role != at.role:
                raise StoreFault("stale")

    def _is_looked_at(self) -> bool:
        now, most = Moment.now(), _statements.MOST_AGE / 1000
        return all(it.at is not None and it.at.until(now) <= most for it in self.all)

    def _primary(self) -> _Server:
        """The primary by the last looks."""
        first: _Server | None = None
        faults = []
        for one in self.all:
            if one.role is None or not one.role.primary:
                why = one.fault or _statements.FAULTS["standby"]
                faults.append(f"address {one.number}: {why}")
            elif first is None or first.role is None:
                first = one
            elif first.role == one.role:
                continue  # (one server may have two addresses)
            elif first.role.system != one.role.system:
                raise StoreFault(
                    "server",
                    f"addresses {first.number} and {one.number} are primaries of two database "
                    "clusters: name the servers of one",
                )
            elif first.role.line == one.role.line:
                raise StoreFault(
                    "server",
                    f"addresses {first.number} and {one.number} are both primaries: "
                    "stop the wrong one",
                )
            elif first.role.line < one.role.line:
                first = one  # It was promoted later.
        if first is None:
            raise StoreFault("server", "; ".join(faults))
        return first

    def _watch(self, at: _Server) -> None:
        """Looks at a server until the end."""
        one: _Connection | None = None
        while not self._ends.is_set:
            begun = Moment.now()
            one = self._look(at, one, begun)
            self._ends.wait(max(0.0, begun.up + _statements.LOOK_EVERY / 1000 - time.monotonic()))
        if one:
            one.close()
        with self._changed:
            self._changed.notify_all()

    def _look(self, at: _Server, one: _Connection | None, begun: Moment) -> _Connection | None:
        role, fault, end = None, "", begun.up + _statements.LOOK_WAIT / 1000
        if one and at.at and at.at.until(begun) > _statements.MOST_AGE / 1000:
            one.close()
            one = None  # (it may have ended meanwhile, which says nothing of the server)
        try:
            if one is None:
                one, role = _reach(at, self.role, self._ends, end)
            else:
                role = _role(one, self.role, end)
        except Exception as why:
            fault, role = brief(str(why)), None
            if one:
                one.close()
            # (it answered nobody until now, as far as this machine was awake to see that)
            one, begun = None, begun.awake_until(Moment.now())
        with self._changed:
            at.role, at.fault, at.at = role, fault, begun
            self._changed.notify_all()
        return one
