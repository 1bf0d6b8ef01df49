"""The claims of a validator that is alone, in a folder: mode "bound" without a store.

The folder is a state folder (`Journal`), and has the form of that of svidd in this mode: an entry
is two uses. Each has a half of the owner as its validator ID, and that of the second half is a
withdrawal. A folder that is removed, or put back from an older copy, has lost claims, and nothing
tells that.
"""

from __future__ import annotations

import threading
from collections.abc import Callable, Iterator, Sequence

from . import _library as lib
from . import _statements
from ._folder import Path
from ._journal import Journal
from .records import Use, batches, entries_of
from .stores import WITHDRAWN, Claim, Found

_HALF = len(WITHDRAWN) // 2
_MINUTE = 60
_PIECE = 1000
"""How many entries one write of a snapshot has."""

# These keys stand for what the store says of itself. No token has one of them, as they are no
# digest that anybody knows a text of.
_TIME = bytes(32)
"""Its use tells a time that the clock had."""
_DEAF = bytes(31) + b"\x01"
"""Its use expires when the store's deafness ends."""


class _Entry:
    """It is kept once the disk has it."""

    __slots__ = ("at", "halves", "is_kept", "until")

    def __init__(self, at: int, until: int, owner: bytes = WITHDRAWN, is_kept: bool = True) -> None:
        self.halves = [owner[:_HALF], owner[_HALF:]]
        self.at = at
        self.until = until
        self.is_kept = is_kept

    def uses(self, key: bytes) -> list[Use]:
        """Those that tell it."""
        halves = enumerate(self.halves)
        return [Use(self.until, key, half, self.at, withdrawn=n == 1) for n, half in halves]


class LocalStore:
    """A `Store` of one validator."""

    def __init__(self, folder: Path, longest: int, ahead: int, clock: Callable[[], int]) -> None:
        """Opens the folder, and reads it. Raises what `Journal` does."""
        until = lib.quick.svid_claim_until  # (the sum, or the greatest number)
        self._back = _statements.STEP_BACK // 1000
        self._lasts = until(longest, until(ahead, ahead))
        self._margin = until(max(ahead, _statements.LEAST_MARGIN // 1000), self._back)
        self._clock = clock
        self._lock = threading.Lock()  # guards what follows
        self._entries: dict[bytes, _Entry] = {}
        self._minute = -1  # of the last time that what is over was dropped
        self._latest = 0  # the greatest time that the clock had
        self._deaf = 0
        self._journal = Journal(folder)
        try:
            self._journal.load(self._take)
        except BaseException:
            self._journal.close()
            raise

    def put(self, claims: Sequence[Claim]) -> list[Found]:
        """As `Store.put`."""
        with self._lock:
            now, told = self._now()
            these = [(it.key, self._entry(it, now)) for it in claims]
            found = [Found(b"".join(it.halves), now, self._deaf) for _, it in these]
            lacking = [(key, it) for key, it in these if not it.is_kept]
            told += [use for key, it in lacking for use in it.uses(key)]
            is_due = now // _MINUTE != self._minute
            if is_due:
                told.append(self._time(now))
        if told:
            self._journal.append(batches(told))
        with self._lock:
            for _, it in lacking:
                it.is_kept = True
            if is_due:
                self._minute = now // _MINUTE
                self._entries = {key: it for key, it in self._entries.items() if it.until > now}
        if self._journal.wants_snapshot:
            self._journal.snapshot_soon(self._parts)
        return found

    def withdraw(self, key: bytes, expires: int) -> None:
        """As `Store.withdraw`, but a claim stays: the one validator has the withdrawal itself."""
        self.put([Claim(key, WITHDRAWN, expires)])

    def close(self) -> None:
        """Lets go of the folder."""
        self._journal.close()

    def _take(self, messages: bytes) -> None:
        """Takes messages of the folder."""
        for withdrawn, until, at, key, half in entries_of(messages):
            self._latest = max(self._latest, at)
            if key == _DEAF:
                self._deaf = max(self._deaf, until)
            elif key != _TIME:
                self._drop(key, at)
                self._entries.setdefault(key, _Entry(at, until)).halves[withdrawn] = half

    def _now(self) -> tuple[int, list[Use]]:
        """The store's time, and what the disk is to have of that.

        A clock that went back by more than it may ends the epoch: what was dropped may be live.
        """
        now, told = self._clock(), []
        if now + self._back < self._latest:
            self._deaf = lib.quick.svid_claim_deaf(self._latest, self._lasts, self._deaf)
            self._latest = now
            told = [Use(self._deaf, _DEAF, bytes(_HALF), now)]
        self._latest = max(self._latest, now)
        return now, told

    def _entry(self, claim: Claim, now: int) -> _Entry:
        """What stands under the key of a claim. An entry that is over leaves it to the next one."""
        self._drop(claim.key, now)
        until = lib.quick.svid_claim_until(claim.expires, self._margin)
        one = _Entry(now, until, claim.owner, until <= now)
        # (no message tells a use that is over; nobody accepts the token, so nothing need stay)
        return one if one.is_kept else self._entries.setdefault(claim.key, one)

    def _drop(self, key: bytes, now: int) -> None:
        """Makes room under a key whose entry is over."""
        if key in self._entries and self._entries[key].until <= now:
            del self._entries[key]

    def _time(self, now: int) -> Use:
        """Tells a time, for as long as an entry may live that was dropped by then."""
        until = lib.quick.svid_claim_until  # (one second more than each of those)
        return Use(until(until(now + 1, self._lasts), self._margin), _TIME, bytes(_HALF), now)

    def _parts(self) -> Iterator[bytes]:
        """All that the folder is to have."""
        with self._lock:
            these = list(self._entries.items())
            own = [self._time(self._latest)]
            if self._deaf > self._latest:
                own.append(Use(self._deaf, _DEAF, bytes(_HALF), self._latest))
        yield batches(own)
        for n in range(0, len(these), _PIECE):
            yield batches(use for key, it in these[n : n + _PIECE] for use in it.uses(key))
