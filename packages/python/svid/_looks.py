"""When a store's withdrawals were read, and who waits until they are read again."""

from __future__ import annotations

import threading
import time

from . import _statements
from ._ending import Ending
from ._moments import Moment
from .errors import Closed

_MOST = _statements.MOST_UNLOOKED / 1000
_ROUNDING = 1
"""How much the clock of a validator leaves out, which gives whole seconds."""


class Looks:
    """The looks at a store's withdrawals. One thread makes them, one after the other.

    It makes one a second, so that the last one is old only where the process was stopped, or the
    machine suspended. Tokens may have been withdrawn meanwhile.
    """

    def __init__(self, ended: Ending) -> None:
        """ended: no look is made any more. To `wake` it begins the next one at once."""
        self._ended = ended
        self._turn = threading.Condition()  # guards what follows
        self._begun = 0  # how many have begun
        self._over = 0  # the last one that has read all, or failed
        self._wanted = 0  # the last one that somebody waits for
        self._began: Moment | None = None  # the last one
        self._looked: Moment | None = None  # when the one began that is over

    def begin(self, wall: int) -> None:
        """A look begins at this time, in seconds since 1970."""
        with self._turn:
            self._begun += 1
            self._began = Moment(time.monotonic(), wall)

    def end(self) -> None:
        """The look has read all that there was, or has failed."""
        with self._turn:
            self._over, self._looked = self._begun, self._began
            self._turn.notify_all()

    def close(self) -> None:
        """Nobody waits any more. The end is set."""
        with self._turn:
            self._turn.notify_all()

    def is_due(self, wall: int) -> bool:
        """Whether a token that comes at this time is to wait for a look."""
        looked = self._looked
        return looked is not None and _is_old(looked, Moment(time.monotonic(), wall))

    def wait(self, wall: int, most: float) -> None:
        """Waits where a look is due, for at most so many seconds.

        One that began before the process was stopped may have read what was there before.
        """
        now = Moment(time.monotonic(), wall)
        with self._turn:
            if self._began is None or not self.is_due(wall):
                return
            one = self._begun + _is_old(self._began, now)
            if self._wanted < one:
                self._wanted = one
                self._ended.wake()
            self._turn.wait_for(lambda: self._over >= one or self._ended.is_set(), most)
            if self._ended.is_set():
                raise Closed
            if self.is_due(wall):
                self._looked = now  # (who comes next does not wait for a store that hangs)


def _is_old(it: Moment, now: Moment) -> bool:
    """Whether it was too long ago."""
    return it.until(now._replace(wall=now.wall - _ROUNDING)) > _MOST
