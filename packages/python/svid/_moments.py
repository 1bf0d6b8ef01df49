"""Moments by two clocks: one of them also goes on while the machine is suspended."""

from __future__ import annotations

import time
from typing import NamedTuple


class Moment(NamedTuple):
    """A moment by two clocks."""

    up: float
    """By the one that only goes ahead, which stands still while the machine is suspended."""
    wall: float
    """By the one that may be wrong, and go back: in seconds since 1970."""

    @classmethod
    def now(cls) -> Moment:
        return cls(time.monotonic(), time.time())

    def until(self, now: Moment) -> float:
        """How many seconds have passed, by the clock that says more."""
        return max(now.up - self.up, now.wall - self.wall)

    def awake_until(self, now: Moment) -> Moment:
        """Now, less the time for which the machine was suspended meanwhile."""
        return Moment(now.up, self.wall + (now.up - self.up))
