"""An event by which a thread ends."""

from __future__ import annotations

import contextlib
import queue


class Ending:
    """An event that a collector may set, in whatever thread it runs.

    A `threading.Event` has a lock, which the thread may hold that the collector interrupts: to set
    it would then wait for ever, and no collector would run any more.
    """

    def __init__(self) -> None:
        self._signs: queue.SimpleQueue[None] = queue.SimpleQueue()
        self._is_set = False

    def set(self) -> None:
        self._is_set = True
        self._signs.put(None)

    def is_set(self) -> bool:
        return self._is_set

    def wake(self) -> None:
        """Ends one wait, or the next one."""
        self._signs.put(None)

    def wait(self, seconds: float | None) -> bool:
        """Waits until it is set, or for so many seconds, and says whether it is set."""
        with contextlib.suppress(queue.Empty):
            self._signs.get(timeout=seconds)
            if self._is_set:
                self._signs.put(None)  # (for the next thread that waits)
        return self._is_set
