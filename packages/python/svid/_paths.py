"""Paths of requests that are listed: who may come without a token, or with one again.

A server, a middleware and a framework may each read the path of a request in their own way: they
decode it, join its slashes, resolve its dots. So a path that they could read in two ways is on no
list. The worst that comes of that is a request that needs a token, or uses one up.
"""

from __future__ import annotations

import re
from collections.abc import Iterable, Sequence

_PLAIN = re.compile(r"/(?:(?!\.{1,2}(?:/|\Z))[A-Za-z0-9._~-]+(?:/|\Z))*")
"""Segments that no URL has to escape, none of them empty, "." or ".."."""
_BELOW = "/*"


class Paths:
    """A list of paths: "/a/b" is that path alone, and "/a/*" is each path below "/a"."""

    def __init__(self, patterns: str | Iterable[str]) -> None:
        """Raises ValueError for what is no path."""
        kept = (patterns,) if isinstance(patterns, str) else tuple(patterns)
        for it in kept:
            if not _PLAIN.fullmatch(it.removesuffix("*") if it.endswith(_BELOW) else it):
                raise ValueError(
                    f"{it!r} is no path: write /PATH, or /PATH/* for all below it, in letters, "
                    "digits and - . _ ~, decoded, and without empty segments, . and .."
                )
        self._alone = frozenset(it for it in kept if not it.endswith(_BELOW))
        self._above = tuple(it[:-1] for it in kept if it.endswith(_BELOW))

    def has(self, readings: Sequence[str]) -> bool:
        """Whether a path is on the list, by each way to read it. One without any is not."""
        return bool(readings) and all(self._has(it) for it in readings)

    def _has(self, path: str) -> bool:
        if path in self._alone:
            return True
        if not any(path.startswith(it) and path != it for it in self._above):
            return False
        return bool(_PLAIN.fullmatch(path))
