"""Bundles that follow their sources, by threads: one for files, and one for each that is asked."""

from __future__ import annotations

import contextlib
import functools
import logging
import os
import pathlib
import threading
from collections.abc import Callable, Iterable, Mapping
from typing import NamedTuple

from ._bundles import (
    NO_BUNDLE,
    Bundles,
    Document,
    Edition,
    Unnamed,
    bundle_text,
    contents,
    joined,
)
from ._ending import Ending
from .errors import BadBundles, Closed, Forked
from .sources import LIMIT, Ends, Endpoint, ForGood, WorkloadApi, bearable, fetch, watch

_LOG = logging.getLogger("svid")
_SHORTEST, _LONGEST = 1.0, 30.0
"""For how many seconds a source that failed is not asked again, at first and at the most."""


class _Key(NamedTuple):
    """Tells a source from all others."""

    where: str
    """A path or an address; "" where the bundle itself was given."""
    domain: str | None
    """The trust domain whose bundle it gives; None if it names its own."""


_Fault = Callable[[_Key, Exception | None], None]
_Taker = Callable[[], Callable[["Followed"], None] | None]


class _Kept(NamedTuple):
    """The last good bundle of a source."""

    raw: bytes
    """As the source has it."""
    text: bytes
    """As the library joined it: an object from trust domain names to JWK sets."""


class Followed:
    """The bundles of a validator: the last good ones of each source.

    A source that can't be read, or gives no bundle, changes nothing, and the logger "svid" has a
    warning, once for each fault. Only a file that is gone from a folder takes its trust domain with
    it, and so does a Workload API that names one no more.
    """

    def __init__(self, given: Bundles, before: Followed | None = None) -> None:
        """Reads the files. Raises BadBundles, OSError, ValueError and TypeError.

        before: gives the last good bundles of the same addresses.
        """
        self.given = given
        self._process = os.getpid()
        self._folder: str | None = None
        self._files: list[_Key] = []
        self._addresses: dict[_Key, Endpoint | WorkloadApi] = {}
        self._kept: dict[_Key, _Kept] = {}
        self._in_files: dict[_Key, _Kept] = {}
        self._faults: dict[_Key, str] = {}
        self._pauses: dict[_Key, float] = {}
        self._has_news = False
        self._ended = Ending()
        self._ends = Ends()
        self._threads: list[threading.Thread] = []
        self._taker: _Taker = _nobody
        self._sort(given)
        for key, kept in list(before._kept.items()) if before else ():
            if key in self._addresses or _Key(key.where, None) in self._addresses:
                self._kept[key] = kept
        self._in_files = self._read(_raise)

    def _sort(self, given: Bundles) -> None:
        """Says which sources there are."""
        if isinstance(given, str) and given.lstrip().startswith("{"):
            raise TypeError("a str of bundles names a file or a folder: encode JSON text as bytes")
        if isinstance(given, bytes):
            self._kept[_Key("", None)] = _Kept(given, given)
        elif isinstance(given, WorkloadApi):
            given.check()
            self._addresses[_Key(given.target(), None)] = given
        elif not isinstance(given, Mapping):
            path = os.fspath(given)
            if os.path.isdir(path):
                self._folder = path
            else:
                self._files.append(_Key(path, None))
        else:
            for name, it in given.items():
                if isinstance(it, Endpoint):
                    it.check(name)
                    self._addresses[_Key(it.url, name)] = it
                elif isinstance(it, (Mapping, bytes)):
                    raw = bundle_text(name, it)
                    self._kept[_Key("", name)] = _Kept(raw, _judged(_Key(name, name), raw))
                else:
                    self._files.append(_Key(os.fspath(it), name))

    def now(self) -> tuple[bytes, Edition]:
        """All bundles, as the library takes them, and whose they are. Raises BadBundles."""
        kept = self._kept.copy() | self._in_files
        these = sorted(kept.items(), key=lambda it: str(it[0]))
        if len(these) == 1:
            text = these[0][1].text
        else:
            named = [(where or str(name), it.text) for (where, name), it in these]
            text = joined([Document(what, None, it) for what, it in named])
        follows = self._addresses or self._files or self._folder is not None
        awaited = frozenset(it.domain for it in self._addresses if it not in kept)
        return text, Edition(text != NO_BUNDLE or not follows, awaited)

    # -- Threads

    def begin(self, taker: _Taker, every: float | None) -> None:
        """Follows the sources from now on.

        taker: gives the function that takes changed bundles; None once nobody wants them.
        every: how many seconds pass between two looks at files. None looks at none.
        """
        self._taker = taker
        if every is not None and (self._files or self._folder is not None):
            every = min(every, threading.TIMEOUT_MAX)
            self._go(_Key("files", None), functools.partial(self._look, every), most=every)
        for key, it in self._addresses.items():
            if isinstance(it, Endpoint):
                self._go(key, functools.partial(self._ask, key, it))
            else:
                self._go(key, functools.partial(self._attend, key.where, it))

    def drop(self) -> None:
        """Lets the threads end. Waits for nothing, since a collector may call it."""
        if self._process == os.getpid():
            self._ended.set()
            self._ends.end_all()

    def close(self) -> None:
        """Ends the threads."""
        self.drop()
        for it in self._threads:
            if it is not threading.current_thread():
                it.join(2 * LIMIT)  # (a name may be asked of a server that does not answer)

    def _go(self, key: _Key, ask: Callable[[], float], most: float = _LONGEST) -> None:
        thread = threading.Thread(
            target=self._run, args=(key, ask, most), name="svid-bundles", daemon=True
        )
        thread.start()
        self._threads.append(thread)

    def _run(self, key: _Key, ask: Callable[[], float], most: float) -> None:
        """Asks a source again and again. Where it fails, the pauses grow."""
        wait: float | None = 0
        while not self._ended.wait(wait):
            try:
                wait = ask()
                self._hand_on()
                self._well(key)
            except (Closed, Forked):
                return
            except Exception as why:
                if not self._ended.is_set():
                    self._fault(key, why)
                pause = min(self._pauses.get(key, _SHORTEST), most)
                self._pauses[key] = 2 * pause
                wait = None if isinstance(why, ForGood) else pause

    def _well(self, key: _Key) -> None:
        """A source answers."""
        self._fault(key, None)
        self._pauses.pop(key, None)

    def _hand_on(self) -> None:
        """Hands changed bundles on. Raises what keeps them from being taken: then they still count
        as changed."""
        if self._has_news:
            take = self._taker()
            if take is None:
                raise Closed
            self._has_news = False
            try:
                take(self)
            except BaseException:
                self._has_news = True
                raise

    def _fault(self, key: _Key, why: Exception | None) -> None:
        """Tells what is wrong with a source, if that is news, or that it is well again."""
        said = None if why is None else _printable(f"{why}"[:1024])
        if self._faults.get(key) == said:
            return
        where = _printable(key.where if key.domain is None else f"{key.domain}, {key.where}")
        with contextlib.suppress(Exception):  # (who is warned must not end the following)
            if said is None:
                del self._faults[key]
                _LOG.info("the bundles are read again (%s)", where)
            else:
                self._faults[key] = said
                _LOG.warning("the bundles stay as they are (%s): %s", where, said)

    # -- Files

    def _look(self, every: float) -> float:
        """Reads the files again."""
        kept = self._read(self._fault)
        if kept != self._in_files:
            self._in_files, self._has_news = kept, True
        return every

    def _read(self, fault: _Fault) -> dict[_Key, _Kept]:
        """What is kept, with what the files have now."""
        kept = self._in_files.copy()
        for key in self._listed(kept, fault):
            try:
                raw = contents(key.where)
                if key not in kept or kept[key].raw != raw:
                    kept[key] = _Kept(raw, _judged(key, raw))
            except (OSError, BadBundles) as why:
                fault(key, why)
            else:
                fault(key, None)
        return kept

    def _listed(self, kept: dict[_Key, _Kept], fault: _Fault) -> Iterable[_Key]:
        """The files. It drops those that are gone from a folder.

        Of a folder they are those whose names end in `.json` and don't begin with `.`.
        """
        if self._folder is None:
            return self._files
        try:
            names = sorted(os.listdir(self._folder))
        except OSError as why:
            fault(_Key(self._folder, None), why)
            return []
        fault(_Key(self._folder, None), None)
        these = [pathlib.Path(self._folder, it) for it in names if not it.startswith(".")]
        files = [_Key(str(it), it.stem) for it in these if it.suffix == ".json"]
        for gone in kept.keys() - set(files):
            del kept[gone]
        for gone in self._faults.keys() - set(files):
            if gone.domain is not None:
                del self._faults[gone]
        return files

    # -- Addresses

    def _ask(self, key: _Key, endpoint: Endpoint) -> float:
        """Asks an endpoint, and says for how many seconds its bundle is good."""
        text, good_for = fetch(endpoint, functools.partial(self._authorities, endpoint), self._ends)
        self._adopt(key, text)
        return good_for

    def _authorities(self, endpoint: Endpoint) -> bytes | None:
        """What the server of an endpoint is known by."""
        domain, first = endpoint.domain(), endpoint.authorities
        these = (self._kept.copy() | self._in_files).items()
        last = next((it.raw for key, it in these if key.domain == domain), None)
        of_its_own = _Key(endpoint.url, domain) in self._kept
        if domain and last is not None and (first is None or of_its_own):
            return last
        return None if first is None else contents(first)

    def _attend(self, address: str, api: WorkloadApi) -> float:
        """Takes what a Workload API gives, until it ends."""
        for bundles in watch(api, self._ends):
            if not bundles:  # (it always has that of its own trust domain)
                self._fault(_Key(address, None), BadBundles("it gives no bundle"))
                continue
            for name, raw in sorted(bundles.items()):
                key = _Key(address, name)
                try:
                    bearable(raw)
                    self._adopt(key, raw, keys=True)
                except (BadBundles, ValueError) as why:
                    self._fault(key, why)
                else:
                    self._fault(key, None)
            these = {_Key(address, None), *(_Key(address, name) for name in bundles)}
            for gone in self._kept.keys() - these:
                del self._kept[gone]
                self._has_news = True
            for gone in self._faults.keys() - these:
                del self._faults[gone]
            self._hand_on()
            self._well(_Key(address, None))
        return _SHORTEST

    def _adopt(self, key: _Key, raw: bytes, keys: bool = False) -> None:
        """Takes the bundle that an address gives. Raises BadBundles."""
        if key not in self._kept or self._kept[key].raw != raw:
            self._kept[key] = _Kept(raw, _judged(key, raw, keys))
            self._has_news = True


def _printable(text: str) -> str:
    """A text that a terminal shows: a server may have written some of it."""
    return "".join(it if it.isprintable() else ascii(it)[1:-1] for it in text)


def _judged(key: _Key, raw: bytes, keys: bool = False) -> bytes:
    """The text of a bundle, or of several if the key names none. Raises BadBundles."""
    where, name = key
    if name is not None:
        return joined([Document(where, name, raw)], keys)
    try:
        return joined([Document(where, None, raw)])
    except Unnamed:
        return joined([Document(where, pathlib.Path(where).stem, raw)])


def _raise(_key: _Key, why: Exception | None) -> None:
    if why is not None:
        raise why


def _nobody() -> None:
    """Nobody takes bundles yet."""
