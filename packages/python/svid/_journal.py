"""A state folder: what a validator accepted, kept over restarts and crashes.

The C library decides: what the bytes of a file are, which call of the system comes next, and what
is read of a file that a crash left (include/svid.h, "A state folder"). This module makes the calls,
and tells the library how they went.
"""

from __future__ import annotations

import contextlib
import logging
import os
import threading
import time
import weakref
from collections.abc import Callable, Iterable

from . import _library as lib
from ._folder import FRAMES, ID_FILE, SNAPSHOT, UNFINISHED, Folder, Path, journal_name, write
from ._frames import File, Numbers
from .errors import Closed, Error, Forked, Unavailable

_LOG = logging.getLogger("svid")
_GROWTH = bytes(262_144)
"""What a journal grows by: to force a new length to the disk takes longer than the bytes."""
_QUIET = 1.0
"""How many seconds nobody appends until a mark is worth its write."""
_MANY_JOURNALS = 8
"""So many journals of starts are worth a snapshot."""
_SMALL = 8 * 2**20
"""Journals of so many bytes are worth none."""
_PAUSE = 60.0
"""How many seconds after a snapshot that failed the next one is due."""
_PIECE = 2**20
"""How many bytes of messages are taken at once, where payloads are shorter."""

_MOST = lib.PAYLOAD_MOST
"""The most bytes of messages that one write takes."""

_Parts = Callable[[], Iterable[bytes]]
_Told = Callable[[Exception | None], None]


class Journal:
    """The state folder of one validator. `Validator(state=..)` opens one, and does all of this.

    ::

        journal = svid.Journal("/var/lib/ledger")
        validator = svid.Validator(.., validator_id=journal.validator_id)
        journal.load(validator.take)
        if journal.wants_snapshot:
            journal.snapshot(validator.parts)
        ..
        journal.append(validator.check(token).use.message)

    svidd writes the same files (docs/FORMATS.md, "State folder"), so either can go on with the
    folder of the other one. One process holds a folder at a time, and any number of its threads
    may use the journal. Each method raises Closed after `close`, and Forked in a process that was
    forked from the one that opened the folder. Once somebody removes or moves the folder, or mounts
    another one over it, another process may have begun at its path: each append raises Unavailable
    from then on.
    """

    def __init__(self, folder: Path) -> None:
        """Opens the folder, and begins a new journal in it. Makes it where its parent is there.

        Raises Held, Damaged, OtherFormat, OSError, and ValueError for a folder without its ID,
        or of an older svidd: start a newer one in it once.
        """
        self._keeper = _Keeper(Folder(folder))
        self._dropped = weakref.finalize(self, self._keeper.drop)
        self._dropped.atexit = False  # the disk may not answer any more

    @property
    def validator_id(self) -> bytes:
        """16 bytes that were made with the folder, for the validator to have as its ID."""
        return self._keeper.folder_id

    @property
    def torn(self) -> tuple[str, ...]:
        """The journals at whose end a crash cut off a write. Nobody had an answer of it."""
        return self._keeper.torn

    @property
    def wants_snapshot(self) -> bool:
        """Whether a snapshot is due: there is none, or the journals are many or long."""
        return self._keeper.wants_snapshot

    def load(self, take: Callable[[bytes], None]) -> None:
        """Gives all messages that were found to `take` of a validator. Only the first call does."""
        self._keeper.load(take)

    def append(self, messages: bytes, wait: float | None = 2.0) -> None:
        """Returns once the messages are on the disk. Threads that come meanwhile share a write.

        Raises Unavailable if that fails, or takes more than `wait` seconds: then the disk may have
        them now, or later, or never. After a write that failed (the disk is full) a later one may
        succeed. After a sync that failed nothing is kept, until the folder is opened again.
        At most 16,777,215 bytes.
        """
        self._keeper.append(bytes(messages), wait)

    def append_soon(self, messages: bytes) -> None:
        """Does that in the background. Logs a warning by "svid" where it fails."""
        self._keeper.keep(bytes(messages), _warn)

    def keep(self, messages: bytes, told: Callable[[Exception | None], None]) -> None:
        """Does that in the background, and calls `told` with why it failed, or with None."""
        self._keeper.keep(bytes(messages), told)

    def snapshot(self, parts: _Parts) -> None:
        """Replaces the snapshot by the `parts` of the validator, and drops the journals before it.

        A use must be in the record before it is appended, as `check` does. Threads may append all
        the while. Raises OSError and Unavailable; then nothing is lost.
        """
        self._keeper.snapshot(parts)

    def snapshot_soon(self, parts: _Parts) -> None:
        """Does that in the background, if nothing does. Logs a warning by "svid" where it fails."""
        self._keeper.snapshot_soon(parts)

    def close(self) -> None:
        """Waits for what is under way, and lets go of the folder. Closing twice does nothing."""
        self._keeper.close()


class _Commit:
    """The messages that one write takes to the disk, and what came of it."""

    def __init__(self) -> None:
        self.parts: list[bytes] = []
        self.len = 0
        self.done = threading.Event()
        self.told: list[_Told] = []  # who else is to know
        self.why: Exception | None = None

    def end(self) -> None:
        """Tells who waits what came of it."""
        self.done.set()
        for tell in self.told:
            with contextlib.suppress(Exception):  # (a listener must not end the writing)
                tell(self.why)


class _Keeper:
    """An open state folder. Its threads know it, and not the journal, so that can be dropped."""

    folder_id: bytes
    torn: tuple[str, ...]

    def __init__(self, folder: Folder) -> None:
        self._folder = folder
        self._process = os.getpid()
        self._found: list[bytes] = []
        self._switching = threading.Lock()  # held over a snapshot; guards the four below
        self._wants = False
        self._kept = 0  # how many bytes the snapshot has
        self._pause = 0.0  # until when none is due
        self._next = -1  # the journal that is to grow
        self._writing = threading.Lock()  # held over a write; guards the five below
        self._file = -1  # the journal that grows
        self._room = 0  # its length
        self._older = 0  # how many bytes of frames older journals have
        self._marked = True  # its last frame is a mark, or it has none
        self._broken: Exception | None = None  # why nothing is kept any more
        self._gate = threading.Condition()  # guards what follows
        self._commit: _Commit | None = None  # what the next write takes
        self._snapshots = 0  # in the background
        self._closing = False
        try:
            self._numbers = self._read()
            self._make_calls(None)
            self._thread = threading.Thread(target=self._work, name="svid-journal", daemon=True)
            self._thread.start()
        except BaseException:
            _close(self._file)
            folder.close()
            raise
        _keepers.add(self)

    def load(self, take: Callable[[bytes], None]) -> None:
        found, self._found = self._found, []
        for messages in _joined(found):
            take(messages)

    def append(self, messages: bytes, wait: float | None) -> None:
        self._stand()
        commit = self._join(messages)
        if not commit.done.wait(None if wait is None else min(wait, threading.TIMEOUT_MAX)):
            raise Unavailable("the disk did not answer in time")
        if commit.why is not None:
            raise Unavailable(f"the use is not kept: {commit.why}") from commit.why

    def keep(self, messages: bytes, told: _Told) -> None:
        try:
            self._stand()
            self._join(messages, told=told)
        except Error as why:
            told(why)

    @property
    def wants_snapshot(self) -> bool:
        if time.monotonic() < self._pause:
            return False
        return self._wants or self._older + self._numbers.end > max(self._kept, _SMALL)

    def snapshot(self, parts: _Parts) -> None:
        self._stand()
        with self._switching:
            self._stand()
            if self._broken is not None:
                raise Unavailable(str(self._broken))
            self._numbers.begin()
            self._pause = time.monotonic() + _PAUSE
            self._make_calls(parts)
            self._wants, self._older, self._pause = False, 0, 0.0

    def snapshot_soon(self, parts: _Parts) -> None:
        self._stand()
        with self._gate:
            if self._snapshots:
                return
            self._snapshots += 1
        work = threading.Thread(
            target=self._snapshot, args=(parts,), name="svid-snapshot", daemon=True
        )
        try:
            work.start()
        except RuntimeError as why:  # (the process may have no other thread)
            self._pause = time.monotonic() + _PAUSE
            with self._gate:
                self._snapshots -= 1
            _warn_of_snapshot(why)

    def drop(self) -> None:
        """Lets the thread that writes end. Waits for nothing, since a collector may call it."""
        with self._gate:
            self._closing = True
            self._gate.notify_all()

    def close(self) -> None:
        if self._process == os.getpid():
            self.drop()
            self._thread.join()

    def leave(self) -> None:
        """Leaves the folder to the parent process, which alone is to hold its lock."""
        _close(self._file)
        _close(self._next)
        self._folder.close()

    def _stand(self) -> None:
        """Raises Closed and Forked."""
        if self._process != os.getpid():
            raise Forked
        if self._closing:
            raise Closed

    def _read(self) -> Numbers:
        """Reads the folder, as a start does."""
        folder = self._folder
        for name in SNAPSHOT, ID_FILE, FRAMES:
            folder.remove(name + UNFINISHED)
        if (folder.path / FRAMES).exists():
            raise ValueError(f"{folder.path} is of an older svidd: start a newer one in it once")
        folder_id, journals = folder.folder_id(), folder.journals()
        files = [File(folder, journal_name(it), it, folder_id) for it in journals]
        self._older = sum(it.at for it in files)
        self._wants = len(journals) >= _MANY_JOURNALS
        has_snapshot = True
        try:
            files.insert(0, File(folder, SNAPSHOT, 0, folder_id))
            self._kept = files[0].at
        except FileNotFoundError:
            self._wants, has_snapshot = True, False
        self.torn = tuple(it.name for it in files if it.is_torn)
        self._found = [messages for it in files for messages in it.messages]
        self.folder_id = os.urandom(16) if folder_id is None else folder_id
        if folder_id is None or not has_snapshot:  # (an older svidd may have left an empty journal)
            folder.keep_folder_id(self.folder_id, not files)
        return Numbers(self.folder_id, min(journals, default=1), max(journals, default=0))

    def _make_calls(self, parts: _Parts | None) -> None:
        """Makes the calls of the system that are due, until one raises."""
        beside = -1
        try:
            while (due := self._numbers.due())[0] != lib.CALL_NOTHING:
                self._stay()
                call, journal = due
                try:
                    if call == lib.CALL_CREATE_JOURNAL:
                        self._next = self._folder.create(journal_name(journal))
                    elif call == lib.CALL_SYNC_FOLDER:
                        self._folder.sync()
                    elif call == lib.CALL_WRITE_SNAPSHOT and parts is not None:
                        beside = self._folder.create(SNAPSHOT + UNFINISHED)
                        self._write_pieces(beside, parts)
                    elif call == lib.CALL_SYNC_SNAPSHOT:
                        os.fdatasync(beside)
                    elif call == lib.CALL_RENAME_SNAPSHOT:
                        self._folder.rename(SNAPSHOT + UNFINISHED, SNAPSHOT)
                    elif call == lib.CALL_REMOVE_JOURNAL:
                        self._folder.remove(journal_name(journal))
                    else:
                        raise RuntimeError(f"libsvid wants call {call}, which is not known here")
                except BaseException as why:
                    self._answer(call, why)
                    if beside >= 0:
                        with contextlib.suppress(OSError):
                            self._folder.remove(SNAPSHOT + UNFINISHED)  # its room may be needed
                    raise
                self._answer(call, None)
        finally:
            _close(beside)
            unused, self._next = self._next, -1
            _close(unused)

    def _stay(self) -> None:
        """Raises Unavailable, from now on, unless the path still leads to the folder.

        What is there now may be the folder of another process.
        """
        try:
            self._folder.stand()
        except OSError as why:
            with self._writing:
                self._numbers.failed()
                raise self._end_moved(why) from why

    def _answer(self, call: int, why: BaseException | None) -> None:
        """Tells how a call went, and lets the next journal grow where that comes then."""
        with self._writing:
            if why is None and call == lib.CALL_SYNC_FOLDER and self._next >= 0:
                self._mark()  # the journal is closed
            before, end = self._numbers.newest, self._numbers.end
            self._numbers.answer(why is None)
            if self._numbers.ended:
                self._end(why)
            if self._numbers.newest != before:
                self._older += end
                done, self._file, self._next = self._file, self._next, -1
                _close(done)  # (all of it is on the disk)
                self._room, self._marked = 0, True

    def _write_pieces(self, file: int, parts: _Parts) -> None:
        """Writes a snapshot: each part, and a mark."""
        at = 0
        for part in parts():
            if part:
                at += self._write_piece(file, part, at)
        self._kept = at + self._write_piece(file, b"", at)

    def _write_piece(self, file: int, part: bytes, at: int) -> int:
        frame = self._numbers.piece(part)
        write(file, frame, at)
        return len(frame)

    def _snapshot(self, parts: _Parts) -> None:
        try:
            self.snapshot(parts)
        except (OSError, Error, MemoryError) as why:
            _warn_of_snapshot(why)
        finally:
            with self._gate:
                self._snapshots -= 1

    def _join(self, messages: bytes, told: _Told | None = None) -> _Commit:
        """Adds messages to what the next write takes."""
        if len(messages) > _MOST:
            raise ValueError("messages have at most 16,777,215 bytes")
        with self._gate:
            if self._closing:
                raise Closed
            if self._commit is None:
                self._commit = _Commit()
                self._gate.notify_all()
            commit = self._commit
            if commit.len + len(messages) > _MOST:
                raise Unavailable("the disk does not answer, and too much waits for it")
            commit.parts.append(messages)
            commit.len += len(messages)
            if told is not None:
                commit.told.append(told)
            return commit

    def _work(self) -> None:
        """Takes to the disk what threads append, one write after the other, until it is closed."""
        quiet: float | None = None
        while True:
            with self._gate:
                if self._commit is None and not self._closing:
                    self._gate.wait(quiet)
                commit, self._commit = self._commit, None
                if commit is None and self._closing:
                    break
            with self._writing:
                if commit is None:
                    self._mark()
                    quiet = None
                else:
                    commit.why = self._put_commit(commit)
                    quiet = _QUIET
            if commit is not None:
                commit.end()
        with self._switching, self._writing:
            self._mark()
            done, self._file = self._file, -1
            _close(done)
            self._folder.close()

    def _mark(self) -> None:
        """Ends the journal by a mark, by which damage before it is seen."""
        if self._broken is None and not self._marked:
            self._put(b"")  # (nobody waits for it: where that fails, there is none)

    def _put_commit(self, commit: _Commit) -> Exception | None:
        try:
            payload = b"".join(commit.parts)
        except MemoryError as why:
            return why
        return self._put(payload) if payload else None

    def _put(self, payload: bytes) -> Exception | None:
        """Takes a payload to the disk, and gives why that failed."""
        if self._broken is not None:
            return self._broken
        try:
            at, frame = self._numbers.end, self._numbers.put(payload)
        except (Error, MemoryError) as why:
            return why
        try:
            self._write_frame(frame, at)
        except (OSError, MemoryError) as why:
            self._numbers.unwritten()
            return why
        try:
            os.fdatasync(self._file)
        except OSError as why:
            self._numbers.failed()
            return self._end(why)
        try:
            self._folder.stand()
        except OSError as why:
            self._numbers.failed()
            return self._end_moved(why)
        except MemoryError as why:  # (the next write goes over this one)
            self._numbers.unwritten()
            return why
        self._numbers.synced()
        self._marked = not payload
        return None

    def _write_frame(self, frame: bytes, at: int) -> None:
        """Writes a frame. Where the file is too short it grows, if there is room for that."""
        end = at + len(frame)
        if end > self._room:
            try:
                write(self._file, frame + _GROWTH, at)
                self._room = end + len(_GROWTH)
                return
            except (OSError, MemoryError):
                pass
        write(self._file, frame, at)

    def _end(self, why: BaseException | None) -> Exception:
        """From now on nothing is kept."""
        self._broken = Unavailable(
            f"the disk does not say what it holds ({why}): mend it, and start the service again"
        )
        return self._broken

    def _end_moved(self, why: OSError) -> Exception:
        """From now on nothing is kept: another process may have begun at the path."""
        self._broken = Unavailable(
            f"the state folder is no longer at its path ({why}): put it back there, and start the "
            "service again"
        )
        return self._broken


def _joined(payloads: list[bytes]) -> Iterable[bytes]:
    """The payloads, several at a time where they are short."""
    some: list[bytes] = []
    size = 0
    for payload in payloads:
        some.append(payload)
        size += len(payload)
        if size >= _PIECE:
            yield b"".join(some)
            some, size = [], 0
    if some:
        yield b"".join(some)


def _warn(why: Exception | None) -> None:
    if why is not None:
        with contextlib.suppress(Exception):  # (who is warned must not end a call)
            _LOG.warning("uses are not kept: %s", why)


def _warn_of_snapshot(why: BaseException) -> None:
    with contextlib.suppress(Exception):  # (who is warned must not end a call)
        _LOG.warning("the snapshot stays as it is: %s", why)


def _close(file: int) -> None:
    if file >= 0:
        os.close(file)


def _leave_all() -> None:
    for keeper in list(_keepers):
        keeper.leave()


_keepers: weakref.WeakSet[_Keeper] = weakref.WeakSet()
os.register_at_fork(after_in_child=_leave_all)
