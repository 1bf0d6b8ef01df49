"""What the C library says of a state folder: what is due, frames, and what a file holds."""

from __future__ import annotations

import threading
from collections.abc import Callable

from . import _library as lib
from ._folder import ID_FILE, Folder
from ._words import clause, no_memory
from .errors import Damaged, OtherFormat, Unavailable


def messages_of(payload: bytes) -> bytes:
    """The messages of a payload. Another writer may put a position before them."""
    bears = lib.Bears()
    lib.library.svid_journal_bears(payload, len(payload), lib.address(bears))
    return payload[bears.messages :]


class Numbers:
    """`svid_folder` of the C library, given to one call at a time."""

    def __init__(self, folder_id: bytes, oldest: int, newest: int) -> None:
        self._lock = threading.Lock()
        self._folder_id = folder_id
        self._folder = lib.Folder()
        self._told = lib.Told()
        self._at = lib.address(self._folder)
        self._run(lib.library.svid_journal_open, oldest, newest)

    @property
    def newest(self) -> int:
        """The number of the journal that grows."""
        return self._folder.newest

    @property
    def end(self) -> int:
        """Where the next frame goes in it."""
        return self._folder.end

    @property
    def ended(self) -> bool:
        """Whether a sync failed."""
        return bool(self._folder.ended)

    def begin(self) -> None:
        self._run(lib.library.svid_journal_begin)

    def due(self) -> tuple[int, int]:
        """The call of the system that is due, and the number of its journal."""
        due = lib.Due()
        self._run(lib.library.svid_journal_due, lib.address(due))
        return due.call, due.journal

    def answer(self, went_well: bool) -> None:
        self._run(lib.library.svid_journal_answer, int(went_well))

    def put(self, payload: bytes) -> bytes:
        """The frame of a payload for the journal that grows."""
        return self._frame(lib.library.svid_journal_put, payload)

    def piece(self, payload: bytes) -> bytes:
        """The frame of the next piece of the snapshot."""
        return self._frame(lib.library.svid_journal_piece, payload)

    def synced(self) -> None:
        self._run(lib.library.svid_journal_synced)

    def unwritten(self) -> None:
        self._run(lib.library.svid_journal_unwritten)

    def failed(self) -> None:
        self._run(lib.library.svid_journal_failed)

    def _frame(self, call: Callable[..., int], payload: bytes) -> bytes:
        room = bytearray(len(payload) + lib.FRAME_MORE)
        lent = (self._folder_id, payload, len(payload), lib.address(room), len(room))
        with self._lock:
            _judge(call(self._at, *lent, lib.address(self._told)))
            return bytes(room[: self._told.len])

    def _run(self, call: Callable[..., int], *lent: object) -> None:
        with self._lock:
            _judge(call(self._at, *lent))


def _judge(status: int) -> None:
    if status != lib.OK:
        raise Unavailable(
            clause(status) if status in lib.FOLDER_FAULTS else f"libsvid answered {status}"
        )


class File:
    """What a file of the folder holds."""

    def __init__(self, folder: Folder, name: str, number: int, folder_id: bytes | None) -> None:
        """Reads it: a snapshot has the number 0. Raises Damaged, OtherFormat and OSError."""
        self.name = str(folder.path / name)
        self.number = number
        self.messages: list[bytes] = []
        content = folder.read(name)
        status = self._read(content, bytes(16) if folder_id is None else folder_id)
        ends = (lib.FILE_END, lib.FILE_OTHER)
        if status not in ends and not self.at and _begins_as_messages(content):
            raise ValueError(
                f"{self.name} is of an older svidd: start a newer one in the folder once"
            )
        if folder_id is None and content.strip(b"\0"):
            raise ValueError(
                f"the file {ID_FILE} is missing in {folder.path}, and {self.name} can't be read "
                "without it: put back a copy"
            )
        if status == lib.FILE_DAMAGE:
            raise Damaged(self.name, self.at)
        self.is_torn = status == lib.FILE_TEAR

    def _read(self, content: bytes, folder_id: bytes) -> int:
        """Reads the frames, and gives the status that ends them."""
        reader, frame = lib.Reader(), lib.Frame()
        lent = (lib.address(reader), lib.address(frame))
        read = lib.library.svid_journal_read
        while True:
            status: int = read(folder_id, self.number, content, len(content), *lent)
            self.at = reader.at
            if status != lib.OK:
                break
            if messages := messages_of(content[frame.payload : frame.payload + frame.len]):
                self.messages.append(messages)
        if status == lib.FILE_OTHER:
            raise OtherFormat(self.name, frame.format)
        if status in (lib.FILE_END, lib.FILE_TEAR, lib.FILE_DAMAGE):
            return status
        raise RuntimeError(f"libsvid answered {status}, which include/svid.h does not explain")


def _begins_as_messages(content: bytes) -> bool:
    """Whether it may be a file of an older version, which is messages without frames.

    The library then finds no fault at its beginning. (What is cut off there goes on with zeros.)
    """
    told, text = lib.Told(), content[:64] + bytes(64)
    lent = (text, len(text), None, 0, lib.address(told))
    status = lib.library.svid_entries_read(*lent)
    if status == lib.NO_MEMORY:
        raise no_memory()
    return status != lib.MAGIC or told.message > 1
