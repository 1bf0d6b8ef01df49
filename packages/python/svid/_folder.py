"""The calls of the system on a state folder, and what its files are called."""

from __future__ import annotations

import datetime
import errno
import fcntl
import os
import pathlib
import re
import socket
import stat

from .errors import Held

Path = str | os.PathLike[str]
LOCK = "lock"
ID_FILE = "place"
SNAPSHOT = "snapshot"
FRAMES = "frames"
"""It is there while a folder of an older svidd has no snapshot of frames yet."""
UNFINISHED = ".new"
_JOURNAL = re.compile(r"journal\.([1-9][0-9]{0,19})")
_ID_TEXT = re.compile(rb"([0-9A-Fa-f]{32})\n?")
_MADE = os.O_WRONLY | os.O_CREAT | os.O_EXCL


def journal_name(number: int) -> str:
    """The name of the journal of this number."""
    return f"journal.{number}"


class Folder:
    """A folder that this process holds, with the calls of the system on it by the names of files.

    Each may raise OSError.
    """

    def __init__(self, path: Path) -> None:
        """Makes the folder where it is not there, and locks it. Raises Held."""
        self.path = pathlib.Path(path).absolute()  # (the process may change its folder)
        self._make()
        self._own: list[int] = []
        try:
            self._own.append(os.open(self.path, os.O_RDONLY | os.O_DIRECTORY))
            self._own.append(self._held())
            self._is = [_identity(os.fstat(it)) for it in self._own]
        except BaseException:
            self.close()
            raise

    def close(self) -> None:
        """Lets go of the folder. (A lock is there until each process has closed the file.)"""
        while self._own:
            os.close(self._own.pop())

    def journals(self) -> list[int]:
        """The numbers of the journals, in rising order."""
        found = (_JOURNAL.fullmatch(name) for name in os.listdir(self.path))
        return sorted(int(it[1]) for it in found if it and int(it[1]) < 2**64)

    def read(self, name: str) -> bytes:
        """All bytes of a file."""
        with open(regular(self.path / name, os.O_RDONLY), "rb") as file:
            return file.read()

    def create(self, name: str) -> int:
        """Opens a new file, instead of one that has the name."""
        self.remove(name)
        return os.open(self.path / name, _MADE, 0o600)

    def rename(self, old: str, new: str) -> None:
        os.rename(self.path / old, self.path / new)

    def remove(self, name: str) -> None:
        """Removes a file. One that is not there is removed."""
        (self.path / name).unlink(missing_ok=True)

    def sync(self) -> None:
        """Forces the names of the folder to the disk."""
        os.fsync(self._own[0])

    def stand(self) -> None:
        """Raises OSError unless the path leads to this folder, with the lock that is held.

        Somebody may have removed or moved it, or mounted another one over it. The lock keeps no
        other process from what is there now. It makes two calls, and reads no disk.
        """
        for path, own in zip((self.path, self.path / LOCK), self._is):
            if _identity(os.stat(path)) != own:
                why = "It is another file than the one that was opened"
                raise OSError(errno.ESTALE, why, str(path))

    def folder_id(self) -> bytes | None:
        """The ID of the folder, 16 bytes; None where it has none. Raises ValueError."""
        try:
            text = self.read(ID_FILE)
        except FileNotFoundError:
            return None
        found = _ID_TEXT.fullmatch(text)
        if not found:
            raise ValueError(
                f"{self.path / ID_FILE} is not 32 hexadecimal digits: put back a copy: no file of "
                "the folder can be read without it"
            )
        return bytes.fromhex(found[1].decode())

    def keep_folder_id(self, folder_id: bytes, is_empty: bool) -> None:
        """Keeps the ID, before anything is kept that can't be read without it.

        A start that failed or was killed may have left a file that has it, and an empty folder
        itself: no later sync vouches for a name whose sync failed. So the file is made again.
        """
        if is_empty:
            self._sync_above()
        file = self.create(ID_FILE + UNFINISHED)
        try:
            write(file, folder_id.hex().encode() + b"\n", 0)
            os.fdatasync(file)
        finally:
            os.close(file)
        self.rename(ID_FILE + UNFINISHED, ID_FILE)
        self.sync()

    def _sync_above(self) -> None:
        try:
            _sync_folder(self.path.parent)
        except OSError as why:
            # (Who may not read the folder above has not made this one. Where that folder is only
            # read, it may have no sync.)
            if why.errno not in (errno.EACCES, errno.EPERM, errno.EINVAL):
                raise self._unsure(why) from why

    def _make(self) -> None:
        """Makes the folder where it is not there, so that its name lasts.

        Where the sync of the folder above fails, no later sync vouches for the name. So the folder
        is removed, and the next start makes it again.
        """
        try:
            os.mkdir(self.path, 0o700)
        except FileExistsError:
            return
        try:
            _sync_folder(self.path.parent)
        except OSError as why:
            try:
                os.rmdir(self.path)
            except OSError:
                raise self._unsure(why) from why
            raise

    def _unsure(self, why: OSError) -> OSError:
        return OSError(
            why.errno,
            f"the name of {self.path} may not last ({why}): mend the disk, remove this folder, "
            "which keeps nothing yet, and start again",
        )

    def _held(self) -> int:
        """The lock file, locked, with the name of this process."""
        file = regular(self.path / LOCK, os.O_RDWR | os.O_CREAT)
        try:
            fcntl.flock(file, fcntl.LOCK_EX | fcntl.LOCK_NB)
            now = datetime.datetime.now(datetime.timezone.utc)
            name = f"process {os.getpid()} on {socket.gethostname()} since {now:%Y-%m-%dT%H:%M:%SZ}"
            os.ftruncate(file, 0)
            write(file, name.encode() + b"\n", 0)
        except BlockingIOError as error:
            holder = os.pread(file, 200, 0).decode(errors="replace").strip()
            os.close(file)
            raise Held(str(self.path), holder or "another process") from error
        except BaseException:
            os.close(file)
            raise
        return file


def write(file: int, data: bytes, at: int) -> None:
    """Writes all of it at an offset of a file."""
    rest = memoryview(data)
    while rest:
        written = os.pwrite(file, rest, at)
        rest, at = rest[written:], at + written


def _identity(of: os.stat_result) -> tuple[int, int]:
    return of.st_dev, of.st_ino


def regular(path: Path, how: int) -> int:
    """Opens a regular file. (To open a pipe, or to read one, may take for ever.)"""
    file = os.open(path, how | os.O_NONBLOCK, 0o600)
    if not stat.S_ISREG(os.fstat(file).st_mode):
        os.close(file)
        raise OSError(errno.EINVAL, "Not a regular file", str(path))
    return file


def _sync_folder(path: pathlib.Path) -> None:
    folder = os.open(path, os.O_RDONLY | os.O_DIRECTORY)
    try:
        os.fsync(folder)
    finally:
        os.close(folder)
