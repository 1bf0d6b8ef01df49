"""A state folder: what it keeps over restarts, kills, losses of power, and calls that fail."""

import contextlib
import errno
import functools
import gc
import hashlib
import itertools
import logging
import os
import pathlib
import random
import resource
import select
import shutil
import signal
import socket
import struct
import subprocess
import threading
import time

import pytest
import svid
from making import (
    PATIENCE,
    SUBJECT,
    answering,
    fresh,
    joined,
    no_logger,
    status_of,
    validator,
)
from svid import _folder, _journal, _library
from svid.records import entries_of

BEGUN = int(time.time())
FRAME = 120  # bytes of a frame with one use


def use(number):
    """A use of now, by a number."""
    return svid.Use(BEGUN + 3600, number.to_bytes(32, "big"), b"p" * 16, BEGUN)


def append(journal, *numbers):
    for it in numbers:
        journal.append(use(it).message, PATIENCE)


def found(folder):
    """The numbers of the uses that a start finds in a folder."""
    with contextlib.closing(svid.Journal(folder)) as journal:
        return loaded(journal)


def loaded(journal):
    """The numbers of the uses that a start has found."""
    messages = []
    journal.load(messages.append)
    return {int.from_bytes(key, "big") for *_, key, _ in entries_of(b"".join(messages))}


def names(folder):
    return sorted(it.name for it in folder.iterdir())


class Other:
    """Another process: a fork of this one, which takes less than a Python that starts.

    It does some work, which gets what writes to the pipe that `said` reads, and ends, or is killed.
    """

    def __init__(self, work):
        reader, writer = os.pipe()
        self._child = os.fork()
        if not self._child:
            try:
                work(functools.partial(os.write, writer))
            finally:
                os._exit(1)
        os.close(writer)
        self.said = open(reader, "rb")

    def __enter__(self):
        return self

    def __exit__(self, *_):
        self.kill()
        self.said.close()

    def kill(self):
        if self._child:
            os.kill(self._child, signal.SIGKILL)
            status_of(self._child)
            self._child = 0


def until(true):
    """Waits until something is true."""
    end = time.monotonic() + PATIENCE
    while not true():
        assert time.monotonic() < end
        time.sleep(0.001)


def test_a_validator_goes_on_with_its_record(tmp_path):
    used, withdrawn, other = fresh(jti="1"), fresh(jti="2"), fresh(jti="3")
    with validator(state=tmp_path / "state") as checks:
        assert checks.waits
        validator_id = checks.check(used).use.validator_id
        assert checks.withdraw(withdrawn).validator_id == validator_id
    with validator(state=str(tmp_path / "state")) as checks:
        with pytest.raises(svid.Replayed):
            checks.check(used)
        with pytest.raises(svid.Withdrawn):
            checks.check(withdrawn)
        accepted = checks.check(other)
        assert (accepted.spiffe_id, accepted.use.validator_id) == (SUBJECT, validator_id)
        assert len(checks.report().uses) == 3
    assert (tmp_path / "state" / "place").read_text() == validator_id.hex() + "\n"
    assert not validator().waits


def test_an_id_beside_a_folder(tmp_path):
    with pytest.raises(ValueError):
        validator(state=tmp_path, validator_id=b"p" * 16)
    with pytest.raises(ValueError):
        validator(wait=-1)
    with pytest.raises(FileNotFoundError):
        validator(state=tmp_path / "none" / "state")


def test_a_validator_that_is_not_made_lets_go_of_the_folder(tmp_path):
    """At once, though its error refers to it."""
    with pytest.raises(svid.BadBundles) as raised:
        validator(b"", state=tmp_path)
    with validator(state=tmp_path) as checks, validator() as ahead:
        checks.check(fresh())
        checks.take(ahead.check(fresh(jti="1"), time.time() + 9).use.message)
        checks._journal.snapshot(checks.parts)
    with pytest.raises(svid.TooFar) as raised_later:
        validator(state=tmp_path, ahead=0)
    validator(state=tmp_path).close()
    assert raised.value and raised_later.value


def test_the_files_of_a_folder(tmp_path):
    """By an own writer of the format (docs/FORMATS.md)."""
    with contextlib.closing(svid.Journal(tmp_path)) as journal:
        assert journal.wants_snapshot
        append(journal, 1, 2)
        journal.snapshot(lambda: [use(1).message, use(2).message])
        assert not journal.wants_snapshot
        append(journal, 3)
        folder_id = journal.validator_id
    with contextlib.closing(svid.Journal(tmp_path)) as journal:
        assert journal.validator_id == folder_id and not journal.torn
    assert names(tmp_path) == ["journal.2", "journal.3", "lock", "place", "snapshot"]
    assert (tmp_path / "place").read_bytes() == folder_id.hex().encode() + b"\n"
    snapshot = frames(b"svidsnp", 0, folder_id, use(1).message, use(2).message, b"")
    assert (tmp_path / "snapshot").read_bytes() == snapshot
    grown = (tmp_path / "journal.2").read_bytes()
    assert grown.rstrip(b"\0") == frames(b"svidjnl", 2, folder_id, use(3).message, b"").rstrip(
        b"\0"
    )
    assert (tmp_path / "journal.3").read_bytes() == b""
    assert {it.stat().st_mode & 0o777 for it in tmp_path.iterdir()} == {0o600}


def frame(kind, number, folder_id, count, payload, form=2):
    numbers = struct.pack(">QI", count, form << 24 | len(payload))
    title = kind + number.to_bytes(8, "big") + folder_id
    tag = hashlib.sha256(bytes([form]) + title + numbers + payload).digest()[:20]
    return tag + numbers + payload + b"\xff" * (-len(payload) % (32 if form == 1 else 8))


def frames(kind, number, folder_id, *payloads):
    return b"".join(frame(kind, number, folder_id, n, it) for n, it in enumerate(payloads, 1))


def test_a_folder_that_another_writer_wrote(tmp_path):
    folder_id = b"f" * 16
    (tmp_path / "place").write_text(folder_id.hex().upper())
    (tmp_path / "snapshot").write_bytes(frames(b"svidsnp", 0, folder_id, use(1).message, b""))
    (tmp_path / "snapshot.new").write_bytes(b"unfinished")
    (tmp_path / "place.new").write_bytes(b"unfinished")
    for number in 9, 10:
        text = frames(b"svidjnl", number, folder_id, use(number).message * 2, b"", use(50).message)
        (tmp_path / f"journal.{number}").write_bytes(text + bytes(7))
    for name in "journal.0", "journal.010", "journal.x", f"journal.{2**64}", "other":
        (tmp_path / name).write_bytes(b"not a journal")
    assert found(tmp_path) == {1, 9, 10, 50}
    assert "journal.11" in names(tmp_path) and "snapshot.new" not in names(tmp_path)
    assert found(tmp_path) == {1, 9, 10, 50}
    assert "place.new" not in names(tmp_path) and "journal.12" in names(tmp_path)


def test_a_frame_of_another_file_is_none(tmp_path):
    """A journal that is another one's, or another folder's, is not taken for this one's."""
    folder_id = b"f" * 16
    (tmp_path / "place").write_text(folder_id.hex())
    for number, of, whose in (1, 2, folder_id), (3, 3, b"g" * 16):
        text = frames(b"svidjnl", of, whose, use(number).message)
        (tmp_path / f"journal.{number}").write_bytes(text)
    with contextlib.closing(svid.Journal(tmp_path)) as journal:
        assert journal.torn == tuple(str(tmp_path / f"journal.{it}") for it in (1, 3))
    assert found(tmp_path) == set()


def test_a_process_that_changes_its_folder(tmp_path, monkeypatch):
    """A path without its beginning is that of the start, also where another folder has it now."""
    for name in "one", "other/state":
        (tmp_path / name).mkdir(parents=True)
    monkeypatch.chdir(tmp_path / "one")
    later = fresh(jti="1")
    with validator(state="state") as checks:
        checks.check(fresh())
        monkeypatch.chdir(tmp_path / "other")
        checks.check(later)
        checks._journal.snapshot(checks.parts)
    assert names(tmp_path / "other/state") == []
    monkeypatch.chdir(tmp_path / "one")
    with validator(state="state") as checks:
        with pytest.raises(svid.Replayed):
            checks.check(later)


def test_one_process_holds_a_folder(tmp_path):
    (tmp_path / "lock").write_text("a longer name of who held it before" * 9)
    journal = svid.Journal(tmp_path)
    with pytest.raises(svid.Held) as raised:
        svid.Journal(tmp_path)
    name = f"process {os.getpid()} on {socket.gethostname()} since "
    assert raised.value.holder.startswith(name) and str(raised.value).count(name) == 1
    assert len(raised.value.holder) == len(name + "2026-01-01T00:00:00Z")
    assert opens_elsewhere(tmp_path) == "Held"
    journal.close()
    journal.close()
    assert opens_elsewhere(tmp_path) == "Journal"


def opens_elsewhere(folder):
    """What another process says that opens a folder."""
    opens = functools.partial(answer, lambda: type(svid.Journal(folder)).__name__)
    with Other(lambda tell: tell(opens().encode())) as other, answering(other, "it"):
        return other.said.read().decode()


def test_who_waits_for_a_folder_takes_one_descriptor_no_more(tmp_path):
    with validator(state=tmp_path):
        before = os.listdir("/proc/self/fd")
        for _ in range(3):
            with pytest.raises(svid.Held):
                svid.Journal(tmp_path)
        assert len(os.listdir("/proc/self/fd")) == len(before)


def test_a_journal_that_is_dropped_lets_go(tmp_path):
    journal = svid.Journal(tmp_path)
    append(journal, 1)
    del journal
    gc.collect()

    def is_free():
        with contextlib.suppress(svid.Held):
            svid.Journal(tmp_path).close()
            return True

    until(is_free)
    assert found(tmp_path) == {1}


def test_closed(tmp_path):
    journal = svid.Journal(tmp_path)
    append(journal, 1)
    journal.close()
    for call in (
        lambda: append(journal, 2),
        lambda: journal.snapshot(lambda: []),
        lambda: journal.snapshot_soon(lambda: []),
    ):
        with pytest.raises(svid.Closed):
            call()
    checks = validator(state=tmp_path)
    checks.close()
    checks.close()
    with pytest.raises(svid.Closed):
        checks.check(fresh())


def answer(call):
    """What a call says, or the name of its error."""
    try:
        return str(call())
    except Exception as error:
        return type(error).__name__


def test_a_fork_does_not_go_on_with_a_journal(tmp_path):
    """And the lock is the parent's alone: it is free once that closes the journal."""
    journal = svid.Journal(tmp_path)
    append(journal, 1)
    reader, writer = os.pipe()
    child = os.fork()
    if child == 0:
        try:
            calls = [lambda: append(journal, 2), lambda: journal.snapshot(list), journal.close]
            os.write(writer, " ".join(map(answer, calls)).encode())
            signal.pause()
        finally:
            os._exit(1)
    try:
        assert select.select([reader], [], [], PATIENCE)[0]
        assert os.read(reader, 100) == b"Forked Forked None"
        append(journal, 3)
        journal.close()
        assert found(tmp_path) == {1, 3}
    finally:
        os.kill(child, signal.SIGKILL)
        status_of(child)
        os.close(reader)
        os.close(writer)


def test_a_new_process_does_not_hold_the_folder(tmp_path):
    """Nor one that this process starts."""
    journal = svid.Journal(tmp_path)
    with subprocess.Popen(["sleep", "60"]) as other:
        try:
            journal.close()
            svid.Journal(tmp_path).close()
        finally:
            other.kill()


def test_messages_are_bytes_of_some_length(tmp_path):
    with contextlib.closing(svid.Journal(tmp_path)) as journal:
        with pytest.raises(ValueError):
            journal.append(bytes(16_777_216))
        journal.append(bytearray(use(1).message), PATIENCE)
        journal.append(memoryview(use(2).message * 200_000), PATIENCE)
        journal.append(b"", PATIENCE)
        append(journal, 3)
    assert found(tmp_path) == {1, 2, 3}


# -- Threads, and the time that a disk takes


@pytest.fixture
def slow(monkeypatch):
    """A disk whose syncs of files wait for `go`, but not for ever; `syncs` has how many came."""

    class Slow:
        syncs = 0
        go = threading.Event()

    real = os.fdatasync

    def fdatasync(file):
        slow.syncs += 1
        slow.go.wait(PATIENCE)
        real(file)

    slow = Slow()
    monkeypatch.setattr(os, "fdatasync", fdatasync)
    yield slow
    slow.go.set()


def waiting(journal):
    """How many messages wait for the next write."""
    commit = journal._keeper._commit
    return len(commit.parts) if commit else 0


def test_threads_share_a_sync(tmp_path, slow):
    with contextlib.closing(opened(tmp_path, slow)) as journal:
        threads = [
            threading.Thread(target=append, args=(journal, it), daemon=True) for it in range(9)
        ]
        threads[0].start()
        try:
            until(lambda: slow.syncs == 1)
            for it in threads[1:]:
                it.start()
            until(lambda: waiting(journal) == 8)
        finally:
            slow.go.set()
        joined(*threads)
        assert slow.syncs == 2
    assert found(tmp_path) == set(range(9))


def opened(folder, slow):
    """A journal whose syncs wait from now on."""
    slow.go.set()
    journal = svid.Journal(folder)
    slow.go.clear()
    slow.syncs = 0
    return journal


def test_an_append_waits_no_longer_than_it_wants(tmp_path, slow):
    with contextlib.closing(opened(tmp_path, slow)) as journal:
        for _ in range(2):
            with waiting_for_less(slow), pytest.raises(svid.Unavailable, match="in time"):
                journal.append(use(1).message, wait=0.05)
        slow.go.set()
        append(journal, 2)
    assert found(tmp_path) == {1, 2}


@contextlib.contextmanager
def waiting_for_less(slow, seconds=min(30, PATIENCE / 3)):
    """The call ends in that time. If it does not, the disk answers, and so it ends."""
    late = threading.Timer(seconds, slow.go.set)
    late.start()
    try:
        yield
        assert not slow.go.is_set(), "it waits for the disk"
    finally:
        late.cancel()


def test_a_disk_that_does_not_answer_holds_so_much(tmp_path, slow):
    with contextlib.closing(opened(tmp_path, slow)) as journal:
        for _ in range(2):
            with pytest.raises(svid.Unavailable, match="in time"):
                journal.append(use(1).message * 200_000, wait=0.05)
            until(lambda: slow.syncs == 1)
        with pytest.raises(svid.Unavailable, match="too much"):
            journal.append(use(1).message * 200_000)
        slow.go.set()


def test_a_check_waits_for_the_disk(tmp_path, slow):
    """And its token is used up where the disk does not answer in time."""
    slow.go.set()
    with validator(state=tmp_path, wait=0.05) as checks:
        slow.go.clear()
        one, two = fresh(jti="1"), fresh(jti="2")
        for call in checks.check, checks.withdraw:
            with pytest.raises(svid.Unavailable):
                call(one if call == checks.check else two)

        def is_refused(token, why):  # (a check may be late before it is judged)
            with pytest.raises((why, svid.Unavailable)) as raised:
                checks.check(token)
            return raised.type is why

        until(lambda: is_refused(one, svid.Replayed))
        until(lambda: is_refused(two, svid.Withdrawn))
        slow.go.set()


def test_a_mark_stands_behind_a_burst(tmp_path, monkeypatch):
    """Once nobody has appended for a while; and behind a journal that is closed."""
    monkeypatch.setattr(_journal, "_QUIET", 0.01)
    with contextlib.closing(svid.Journal(tmp_path)) as journal:
        append(journal, 1)
        end = (tmp_path / "journal.1").read_bytes().rstrip(b"\0")
        whole = frames(b"svidjnl", 1, journal.validator_id, use(1).message, b"").rstrip(b"\0")
        until(lambda: (tmp_path / "journal.1").read_bytes().rstrip(b"\0") == whole)
        assert end in (whole, whole[: len(end)])


def test_a_mark_stands_behind_a_journal_that_another_one_follows(tmp_path, monkeypatch):
    """So that damage of its last use is seen. It may stay, where the power fails meanwhile."""
    monkeypatch.setattr(_journal, "_QUIET", PATIENCE)
    state, copy = tmp_path / "state", tmp_path / "copy"

    def parts():
        shutil.copytree(state, copy)
        yield use(1).message

    with contextlib.closing(svid.Journal(state)) as journal:
        append(journal, 1)
        journal.snapshot(parts)
    content = bytearray((copy / "journal.1").read_bytes())
    content[content.index(use(1).key)] ^= 1
    (copy / "journal.1").write_bytes(content)
    with pytest.raises(svid.Damaged):
        svid.Journal(copy)


def test_a_quiet_journal_writes_nothing_more(tmp_path, monkeypatch):
    """Its thread waits for the next append, for however long that takes."""
    monkeypatch.setattr(_journal, "_QUIET", 0.01)
    with contextlib.closing(svid.Journal(tmp_path)) as journal:
        gate, waits = journal._keeper._gate, []
        real = gate.wait
        monkeypatch.setattr(gate, "wait", lambda most=None: (waits.append(most), real(most))[1])
        append(journal, 1)
        until(lambda: 0.01 in waits and waits[-1] is None)


def test_a_journal_grows_once_for_many_appends(tmp_path):
    """To force a new length to the disk takes longer than the bytes."""
    with contextlib.closing(svid.Journal(tmp_path)) as journal:
        for name in "journal.1", "journal.2":
            append(journal, 1)
            length = (tmp_path / name).stat().st_size
            append(journal, 2, 3)
            assert (tmp_path / name).stat().st_size == length
            journal.snapshot(lambda: [use(1).message])


# -- Snapshots


@pytest.mark.parametrize("call", ["check", "withdraw"])
def test_a_long_journal_becomes_a_snapshot(tmp_path, monkeypatch, call):
    monkeypatch.setattr(_journal, "_SMALL", 1000)
    tokens = [fresh(jti=str(it)) for it in range(40)]
    with validator(state=tmp_path) as checks:
        before = checks._journal._keeper._numbers.newest
        for it in tokens:
            getattr(checks, call)(it)
        until(lambda: checks._journal._keeper._numbers.newest > before)
        until(lambda: len([it for it in names(tmp_path) if it.startswith("journal")]) == 1)
        assert (tmp_path / "snapshot").stat().st_size > 400
    with validator(state=tmp_path) as checks:
        for it in tokens:
            with pytest.raises(svid.Replayed if call == "check" else svid.Withdrawn):
                checks.check(it)


def test_a_large_record_is_written_again_after_as_much(tmp_path):
    with contextlib.closing(svid.Journal(tmp_path)) as journal:
        journal.snapshot(lambda: [use(1).message])
        keeper = journal._keeper
        for kept, older, wants in [(100, 9, False), (100, 101, True), (1, 7, False), (1, 9, True)]:
            keeper._kept, keeper._older = kept << 20, older << 20
            assert journal.wants_snapshot == wants


def test_a_snapshot_is_of_all_journals_before_it(tmp_path, monkeypatch):
    """Those that a start found count once: else each check would want the next snapshot."""
    monkeypatch.setattr(_journal, "_SMALL", 10 * FRAME)
    with contextlib.closing(svid.Journal(tmp_path)) as journal:
        journal.snapshot(lambda: [use(1).message])
        append(journal, *range(8))
        assert not journal.wants_snapshot
    with contextlib.closing(svid.Journal(tmp_path)) as journal:
        for _ in range(2):
            append(journal, *range(8))
            assert journal.wants_snapshot
            journal.snapshot(lambda: [use(1).message])
            assert not journal.wants_snapshot
            append(journal, *range(8))
            assert not journal.wants_snapshot


def test_a_snapshot_that_failed_is_due_again(tmp_path, monkeypatch):
    """After a pause: the journals before it count too, else a disk with little room fills up."""
    monkeypatch.setattr(_journal, "_SMALL", 10 * FRAME)

    def fails():
        raise MemoryError

    with contextlib.closing(svid.Journal(tmp_path)) as journal:
        journal.snapshot(lambda: [use(1).message])
        append(journal, *range(12))
        with pytest.raises(MemoryError):
            journal.snapshot(fails)
        append(journal, 12)
        assert not journal.wants_snapshot
        journal._keeper._pause = 0.0
        assert journal.wants_snapshot
        journal.snapshot(lambda: [use(1).message])
        assert not journal.wants_snapshot


def test_starts_do_not_fill_the_folder(tmp_path):
    for number in range(20):
        with validator(state=tmp_path) as checks:
            checks.check(fresh(jti=str(number)))
    assert len([it for it in names(tmp_path) if it.startswith("journal")]) <= 9
    with validator(state=tmp_path) as checks:
        assert len(checks.report().uses) == 20


def test_a_snapshot_that_fails_is_told_and_loses_nothing(tmp_path, monkeypatch, caplog):
    def fails():
        yield use(1).message
        raise OSError(errno.EIO, "no disk")

    with contextlib.closing(svid.Journal(tmp_path)) as journal:
        append(journal, 1)
        with pytest.raises(OSError, match="no disk"):
            journal.snapshot(fails)
        assert "snapshot.new" not in names(tmp_path)
        append(journal, 2)
        assert not journal.wants_snapshot  # for a minute
        with caplog.at_level(logging.WARNING, "svid"):
            journal.snapshot_soon(fails)
            until(lambda: caplog.records)
        append(journal, 3)
        assert "snapshot" not in names(tmp_path)
        kept = [use(it).message for it in (1, 2, 3)]
        until(lambda: journal.snapshot_soon(lambda: kept) or "snapshot" in names(tmp_path))
    assert found(tmp_path) == {1, 2, 3}


def test_snapshots_leave_no_descriptor(tmp_path):
    def taken():
        journal.snapshot(lambda: [use(1).message])
        return len(os.listdir("/proc/self/fd"))

    with contextlib.closing(svid.Journal(tmp_path)) as journal:
        before = taken()
        assert [taken() for _ in range(9)][-1] <= before


def test_a_snapshot_for_which_there_is_no_thread(tmp_path, monkeypatch, caplog):
    """What was appended stays so, and the next snapshot is taken."""

    def start(_):
        raise RuntimeError("can't start new thread")

    with contextlib.closing(svid.Journal(tmp_path)) as journal:
        append(journal, 1)
        with monkeypatch.context() as patch, caplog.at_level(logging.WARNING, "svid"):
            patch.setattr(threading.Thread, "start", start)
            journal.snapshot_soon(lambda: [use(1).message])
        assert caplog.messages == ["the snapshot stays as it is: can't start new thread"]
        assert not journal.wants_snapshot  # for a minute
        journal.snapshot_soon(lambda: [use(1).message])
        until(lambda: "snapshot" in names(tmp_path))
    assert found(tmp_path) == {1}


def test_a_warning_that_fails_ends_no_call(tmp_path, monkeypatch):
    """The logger's server may be away. Whoever calls has done all that it should."""

    def start(_):
        raise RuntimeError("can't start new thread")

    with no_logger(), contextlib.closing(svid.Journal(tmp_path)) as journal:
        append(journal, 1)
        with monkeypatch.context() as patch:
            patch.setattr(threading.Thread, "start", start)
            journal.snapshot_soon(lambda: [use(1).message])
        journal.close()
        journal.append_soon(use(2).message)
    assert found(tmp_path) == {1}


def test_one_snapshot_is_taken_at_a_time(tmp_path):
    """Each check asks for one while one is due."""
    go, asked, before = threading.Event(), [], {*threading.enumerate()}

    def parts():
        asked.append(True)
        go.wait(PATIENCE)
        return [use(1).message]

    with contextlib.closing(svid.Journal(tmp_path)) as journal:
        append(journal, 1)
        for _ in range(9):
            journal.snapshot_soon(parts)
        made = {*threading.enumerate()} - before
        assert [it.name for it in made].count("svid-snapshot") == 1
        go.set()
        until(lambda: "snapshot" in names(tmp_path))
    assert found(tmp_path) == {1} and len(asked) == 1


def test_a_folder_for_which_there_is_no_thread(tmp_path, monkeypatch):
    """Nobody holds it, and it takes no descriptor."""

    def start(_):
        raise RuntimeError("can't start new thread")

    svid.Journal(tmp_path).close()
    before = os.listdir("/proc/self/fd")
    with monkeypatch.context() as patch:
        patch.setattr(threading.Thread, "start", start)
        with pytest.raises(RuntimeError, match="can't start new thread"):
            svid.Journal(tmp_path)
    assert len(os.listdir("/proc/self/fd")) == len(before)
    svid.Journal(tmp_path).close()


def test_an_empty_part_does_not_end_a_snapshot(tmp_path):
    with contextlib.closing(svid.Journal(tmp_path)) as journal:
        append(journal, 1, 2)
        journal.snapshot(lambda: [b"", use(1).message, b"", use(2).message])
    assert found(tmp_path) == {1, 2}


def test_appends_go_on_while_a_snapshot_is_written(tmp_path):
    with contextlib.closing(svid.Journal(tmp_path)) as journal:
        append(journal, 1)

        def parts():
            append(journal, 2)
            yield use(1).message
            append(journal, 3)

        journal.snapshot(parts)
        append(journal, 4)
        assert names(tmp_path) == ["journal.2", "lock", "place", "snapshot"]
    assert found(tmp_path) == {1, 2, 3, 4}


# -- Kills, tears, damage


def test_a_kill_at_any_time_loses_no_acceptance(tmp_path, monkeypatch):
    """The worker also replaces its snapshot all the while, and begins again each time."""
    told, state, chance = [], tmp_path / "state", random.Random(7)
    monkeypatch.setattr(_journal, "_SMALL", 2000)

    def work(turn, tell):
        checks = validator(state=state, verifies=lambda *_: True)

        def accepts(which):
            for number in itertools.count():
                text = fresh(jti=f"{turn} {which} {number}")
                checks.check(text)
                tell(f"{text}\n".encode())

        for which in range(3):
            threading.Thread(target=accepts, args=(which,), daemon=True).start()
        signal.pause()

    for turn in range(12):
        with Other(functools.partial(work, turn)) as worker, answering(worker, "the worker"):
            # (a kill while the worker starts shows nothing, and how fast it is differs by machine)
            first = b"".join(worker.said.readline() for _ in range(chance.randint(1, 40)))
            assert first
            time.sleep(chance.uniform(0, 0.01))
            worker.kill()
            rest = first + worker.said.read()
        told += rest[: rest.rindex(b"\n")].decode().split("\n")
    assert len(told) > 100
    with validator(state=state, verifies=lambda *_: True) as checks:
        for it in told:
            with pytest.raises(svid.Replayed):
                checks.check(it)


def crashed(folder, to):
    """A copy of the folder as it is."""
    shutil.copytree(folder, to)
    return to


def test_a_write_that_was_torn_anywhere(tmp_path):
    with contextlib.closing(svid.Journal(tmp_path / "state")) as journal:
        append(journal, 1, 2, 3)
        text = (tmp_path / "state" / "journal.1").read_bytes()
        begin, end = 2 * FRAME, 3 * FRAME
        uses = (use(it).message for it in (1, 2, 3))
        assert text[:end] == frames(b"svidjnl", 1, journal.validator_id, *uses)
        for cut in range(begin, end, 3):
            garbled = bytes([text[cut] ^ 1]) + text[cut + 1 : end]
            for rest in b"", bytes(end - cut) + text[end:], garbled:
                folder = crashed(tmp_path / "state", tmp_path / "crashed")
                (folder / "journal.1").write_bytes(text[:cut] + rest)
                with contextlib.closing(svid.Journal(folder)) as other:
                    assert loaded(other) == {1, 2}
                    is_blank = not (text[:cut] + rest)[begin:].strip(b"\0")
                    assert other.torn == (() if is_blank else (str(folder / "journal.1"),))
                shutil.rmtree(folder)


def test_a_write_that_was_torn_is_told(tmp_path, caplog):
    """To the operator, as a warning; a start after an orderly end tells nothing."""
    with validator(state=tmp_path / "state") as checks:
        for jti in "1", "2":
            checks.check(fresh(jti=jti))
    for cut in 0, 1:
        folder = crashed(tmp_path / "state", tmp_path / f"{cut}")
        (file,) = folder.glob("journal.*")
        file.write_bytes(file.read_bytes()[: 2 * FRAME - cut])
        with caplog.at_level(logging.INFO, "svid"), validator(state=folder) as checks:
            assert len(checks.report().uses) == 2 - cut
        told = [(it.levelname, it.getMessage()) for it in caplog.records]
        said = f"a crash cut off a write at the end of {file}: nobody had an answer"
        assert told == [("WARNING", said)] * cut
    folder = crashed(tmp_path / "state", tmp_path / "untold")
    (file,) = folder.glob("journal.*")
    file.write_bytes(file.read_bytes()[: 2 * FRAME - 1])
    with no_logger(), validator(state=folder) as checks:
        assert len(checks.report().uses) == 1


def test_each_changed_bit_is_found_and_named(tmp_path):
    """Up to the last mark, since nothing stands behind that."""
    with contextlib.closing(svid.Journal(tmp_path / "state")) as journal:
        append(journal, 1)
        journal.snapshot(lambda: [use(1).message])
        append(journal, 2, 3)
    chance = random.Random(7)
    for name, uses in ("snapshot", 1), ("journal.2", 2):
        text = (tmp_path / "state" / name).read_bytes()
        for at in range(uses * FRAME):
            folder = crashed(tmp_path / "state", tmp_path / "crashed")
            bad = bytearray(text)
            bad[at] ^= 1 << chance.randrange(8)
            (folder / name).write_bytes(bad)
            with pytest.raises(svid.Damaged) as raised:
                svid.Journal(folder)
            assert raised.value.file == str(folder / name)
            assert raised.value.offset == at // FRAME * FRAME
            assert f"{folder / name} is damaged at byte {raised.value.offset}" in str(raised.value)
            shutil.rmtree(folder)


def test_a_folder_of_another_format(tmp_path):
    folder_id = b"f" * 16
    (tmp_path / "place").write_text(folder_id.hex())
    for form, says in (1, "before its release"), (3, "or a later one"):
        (tmp_path / "journal.3").write_bytes(
            frame(b"svidjnl", 3, folder_id, 1, use(1).message, form)
        )
        with pytest.raises(svid.OtherFormat, match=says) as raised:
            svid.Journal(tmp_path)
        assert (raised.value.file, raised.value.format) == (str(tmp_path / "journal.3"), form)
        assert f"has format {form}" in str(raised.value)


def test_a_position_before_the_messages(tmp_path):
    """Another writer may put one there (docs/FORMATS.md): the messages after it are read."""
    folder_id, position = b"f" * 16, b"JSL\x01" + struct.pack(">QQQ", 3, 1, 2**40)
    (tmp_path / "place").write_text(folder_id.hex())
    payloads = [position + use(1).message, position, use(2).message, b""]
    (tmp_path / "journal.1").write_bytes(frames(b"svidjnl", 1, folder_id, *payloads))
    assert found(tmp_path) == {1, 2}


def test_the_most_that_one_append_takes(tmp_path):
    with contextlib.closing(svid.Journal(tmp_path)) as journal:
        with pytest.raises(ValueError, match="at most 16,777,215 bytes"):
            journal.append(bytes(16_777_216))
        journal.append(bytes(16_777_215), 1e300)


def test_no_messages_are_not_written(tmp_path):
    with contextlib.closing(svid.Journal(tmp_path)) as journal:
        folder_id = journal.validator_id
        journal.append(b"", PATIENCE)
        append(journal, 1)
    file = (tmp_path / "journal.1").read_bytes()
    assert file.rstrip(b"\0") == frames(b"svidjnl", 1, folder_id, use(1).message, b"").rstrip(b"\0")


def test_what_is_kept_behind_an_answer_may_fail(tmp_path, monkeypatch, caplog):
    def fails(*_):
        raise OSError(28, "no space")

    with contextlib.closing(svid.Journal(tmp_path)) as journal:
        append(journal, 1)
        monkeypatch.setattr(_journal, "write", fails)
        journal.append_soon(use(2).message)
        until(lambda: "no space" in caplog.text)
        monkeypatch.undo()
        append(journal, 3)
    assert found(tmp_path) == {1, 3}
    journal.append_soon(use(4).message)
    assert "closed" in caplog.text


def test_a_warning_that_fails_ends_no_writing(tmp_path, monkeypatch):
    def fails(*_):
        failed.append(True)
        raise OSError(28, "no space")

    failed = []
    with no_logger(), contextlib.closing(svid.Journal(tmp_path)) as journal:
        with monkeypatch.context() as patch:
            patch.setattr(_journal, "write", fails)
            journal.append_soon(use(1).message)
            until(lambda: len(failed) == 2)
        append(journal, 2)
    assert found(tmp_path) == {2}


def test_a_folder_of_an_older_version(tmp_path):
    """Its files are messages: they must not be taken for a write that was torn."""
    for name in "journal.1", "snapshot":
        (tmp_path / name).write_bytes(use(1).message)
        with pytest.raises(ValueError, match="older svidd"):
            svid.Journal(tmp_path)
        (tmp_path / name).unlink()
    (tmp_path / "frames.new").write_text("7")
    svid.Journal(tmp_path).close()
    assert "frames.new" not in names(tmp_path)
    (tmp_path / "frames").write_text("7\n")
    with pytest.raises(ValueError, match="older svidd"):
        svid.Journal(tmp_path)


def test_a_start_without_memory_is_told_of_no_older_version(tmp_path, monkeypatch):
    """An operator would look for one, and the file may be torn alone."""
    with contextlib.closing(svid.Journal(tmp_path)) as journal:
        append(journal, 1)
    (tmp_path / "journal.2").write_bytes(b"torn" * 9)
    with monkeypatch.context() as patched:
        patched.setattr(_library.library, "svid_entries_read", lambda *_: _library.NO_MEMORY)
        with pytest.raises(MemoryError):
            svid.Journal(tmp_path)
    assert found(tmp_path) == {1}


def test_an_id_that_is_lost_or_bad(tmp_path):
    with contextlib.closing(svid.Journal(tmp_path)) as journal:
        append(journal, 1)
    for bad in (
        "",
        "abc",
        "z" * 32,
        " " + journal.validator_id.hex(),
        journal.validator_id.hex() + "\n\n",
    ):
        (tmp_path / "place").write_text(bad)
        with pytest.raises(ValueError, match="32 hexadecimal digits"):
            svid.Journal(tmp_path)
    (tmp_path / "place").unlink()
    blank = tmp_path / "blank"  # (a crash may leave a file that has no bytes yet, or zeros)
    blank.mkdir()
    for content in b"", bytes(5000):
        (blank / "journal.1").write_bytes(content)
        svid.Journal(blank).close()
        (blank / "place").unlink()
    for _ in range(2):  # (each time it lets go of the folder)
        with pytest.raises(ValueError, match="place is missing"):
            svid.Journal(tmp_path)
    assert "place" not in names(tmp_path)
    (tmp_path / "place").write_text(journal.validator_id.hex())
    with contextlib.closing(svid.Journal(tmp_path)) as journal:
        journal.snapshot(lambda: [use(1).message])
    for name in "place", "journal.3":
        (tmp_path / name).unlink(missing_ok=True)
    with pytest.raises(ValueError, match="place is missing .* and .*snapshot can't be read"):
        svid.Journal(tmp_path)


def test_files_that_are_none(tmp_path):
    for name in "lock", "place", "snapshot", "journal.1":
        os.mkfifo(tmp_path / name)
        with pytest.raises(OSError, match=f"Not a regular file.*{name}|No such device.*{name}"):
            svid.Journal(tmp_path)
        (tmp_path / name).unlink()


# -- A disk, call by call


class Disk:
    """The calls of the system that change a disk, as `os` of the modules under test.

    Before each of them `before` is called with its number. It knows what the disk surely has: the
    folder itself, the bytes of each file at its last sync, and the names at the last sync of the
    folder. No later sync vouches for a name whose sync failed, until the name changes again.
    """

    def __init__(self, folder, before):
        self._folder, self.before, self.calls = folder, before, 0
        self._synced, self.sure = {}, {}  # by inode: bytes; by name: inode
        self._stuck = set()  # names
        self.is_there = self._is_stuck = False  # the folder itself

    def __getattr__(self, name):
        return getattr(os, name)

    def _call(self, name, *given, **more):
        self.before(self.calls, name)
        self.calls += 1
        # (it knows of each sync, so nothing need go to the disk under the test)
        return None if name.endswith("sync") else getattr(os, name)(*given, **more)

    def _changed(self, path):
        self._stuck.discard(pathlib.Path(path).name)

    def mkdir(self, path, mode):
        if os.path.exists(path):
            raise FileExistsError
        self._call("mkdir", path, mode)
        self.is_there = self._is_stuck = False

    def rmdir(self, path):
        self._call("rmdir", path)

    def open(self, path, how, *mode):
        if not how & os.O_CREAT:
            return os.open(path, how, *mode)
        file = self._call("open", path, how, *mode)
        self._changed(path)
        return file

    def pwrite(self, *given):
        return self._call("pwrite", *given)

    def rename(self, old, new):
        self._call("rename", old, new)
        self._changed(new)

    def unlink(self, path):
        self._call("unlink", path)
        self._changed(path)

    def fdatasync(self, file):
        self._call("fdatasync", file)
        path = f"/proc/self/fd/{file}"
        self._synced[os.stat(path).st_ino] = pathlib.Path(path).read_bytes()

    def fsync(self, file):
        is_above = os.readlink(f"/proc/self/fd/{file}") != str(self._folder)
        now = {it.name: it.stat().st_ino for it in self._folder.iterdir()}
        unsure = {it for it in {*now, *self.sure} if now.get(it) != self.sure.get(it)}
        try:
            self._call("fsync", file)
        except OSError:
            if is_above:
                self._is_stuck = not self.is_there
            else:
                self._stuck |= unsure
            raise
        if is_above:
            self.is_there = self.is_there or not self._is_stuck
        else:
            old = {name: it for name, it in self.sure.items() if name in self._stuck}
            new = {name: it for name, it in now.items() if name not in self._stuck}
            self.sure = {**old, **new}

    def lost(self, to):
        """A folder with what a loss of power surely leaves, or none."""
        if self.is_there:
            to.mkdir()
            for name, inode in self.sure.items():
                if name != "lock":
                    (to / name).write_bytes(self._synced.get(inode, b""))
        return to


class Killed(BaseException):
    """The process is killed, and makes no call after this one."""


def removed(folder, why):
    """Does what someone does who reads that."""
    if "remove this folder" in str(why):
        shutil.rmtree(folder)


def run(folder, kept):
    """What a process does with a folder. `kept` gains each number that the journal acknowledges."""
    try:
        journal = svid.Journal(folder)
    except OSError as why:
        removed(folder, why)
        return
    try:
        for number in range(8):
            if number in (2, 5):
                with contextlib.suppress(OSError, svid.Unavailable):
                    have = sorted(kept)
                    journal.snapshot(lambda: [use(it).message for it in have])
            with contextlib.suppress(svid.Unavailable):
                append(journal, number)
                kept.add(number)
    finally:
        journal.close()


@pytest.fixture
def disk(tmp_path, monkeypatch):
    """Makes a disk under the folder `state`."""

    def made(before):
        it = Disk(tmp_path / "state", before)
        monkeypatch.setattr(_folder, "os", it)
        monkeypatch.setattr(_journal, "os", it)
        monkeypatch.setattr(pathlib.Path, "unlink", unlink(it))
        return it

    return made


def unlink(disk):
    def work(path, missing_ok=False):
        try:
            disk.unlink(path)
        except FileNotFoundError:
            if not missing_ok:
                raise

    return work


def test_a_loss_of_power_at_each_call_loses_no_acceptance(tmp_path, disk, monkeypatch):
    """Of what no sync came behind nothing is there, and of the rest all; or all is there."""
    kept, outcomes = set(), []

    def before(number, name):
        outcomes.append((number, set(kept)))
        made.lost(tmp_path / f"lost {number}")
        if (tmp_path / "state").exists():
            crashed(tmp_path / "state", tmp_path / f"killed {number}")

    made = disk(before)
    run(tmp_path / "state", kept)
    assert len(outcomes) > 40 and kept == set(range(8))
    monkeypatch.undo()
    for number, due in outcomes:
        for folder in tmp_path / f"lost {number}", tmp_path / f"killed {number}":
            for _ in range(2):
                assert due <= found(folder) <= set(range(8)), folder


def test_each_call_that_fails_loses_no_acceptance(tmp_path, disk, monkeypatch):
    failing, end = 0, False
    while not end:
        kept, count = set(), 0

        def before(number, name):
            nonlocal count
            count += 1
            if number == failing:
                raise OSError(errno.EIO, f"{name} fails")

        made = disk(before)
        run(tmp_path / "state", kept)
        end = count <= failing
        made.before = lambda number, name: None
        run(tmp_path / "state", kept)
        monkeypatch.undo()
        assert kept == set(range(8)), failing
        for folder in tmp_path / "state", made.lost(tmp_path / f"lost {failing}"):
            assert kept <= found(folder), (failing, folder)
            shutil.rmtree(folder)
        failing += 1
    assert failing > 40


def test_a_new_folder_whose_first_starts_end_anywhere(tmp_path, disk, monkeypatch):
    """Its own name lasts, and that of its ID: nothing that it keeps can be read without it."""
    state, lost = tmp_path / "state", tmp_path / "lost"

    def ends(made, at, why):
        """Whether a start ends by the call of this number."""
        count = itertools.count()

        def before(number, name):
            if next(count) == at:
                raise why

        made.before = before
        try:
            svid.Journal(state).close()
            return False
        except OSError as error:
            removed(state, error)
        except Killed:
            pass
        return True

    no_disk = OSError(errno.EIO, "no disk")
    for first, is_old in (Killed(), False), (no_disk, False), (no_disk, True):
        for at in range(100):
            for next_at in range(100):
                made = disk(lambda number, name: None)
                if is_old:  # (as an older version leaves an unused folder)
                    state.mkdir()
                    (state / "journal.1").touch()
                    made.is_there, made.sure = True, {
                        "journal.1": (state / "journal.1").stat().st_ino
                    }
                is_over = not ends(made, at, first)
                is_next_over = not ends(made, next_at, no_disk)
                made.before = lambda number, name: None
                with contextlib.closing(svid.Journal(state)) as journal:
                    append(journal, 1)
                monkeypatch.undo()
                assert found(made.lost(lost)) == {1}, (first, is_old, at, next_at)
                shutil.rmtree(lost)
                shutil.rmtree(state)
                if is_next_over:
                    break
            if is_over:
                break
        assert at > 10


def test_the_name_of_the_id_is_forced_before_a_journal_is_made(tmp_path, disk):
    """As include/svid.h says: no journal may be there without its ID."""
    calls = []
    disk(lambda number, name: calls.append(name))
    svid.Journal(tmp_path / "state").close()
    at = calls.index("rename")
    assert calls[at - 1 : at + 2] == ["fdatasync", "rename", "fsync"]


def test_the_folder_above_is_synced_while_nothing_is_kept(tmp_path, monkeypatch):
    real, synced, why = os.fsync, [], 0

    def fsync(file):
        if os.readlink(f"/proc/self/fd/{file}") == str(tmp_path):
            synced.append(file)
            if why:
                raise OSError(why, os.strerror(why))
        real(file)

    monkeypatch.setattr(os, "fsync", fsync)
    why = errno.EIO
    with pytest.raises(OSError, match="Input/output error"):
        svid.Journal(tmp_path / "made")
    assert not (tmp_path / "made").exists()
    folder = tmp_path / "found"
    folder.mkdir()
    with pytest.raises(OSError, match=f"name of {folder} may not last .* remove this folder"):
        svid.Journal(folder)
    assert "place" not in names(folder)
    synced.clear()
    # (another user may have made it, or it is mounted where nothing can be made)
    why = errno.EACCES
    svid.Journal(folder).close()
    assert len(synced) == 1
    why = errno.EIO
    svid.Journal(folder).close()
    assert len(synced) == 1  # it has a journal now
    for number, why in enumerate((errno.EPERM, errno.EINVAL)):
        (tmp_path / str(number)).mkdir()
        svid.Journal(tmp_path / str(number)).close()


def test_nothing_is_kept_behind_a_sync_that_failed(tmp_path, monkeypatch):
    with contextlib.closing(svid.Journal(tmp_path)) as journal:
        append(journal, 1)
        real, fails = os.fdatasync, [True]

        def fdatasync(file):
            if fails.pop() if fails else False:
                raise OSError(errno.EIO, "no disk")
            real(file)

        monkeypatch.setattr(os, "fdatasync", fdatasync)
        with pytest.raises(svid.Unavailable, match="no disk"):
            append(journal, 2)
        for _ in range(2):
            with pytest.raises(svid.Unavailable, match="start the service again"):
                append(journal, 3)
            with pytest.raises(svid.Unavailable, match="start the service again"):
                journal.snapshot(lambda: [use(1).message])
    assert {1} <= found(tmp_path) <= {1, 2}


def emptied(folder):
    for it in folder.iterdir():
        it.unlink()


def mounted_over(folder):
    other = folder.with_name("other")
    other.mkdir()
    subprocess.run(["mount", "--bind", other, folder], check=True)


MOVES = {
    "removed": shutil.rmtree,
    "moved": lambda folder: folder.rename(folder.with_name("old")),
    "emptied": emptied,
    "without its lock": lambda folder: (folder / "lock").unlink(),
    "mounted over": mounted_over,
}


@pytest.mark.parametrize("how", MOVES)
def test_a_folder_that_is_moved_keeps_nothing(tmp_path, how):
    """Another process may have begun at its path: no append succeeds, and its files stay."""
    folder = tmp_path / "state"
    with contextlib.closing(svid.Journal(folder)) as journal:
        append(journal, 1)
        MOVES[how](folder)
        try:
            with contextlib.closing(svid.Journal(folder)) as other:
                append(other, 2)
                before = names(folder)
                with pytest.raises(svid.Unavailable, match="put it back there, and start"):
                    append(journal, 2)
                with pytest.raises(svid.Unavailable, match="start the service again"):
                    append(journal, 3)
                with pytest.raises(svid.Unavailable, match="start the service again"):
                    journal.snapshot(lambda: [use(1).message])
                assert names(folder) == before
                append(other, 4)
            assert {2, 4} <= found(folder)
        finally:
            if how == "mounted over":
                subprocess.run(["umount", "--lazy", folder], check=True)


def test_a_snapshot_of_a_folder_that_is_moved_changes_no_other_one(tmp_path):
    folder = tmp_path / "state"
    with contextlib.closing(svid.Journal(folder)) as journal:
        append(journal, 1)
        folder.rename(tmp_path / "old")
        with contextlib.closing(svid.Journal(folder)) as other:
            append(other, 2)
            before = {it.name: it.read_bytes() for it in folder.iterdir()}
            with pytest.raises(svid.Unavailable, match="put it back there, and start"):
                journal.snapshot(lambda: [use(1).message])
            assert {it.name: it.read_bytes() for it in folder.iterdir()} == before
        with pytest.raises(svid.Unavailable, match="start the service again"):
            append(journal, 3)
        shutil.rmtree(folder)
        (tmp_path / "old").rename(folder)
        # (it is back, and others may have had its path)
        before = {it.name: it.read_bytes() for it in folder.iterdir()}
        with pytest.raises(svid.Unavailable, match="start the service again"):
            append(journal, 3)
        with pytest.raises(svid.Unavailable, match="put it back there, and start"):
            journal.snapshot(lambda: [use(1).message])
        assert {it.name: it.read_bytes() for it in folder.iterdir()} == before
    assert found(folder) == {1}


def test_a_token_is_accepted_by_one_of_two_processes_at_a_path(tmp_path):
    folder, token = tmp_path / "state", fresh(jti="both")
    with contextlib.closing(validator(state=folder)) as first:
        folder.rename(tmp_path / "old")
        with contextlib.closing(validator(state=folder)) as second:
            assert second.check(token).spiffe_id == SUBJECT
            with pytest.raises(svid.Unavailable, match="no longer at its path"):
                first.check(token)


def test_want_of_memory_is_a_passing_fault(tmp_path, monkeypatch):
    """To make the file grow, and to write the frame alone."""
    monkeypatch.setattr(_journal, "_QUIET", PATIENCE)
    with contextlib.closing(svid.Journal(tmp_path)) as journal:
        real, fails = _journal.write, [True]

        def write(*given):
            if fails:
                fails.pop()
                raise MemoryError
            real(*given)

        monkeypatch.setattr(_journal, "write", write)
        append(journal, 1)
        fails += [True, True]
        with pytest.raises(svid.Unavailable, match="the use is not kept"):
            append(journal, 2)
        append(journal, 3)
    assert found(tmp_path) == {1, 3}


def test_want_of_memory_for_the_messages_of_a_write_is_told(tmp_path, monkeypatch):
    """Nobody is answered that they are kept."""

    class Many:
        def append(self, _):
            """It has no end."""

        def __iter__(self):
            raise MemoryError

    with contextlib.closing(svid.Journal(tmp_path)) as journal:
        with monkeypatch.context() as patch:
            commit = _journal._Commit()
            commit.parts = Many()
            patch.setattr(_journal, "_Commit", lambda: commit)
            with pytest.raises(svid.Unavailable, match="the use is not kept"):
                append(journal, 1)
        append(journal, 2)
    assert found(tmp_path) == {2}


def test_what_an_earlier_snapshot_left_is_no_hindrance(tmp_path):
    """It may not have been removed, where the disk failed."""
    with contextlib.closing(svid.Journal(tmp_path)) as journal:
        append(journal, 1)
        (tmp_path / "snapshot.new").write_text("left")
        journal.snapshot(lambda: [use(1).message])
        append(journal, 2)
    assert found(tmp_path) == {1, 2} and not (tmp_path / "snapshot.new").exists()


def test_want_of_memory_behind_a_sync_is_a_passing_fault(tmp_path, monkeypatch):
    """Who looks whether the folder is still at its path may have none."""
    with contextlib.closing(svid.Journal(tmp_path)) as journal:
        append(journal, 1)
        stand, wants = journal._keeper._folder.stand, [MemoryError]

        def stands():
            if wants:
                raise wants.pop()
            stand()

        monkeypatch.setattr(journal._keeper._folder, "stand", stands)
        with pytest.raises(svid.Unavailable):
            append(journal, 2)
        append(journal, 3)
    assert {1, 3} <= found(tmp_path)


def test_a_full_disk_is_a_passing_fault(tmp_path):
    """By a limit of the process on the length of a file."""

    def work(tell):
        journal, number = svid.Journal(tmp_path), 0
        for most in 1000, 1500, resource.RLIM_INFINITY:
            resource.setrlimit(resource.RLIMIT_FSIZE, (most, resource.RLIM_INFINITY))
            try:
                while number < 40:
                    append(journal, number)
                    tell(f"{number}\n".encode())
                    number += 1
            except svid.Unavailable as why:
                tell(f"full at {number} {'File too large' in str(why)}\n".encode())
                number += 1

    with Other(work) as other, answering(other, "the other process"):
        said = other.said.read().decode().splitlines()
    kept = [*range(8), *range(9, 13), *range(14, 40)]
    full = ["full at 8 True", "full at 13 True"]
    assert said == [
        *map(str, kept[:8]),
        full[0],
        *map(str, kept[8:12]),
        full[1],
        *map(str, kept[12:]),
    ]
    assert set(kept) <= found(tmp_path)


def test_a_killed_process_is_let_in_at_once(tmp_path):
    """Its lock goes with it, however it ended."""

    def work(tell):
        journal = svid.Journal(tmp_path)
        tell(f"{journal.torn}\n".encode())
        signal.pause()

    with Other(work) as other:
        with answering(other, "the other process"):
            assert other.said.readline() == b"()\n"
        with pytest.raises(svid.Held):
            svid.Journal(tmp_path)
        other.kill()
        svid.Journal(tmp_path).close()
