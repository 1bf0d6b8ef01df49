"""Mode "bound" without a store: the claims of one validator, in a folder."""

import contextlib
import threading
import time

import pytest

import svid
from making import NOW, PATIENCE, fresh, until, validator
from svid import _library as lib
from svid._local import LocalStore
from svid.stores import WITHDRAWN, Claim

LONGEST, AHEAD = 3600, 30
LASTS, MARGIN = LONGEST + 2 * AHEAD, 60 + 60


class Hand:
    """A clock that a test sets."""

    def __init__(self):
        self.at = NOW

    def __call__(self):
        return self.at


@pytest.fixture
def clock():
    return Hand()


@pytest.fixture
def opened(tmp_path, clock):
    stores = []

    def again():
        """Opens the folder again."""
        for it in stores:
            it.close()
        stores.append(LocalStore(tmp_path / "claims", LONGEST, AHEAD, clock))
        return stores[-1]

    yield again
    for it in stores:
        it.close()


def put(store, key, owner, life=600):
    (found,) = store.put([Claim(key * 32, owner * 32, store._clock() + life)])
    assert found.time == store._clock()
    return found.owner[:1], found.deaf


def test_a_restart_forgets_nothing(opened):
    store = opened()
    assert put(store, b"k", b"1") == (b"1", 0)
    store.withdraw(b"w" * 32, NOW + 600)
    for _ in range(3):
        store = opened()
        assert put(store, b"k", b"2") == (b"1", 0)
        assert put(store, b"w", b"2") == (WITHDRAWN[:1], 0)


def test_both_halves_of_an_owner_are_kept(opened):
    owner = bytes(range(32))
    opened().put([Claim(b"k" * 32, owner, NOW + 600)])
    assert opened().put([Claim(b"k" * 32, b"o" * 32, NOW + 600)])[0].owner == owner


def test_what_is_over_is_claimed_anew(opened, clock):
    store = opened()
    put(store, b"k", b"1", 100)
    clock.at += 100 + MARGIN - 1
    assert put(store, b"k", b"2", 100) == (b"1", 0)
    clock.at += 1
    assert put(store, b"k", b"2", 100) == (b"2", 0)
    assert put(opened(), b"k", b"1", 100) == (b"2", 0)
    # (nobody accepts a token that expired so long ago)
    assert put(store := opened(), b"e", b"1", -MARGIN) == (b"1", 0)
    assert put(store, b"e", b"2", -MARGIN) == (b"2", 0)


@pytest.mark.parametrize("is_restarted", [False, True])
def test_a_clock_that_goes_back_ends_the_epoch(opened, clock, is_restarted, monkeypatch):
    # (a snapshot that comes late has the time too)
    monkeypatch.setattr("svid._journal.Journal.wants_snapshot", False)
    store = opened()
    put(store, b"k", b"1")
    clock.at = NOW + 1000  # the entry is over, and dropped
    store.put([])
    store = opened() if is_restarted else store
    clock.at = NOW + 1
    assert store.put([Claim(b"x" * 32, b"1" * 32, NOW + 9)])[0].deaf == NOW + 1000 + LASTS
    assert put(opened(), b"k", b"2")[1] == NOW + 1000 + LASTS
    clock.at = NOW + 1000  # (it shows no step back any more)
    assert put(opened(), b"k", b"3")[1] == NOW + 1000 + LASTS


def test_a_snapshot_keeps_the_end_of_an_epoch(opened, clock):
    store = opened()
    put(store, b"k", b"1")
    clock.at = NOW + 1000  # the entry is over, and dropped
    store.put([])
    clock.at = NOW + 1
    store.put([])
    store._journal.snapshot(store._parts)
    assert put(opened(), b"k", b"2")[1] == NOW + 1000 + LASTS


def test_a_snapshot_keeps_the_time(opened, clock):
    """The claims in it are older, and one that was dropped is not there to be found."""
    store = opened()
    put(store, b"l", b"1", 3000)
    put(store, b"k", b"1")
    clock.at = NOW + 1000  # the entry is over, and dropped
    store.put([])
    store._journal.snapshot(store._parts)
    opened()
    clock.at = NOW + 1
    assert put(opened(), b"k", b"2")[1] == NOW + 1000 + LASTS


def test_a_clock_may_step_back_by_a_minute(opened, clock):
    """In one step or in several, also over a restart."""
    store = opened()
    store.put([])
    clock.at -= 60
    assert put(store, b"k", b"1") == (b"1", 0)
    store._journal.snapshot(store._parts)
    store = opened()
    clock.at -= 1
    assert put(store, b"k", b"1") == (b"1", NOW + LASTS)


def test_an_entry_is_on_the_disk_before_it_is_answered(opened, tmp_path):
    store = opened()
    (tmp_path / "claims").rename(tmp_path / "moved")
    for _ in range(2):
        with pytest.raises(svid.Unavailable):
            put(store, b"k", b"1")


def test_nobody_is_answered_before_the_disk_has_the_claim(opened):
    """Not who finds the claim of another one under way, or one that the disk did not take."""
    store, said, asked, go = opened(), [], [], threading.Event()
    store.put([])  # (it has told the time)
    real = store._journal.append

    def fails(messages):
        asked.append(messages)
        go.wait(PATIENCE)
        raise svid.Unavailable("no disk")

    def claim(owner):
        try:
            said.append(put(store, b"k", owner))
        except svid.Unavailable:
            said.append("Unavailable")

    store._journal.append = fails
    owners = b"1", b"2"
    threads = [threading.Thread(target=claim, args=(it,), daemon=True) for it in owners]
    for it in threads:
        it.start()
    until(lambda: len(asked) + len(said) == 2)
    go.set()
    for it in threads:
        it.join(PATIENCE)
    assert said == ["Unavailable"] * 2
    store._journal.append = real
    first = put(store, b"k", b"3")
    assert put(opened(), b"k", b"4") == first


@pytest.mark.parametrize(("status", "error"), [(2, MemoryError), (18, svid.BadMessages)])
def test_claims_that_can_not_be_read_are_not_forgotten(opened, monkeypatch, status, error):
    """A start that has no memory for them ends: without them, a thief would bind each token."""
    put(opened(), b"k", b"1")
    with monkeypatch.context() as patched:
        patched.setattr(lib.library, "svid_entries_read", lambda *_: status)
        with pytest.raises(error):
            opened()
    assert put(opened(), b"k", b"2") == (b"1", 0)


def size_of(folder):
    """How many bytes the files of a folder have. (One may go meanwhile.)"""
    size = 0
    for it in folder.iterdir():
        with contextlib.suppress(FileNotFoundError):
            size += it.stat().st_size
    return size


def test_the_folder_stays_small(opened, clock, tmp_path, monkeypatch):
    monkeypatch.setattr("svid._journal._SMALL", 1 << 18)
    store = opened()
    for n in range(20):
        keys = [bytes([n, it % 256, it // 256]) + bytes(29) for it in range(1000)]
        store.put([Claim(it, b"1" * 32, clock.at + 30) for it in keys])
        clock.at += 240
        store.put([])
    until(lambda: store.put([]) == [] and size_of(tmp_path / "claims") < 2 << 20)
    assert len(store._entries) <= 1000
    assert put(opened(), keys[0][:1], b"1", 30)[1] == 0


def test_a_token_belongs_to_its_first_caller(tmp_path):
    made, state = fresh(), tmp_path / "state"
    for start in range(2):
        with validator(mode="bound", state=state, longest=LONGEST) as checks:
            assert checks.waits
            for caller in b"one", b"two", b"one":
                if caller == b"one":
                    checks.check(made, caller=caller)
                else:
                    with pytest.raises(svid.Replayed):
                        checks.check(made, caller=caller)
            with pytest.raises(svid.Held):
                LocalStore(state / "claims", LONGEST, AHEAD, time.time)
            if start:
                checks.withdraw(made)
    with validator(mode="bound", state=state, longest=LONGEST) as checks:
        with pytest.raises(svid.Withdrawn):
            checks.check(made, caller=b"one")
    with validator(mode="bound", state=tmp_path / "other", longest=svid.UNLIMITED) as checks:
        checks.check(made, caller=b"two")


def test_it_needs_a_store_or_a_folder():
    with pytest.raises(ValueError, match="give a store or a state in the mode bound"):
        validator(mode="bound")
    with pytest.raises(ValueError, match="give a store in the mode strict"):
        validator(mode="strict")
