"""Threads, forks and the end of a program."""

import functools
import json
import multiprocessing
import os
import subprocess
import sys
import threading
import time

import pytest
import svid
import svid.testing
from making import (
    Authority,
    PATIENCE,
    NOW,
    SUBJECT,
    bundle,
    entry,
    fresh,
    joined,
    private_key,
    token,
    unb64,
    until,
    validator,
    verdict,
)
from svid import _claims, _frames, _handle
from svid import _library as lib

THREADS = 8


def in_threads(work):
    """Runs work(number) in threads at once, and raises what one of them raised."""
    raised, gate = [], threading.Barrier(THREADS, timeout=PATIENCE)

    def run(number):
        try:
            gate.wait()
            work(number)
        except BaseException as error:  # noqa: B902
            raised.append(error)

    numbers = range(THREADS)
    threads = [threading.Thread(target=run, args=(it,), daemon=True) for it in numbers]
    for it in threads:
        it.start()
    joined(*threads)
    if raised:
        raise raised[0]


def test_a_token_is_accepted_by_one_thread():
    tokens = [token(jti=str(it)) for it in range(100)]
    said = []
    with validator() as checks:
        in_threads(lambda _: said.extend((it, verdict(checks, it)) for it in tokens))
    for it in tokens:
        answers = sorted(answer for which, answer in said if which == it)
        assert answers == [f"accepted {SUBJECT} {NOW + 300}"] + ["refused Replayed"] * (THREADS - 1)


def test_threads_get_their_own_answers():
    """Each thread has subjects and keys of its own, and none gets those of another."""
    with validator() as checks:

        def work(number):
            for which in range(50):
                subject = f"spiffe://example.org/{'a' * (number * 100 + 1)}"
                made = token(sub=subject, jti=f"{number} {which}", exp=NOW + 100 + number)
                accepted = checks.check(made, NOW)
                assert (accepted.spiffe_id, accepted.expires) == (subject, NOW + 100 + number)
                with pytest.raises(svid.NotAudience):
                    checks.check(token(aud=str(number)), NOW)

        in_threads(work)
        assert len(checks.report().uses) == THREADS * 50


class Yielding:
    """A lock whose holder lets other threads run as soon as it has freed it."""

    def __init__(self, lock):
        self._lock = lock

    def __enter__(self):
        self._lock.acquire()

    def __exit__(self, *_):
        self._lock.release()
        time.sleep(1e-4)


def test_no_thread_gets_the_answer_of_another():
    subjects = [f"spiffe://example.org/{'a' * (100 * it + 1)}" for it in range(THREADS)]
    entries = [entry(private_key("ES256"), f"k{it}", note="n" * 100 * it) for it in range(THREADS)]
    tokens = [
        [token(sub=subject, header={"kid": f"k{which}"}, jti=f"{which} {it}") for it in range(100)]
        for which, subject in enumerate(subjects)
    ]

    def verifies(_alg, key, signed, _signature):
        kid = json.loads(unb64(signed.split(b".")[0].decode()))["kid"]
        return json.loads(key)["kid"] == kid

    with validator(bundle(*entries), verifies=verifies) as checks:
        checks._handle._lock = Yielding(checks._handle._lock)

        def work(number):
            for it in tokens[number]:
                assert checks.check(it, NOW).spiffe_id == subjects[number]

        in_threads(work)
        assert len(checks.report().uses) == THREADS * 100


def test_closing_waits_for_a_call():
    """Else the call would read what was freed."""
    checks = validator()
    lock, asks = checks._handle._lock, threading.Event()

    class Asked(Yielding):
        def __enter__(self):
            asks.set()
            super().__enter__()

    checks._handle._lock = Asked(lock)
    with lock:  # as a call that is under way
        thread = threading.Thread(target=checks.close, daemon=True)
        thread.start()
        assert asks.wait(PATIENCE)
        assert checks._handle._freeing.alive
    thread.join(PATIENCE)
    assert not thread.is_alive()


class Owned:
    """A lock that knows which thread has it."""

    def __init__(self, lock):
        self._lock, self.owner = lock, None

    def __enter__(self):
        self._lock.acquire()
        self.owner = threading.get_ident()

    def __exit__(self, *_):
        self.owner = None
        self._lock.release()


def test_each_call_has_the_lock(tmp_path, monkeypatch):
    """Of a validator, and of a state folder: a room of a validator is for one call at a time."""
    locks, called, unlocked = {}, set(), set()

    def guarded(name, call):
        def guard(at, *rest):
            if at in locks:
                called.add(name)
                if locks[at].owner != threading.get_ident():
                    unlocked.add(name)  # (some threads pass over an error)
            return call(at, *rest)

        return guard

    def begin(self, *given, begun, **named):
        begun(self, *given, **named)
        locks[self._at] = self._lock = Owned(self._lock)

    for kind in _handle.Handle, _frames.Numbers:
        begins = functools.partialmethod(begin, begun=kind.__init__)
        monkeypatch.setattr(kind, "__init__", begins)
    names = {*lib._CALLS, *lib._CALLS_OF_NO_STATUS, *lib._CALLS_OF_A_CHECK}
    for library in lib.library, lib.quick:
        for name in names:
            monkeypatch.setattr(library, name, guarded(name, getattr(library, name)))
    monkeypatch.setattr(_claims, "_HEARS", 0.01)
    store = svid.testing.MemoryStore()
    with (
        validator(
            mode="once", state=tmp_path / "once", store=store, callers=["spiffe://example.org"]
        ) as once,
        validator(mode="bound", state=tmp_path / "bound") as bound,
    ):
        once.check(fresh(jti="1"))
        bound.check(fresh(jti="2"), caller=b"it")
        gone = bound.withdraw(fresh(jti="3"))
        store.withdraw(gone.key, gone.expires)
        until(lambda: once.report().uses[0].withdrawn or once.report().uses[-1].withdrawn)
        once.take(gone.message)
        once.judge(fresh(jti="4"))
        once.answer(bound.summary())
        once.tick()
        once.renew()
        assert once.unready() is None
        once._journal.snapshot(once.parts)
    going_on = threading.Event()

    class Silent(svid.testing.MemoryStore):
        def put(self, claims):
            return super().put(claims) if going_on.wait(PATIENCE if claims else 0) else []

        def withdraw(self, key, expires):
            going_on.wait(PATIENCE)

    with validator(mode="strict", store=Silent(), wait=0.5) as late:
        for call in late.check, late.withdraw:
            with pytest.raises(svid.Unavailable):
                call(fresh(jti="5"))
        going_on.set()
    assert not unlocked
    assert called > {"svid_member_overdue", "svid_withdrawal_overdue", "svid_validator_bucket"}
    assert len(called) > 25


def test_all_calls_at_once(tmp_path):
    first, second = (bundle(entry(private_key("ES256", it), "k1")) for it in range(2))
    with validator(first) as checks, validator(first) as other:

        def work(number):
            for which in range(20):
                one = token(key=private_key("ES256", which % 2), jti=f"{number} {which}")
                try:
                    other.take(checks.check(one, NOW).use.message, NOW)
                except svid.BadSignature:
                    pass
                checks.renew(second if which % 2 else first)
                checks.take(b"".join(other.parts(500)), NOW)
                checks.take(other.answer(checks.summary(), NOW), NOW)
                checks.withdraw(one, NOW)
                checks.save(tmp_path / f"{number}")
                checks.report()

        in_threads(work)
        withdrawn = [it for it in checks.report().uses if it.withdrawn]
        assert len(withdrawn) == THREADS * 20


@pytest.fixture
def hasty():
    """Threads take turns after each step or two, so that one is cut off at any place."""
    usual = sys.getswitchinterval()
    sys.setswitchinterval(1e-6)
    yield
    sys.setswitchinterval(usual)


def test_renewals_against_checks(hasty):
    """Both bundles have the key of the tokens: no renewal makes a good one refused, or good twice.

    The library knows a key by the text of its entry, which is another one in each.
    """
    key, other = private_key("ES256"), private_key("ES256", 1)
    first = bundle(entry(key, "k1", note="first"))
    second = bundle(entry(other, "k2"), entry(key, "k1", note="second"))
    tokens = [token(key=key, jti=str(it)) for it in range(100)]
    said, is_over = [], threading.Event()
    with validator(first) as checks:

        def renews():
            while not is_over.is_set():
                checks.renew(second)
                checks.renew(first)

        thread = threading.Thread(target=renews, daemon=True)
        thread.start()
        try:
            in_threads(lambda _: said.extend((it, verdict(checks, it)) for it in tokens))
        finally:
            is_over.set()
            joined(thread)
        assert len(checks.report().uses) == len(tokens)
    for it in tokens:
        answers = sorted(answer for which, answer in said if which == it)
        assert answers == [f"accepted {SUBJECT} {NOW + 300}"] + ["refused Replayed"] * (THREADS - 1)


def test_a_key_that_was_taken_away_accepts_nothing(hasty):
    """A check that began by the old bundles ends by the new ones."""
    key = private_key("ES256")
    first, second = bundle(entry(key, "k1")), bundle(entry(private_key("ES256", 1), "k1"))
    with validator(first) as checks:
        is_taken, accepted_late = threading.Event(), []

        def work(number):
            if number == 0:
                checks.renew(second)
                return is_taken.set()
            for which in range(100):
                is_late = is_taken.is_set()
                said = verdict(checks, token(key=key, jti=f"{number} {which}"))
                accepted_late.append(is_late and said.startswith("accepted"))

        in_threads(work)
        assert not any(accepted_late)


def test_closing_while_others_check():
    tokens = [token(jti=str(it)) for it in range(200)]
    checks = validator()

    def work(number):
        if number == 0:
            verdict(checks, tokens[0])
            return checks.close()
        with pytest.raises(svid.Closed):
            while True:
                for it in tokens:
                    verdict(checks, it)

    in_threads(work)


def test_a_verifier_that_uses_the_validator():
    """The lock is free while a signature is verified."""

    def verifies(*_):
        assert not checks._handle._lock.locked()
        return len(checks.report().uses) == 0

    with validator(verifies=verifies) as checks:
        checks.check(token(), NOW)
        with pytest.raises(svid.BadSignature):
            checks.check(token(jti="2"), NOW)


def forked(work):
    """What work() says in a fork of this process."""
    reader, writer = multiprocessing.Pipe(duplex=False)

    def child():
        try:
            writer.send(work())
        except svid.Error as error:
            writer.send(type(error).__name__)
        os._exit(0)

    made = multiprocessing.get_context("fork").Process(target=child, daemon=True)
    made.start()
    assert reader.poll(PATIENCE)
    said = reader.recv()
    made.join(PATIENCE)
    assert made.exitcode == 0
    return said


def test_a_fork_does_not_go_on_with_a_validator():
    with validator() as checks:
        made = token()
        assert forked(lambda: verdict(checks, made)) == "Forked"
        assert forked(checks.report) == forked(checks.unready) == "Forked"
        assert forked(checks.close) is None
        assert verdict(checks, made).startswith("accepted")


def test_a_fork_makes_its_own():
    with validator():
        assert forked(lambda: verdict(validator(), token())).startswith("accepted")


@pytest.mark.parametrize("call", ["report", "renew"])
def test_a_fork_while_a_thread_is_in_a_call(call):
    """The fork does not wait for a lock that only the thread would free."""
    with validator() as checks:
        held, free = threading.Event(), threading.Event()
        lock = checks._renewing if call == "renew" else checks._handle._lock

        def hold():
            with lock:
                held.set()
                free.wait(PATIENCE)

        thread = threading.Thread(target=hold, daemon=True)
        thread.start()
        assert held.wait(PATIENCE)
        try:
            assert forked(getattr(checks, call)) == "Forked"
        finally:
            free.set()
            joined(thread)
        getattr(checks, call)()


def test_a_program_that_ends_without_closing():
    """While a thread is in a call, too."""
    text = """
import threading, svid
kept = svid.Validator(audiences="a", bundles=b"{}")
def work():
    while True:
        kept.summary()
for _ in range(4):
    threading.Thread(target=work, daemon=True).start()
svid.Validator(audiences="a", bundles=b"{}")
for _ in range(50):
    kept.summary()
print("end")
"""
    ran = subprocess.run(
        [sys.executable, "-c", text], capture_output=True, timeout=PATIENCE, check=False
    )
    assert (ran.returncode, ran.stdout, ran.stderr) == (0, b"end\n", b"")


def test_a_program_that_ends_frees_nothing():
    """A thread that outlives the interpreter may be in a call."""
    text = """
import svid
import svid.testing
svid._handle._close = lambda _: print("freed")
svid.Validator(audiences="a", bundles=b"{}")
kept = svid.Validator(audiences="a", bundles=b"{}")
print("end")
"""
    ran = subprocess.run(
        [sys.executable, "-c", text], capture_output=True, timeout=PATIENCE, check=True
    )
    assert ran.stdout == b"freed\nend\n"


def test_a_program_ends_that_closes_nothing(tmp_path):
    """Whatever its threads wait for. They end with it."""
    text = """
import json, sys, threading, time
import svid
from svid.postgres import PostgresStore, StoreFault
from svid.testing import Issuer, MemoryStore

class Hangs(MemoryStore):
    hangs = False
    def hang(self):
        if self.hangs:
            threading.Event().wait()
    def put(self, claims):
        self.hang()
        return super().put(claims)
    def withdraw(self, key, expires):
        self.hang()
    def withdrawals(self, after):
        self.hang()
        return super().withdrawals(after)

class Unwatched(PostgresStore):
    def _watch(self):
        "It is looked at by who calls."

urls = "postgres://u@127.0.0.1:1/d", "postgres://u@127.0.0.1:1/e"
issuer, store, folder = Issuer(), Hangs(), sys.argv[1]
with open(folder + "/example.org.json", "w") as file:
    json.dump(issuer.bundle, file)
bundles, state = folder + "/example.org.json", folder + "/state"
terms = {"audiences": "a", "bundles": bundles, "store": store}
patience = float(sys.argv[2])
first = svid.Validator(**terms, state=state, wait=patience)
first.check(issuer.token(aud="a"))
store.hangs = True
second = svid.Validator(**terms, mode="strict", wait=0.01)
try:
    first._handle._wait = 0.01
    first.withdraw(issuer.token(aud="a"))
except svid.Unavailable:
    pass
third = PostgresStore(*urls)
try:
    fourth = Unwatched(*urls, wait=0.01)
    fourth.state()
except StoreFault:
    pass
named = {"svid-" + it for it in "bundles claims journal server store withdraw withdrawals".split()}
end = time.monotonic() + patience / 3
while missing := named - {it.name for it in threading.enumerate()}:
    assert time.monotonic() < end, missing
    time.sleep(0.01)
print("end", flush=True)
"""
    words = [sys.executable, "-c", text, tmp_path, str(PATIENCE)]
    ran = subprocess.run(words, capture_output=True, timeout=PATIENCE, check=False)
    assert (ran.returncode, ran.stdout) == (0, b"end\n"), ran.stderr.decode()


def test_validators_that_are_dropped_are_freed():
    """Each has bundles of a megabyte: 60 that stayed would be 150 megabytes and more."""
    text = """
import svid
import svid.testing
key = b'{"kty":"EC","use":"jwt-svid","kid":"%s"}' % (b"k" * 60_000)
bundles = b'{"a":{"keys":[%s]}}' % b",".join([key] * 16)
for _ in range(60):
    svid.Validator(audiences="a", bundles=bundles)
print(open("/proc/self/status").read().partition("VmHWM:")[2].split()[0])
"""
    ran = subprocess.run(
        [sys.executable, "-c", text], capture_output=True, timeout=PATIENCE, check=True
    )
    assert int(ran.stdout) < 100_000  # kilobytes, the most that this process had


def test_a_collector_may_end_what_follows_in_any_line(tmp_path):
    """A validator that refers to itself ends where the collector runs, in whatever thread.

    That waits for nothing: no collector would run in the process any more.
    """
    text = """
import collections, gc, socket, sys, threading, time
import svid
from svid import _claims, _follow, sources
from svid.testing import MemoryStore

folder, patience = sys.argv[1], float(sys.argv[3])
_claims._HEARS = _follow._SHORTEST = _follow._LONGEST = 0.001
sources.LIMIT = 0.002
silent = socket.create_server(("127.0.0.1", 0), backlog=1000)
url = f"https://127.0.0.1:{silent.getsockname()[1]}"
gc.disable()
ran, armed, rounds = set(), [], collections.Counter()
open(folder + "/bundle", "w").write('{"keys":[]}')

def line(frame, event, _):
    global news
    if armed and event == "line" and (it := (frame.f_code, frame.f_lineno)) not in ran:
        armed.clear()
        ran.add(it)
        news = True
        gc.collect()
    return line

def traced(frame, *_):
    function, module = frame.f_code.co_name, frame.f_globals["__name__"]
    this = threading.current_thread()
    if this.name not in names or function not in functions or module not in modules:
        return None
    if (function, module) == ("wait", "svid._ending"):
        rounds[this] += 1
    return line

# Those that have a lock, or wait.
functions = {"wait", "set", "is_set", "__enter__", "__exit__", "_release_save", "_acquire_restore"}
functions |= {"within", "has", "stand", "_run", "_hear"}
modules = {"threading", "svid.sources", "svid._follow", "svid._claims", "svid._ending"}
names = "svid-bundles", "svid-withdrawals"
threading.settrace(traced)
news = True
while news:
    news = False
    away = svid.Endpoint(url, authorities=sys.argv[2])
    given = {"a": folder + "/bundle", "b": away}
    made = svid.Validator(audiences="a", bundles=given, store=MemoryStore(), refresh=0.01)
    these = [it for it in threading.enumerate() if it.name.startswith("svid-")]
    made.itself = made
    del made
    rounds.clear()
    armed.append(True)
    end = time.monotonic() + patience
    # (each thread has gone round some times by then: no line of it is new)
    while armed and any(rounds[it] < 5 for it in these if it.name in names):
        time.sleep(0.0005)
        assert time.monotonic() < end, ("these don't go round", rounds)
    armed.clear()
    if not news:
        gc.collect()
    for it in these:
        it.join(patience)
        assert not it.is_alive(), (it.name, [(code.co_name, at) for code, at in ran])
print(len(ran))
"""
    words = [sys.executable, "-c", text, tmp_path, Authority().pem(tmp_path), str(PATIENCE / 3)]
    ran = subprocess.run(words, capture_output=True, timeout=PATIENCE, check=False)
    assert ran.returncode == 0, ran.stderr.decode()
    assert int(ran.stdout) > 60
