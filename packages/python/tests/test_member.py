"""Requests, and their answers: the modes, the store of a group, deadlines and readiness."""

import asyncio
import contextlib
import errno
import functools
import gc
import linecache
import math
import os
import random
import threading
import time
import types
import weakref

import pytest
import svid
import svid.testing
from making import (
    PATIENCE,
    SUBJECT,
    bundle,
    entry,
    fresh,
    no_logger,
    private_key,
    until,
    validator,
)
from svid import _claims, _journal, _looks, _member
from test_threads import forked

THREADS = 32


class Fickle:
    """A store whose calls do `before` what is put, and `after` it, as a test wants."""

    def __init__(self, **terms):
        self.store = svid.testing.MemoryStore(**terms)
        self.puts = []
        self.before = self.after = lambda: None

    def put(self, claims):
        if claims:
            self.puts.append(list(claims))
        self.before()
        found = self.store.put(claims)
        self.after()
        return found

    def withdraw(self, key, expires):
        self.before()
        self.store.withdraw(key, expires)


def strict(store, **terms):
    return validator(mode="strict", store=store, **terms)


def bound(store, **terms):
    return validator(mode="bound", store=store, **terms)


def away():
    raise ConnectionError("the store is away")


def answer(check, *given, **named):
    """The outcome of a call: the subject that it gives, if any, or the name of the error."""
    try:
        return getattr(check(*given, **named), "spiffe_id", "")
    except svid.Error as why:
        return type(why).__name__


class Soon:
    """A call in a thread of its own, which a test does not wait for longer than it has patience."""

    def __init__(self, call, *given, **named):
        self.said = None
        self.thread = threading.Thread(target=self.run, args=(call, given, named), daemon=True)
        self.thread.start()

    def run(self, call, given, named):
        self.said = answer(call, *given, **named)

    @property
    def answer(self):
        self.thread.join(PATIENCE)
        assert not self.thread.is_alive(), "it does not end"
        return self.said


def in_time(check, token):
    """The outcome of a check, once it is not too late: a wait may be short for a busy machine."""
    said = []
    until(lambda: said.append(Soon(check, token).answer) or said[-1] != "Unavailable")
    return said[-1]


def nothing_waits(checks):
    """No request and no withdrawal is left behind."""
    return checks._handle._open == {} and checks._handle._withdrawals == {}


@contextlib.contextmanager
def holding(store):
    """The store answers nothing until the block ends."""
    go = threading.Event()
    store.before = lambda: go.wait(PATIENCE)
    try:
        yield
    finally:
        store.before = lambda: None
        go.set()


# -- Modes


def test_once_over_restarts(tmp_path):
    token = fresh(jti="1")
    for said in SUBJECT, "Replayed", "Replayed":
        with validator(mode="once", state=tmp_path) as checks:
            assert answer(checks.check, token) == said


def test_a_token_that_may_come_again():
    with validator(mode="reuse") as checks:
        token = fresh()
        assert [answer(checks.check, token) for _ in range(3)] == [SUBJECT] * 3
        assert checks.report().uses == ()
        checks.withdraw(token)
        assert answer(checks.check, token) == "Withdrawn"


@pytest.mark.parametrize(
    "terms",
    [
        {"mode": "twice"},
        {"mode": "strict"},
        {"mode": "bound"},
        {"store": Fickle()},
    ],
    ids=str,
)
def test_a_mode_and_its_store(terms):
    with pytest.raises(ValueError, match="mode"):
        validator(**terms)


@pytest.mark.parametrize("wait", [0, 0.0009, -1, float("nan")])
def test_a_wait_that_can_not_be(wait):
    with pytest.raises(ValueError, match=r"^wait is a number of seconds, and at least 0\.001$"):
        validator(wait=wait)


def test_a_wait_of_a_millisecond():
    validator(wait=0.001).close()


@pytest.mark.parametrize("tells", [False, True])
def test_a_validator_is_there_once_its_store_answers(tells):
    """However long it may wait for that."""
    made, store = [], Pages() if tells else svid.testing.MemoryStore()

    def make():
        made.append(validator(mode="reuse" if tells else "strict", store=store, wait=math.inf))

    threading.Thread(target=make, daemon=True).start()
    until(lambda: made)
    made[0].close()


@pytest.mark.parametrize("wait", [math.inf, 1e300])
def test_a_wait_without_an_end(wait, tmp_path):
    """It is longer than the system's calls take."""
    for number, terms in enumerate(({"store": svid.testing.MemoryStore()}, {"state": tmp_path})):
        mode = "strict" if number == 0 else "once"
        with validator(mode=mode, wait=wait, refresh=wait, **terms) as checks:
            token = fresh()
            assert Soon(checks.check, token).answer == SUBJECT
            assert Soon(checks.withdraw, token).answer == ""
            assert checks.ready


def test_one_of_many_threads_is_accepted():
    store, token = Fickle(), fresh()
    with strict(store) as checks:
        with holding(store):
            calls = [Soon(checks.check, token) for _ in range(THREADS)]
            until(lambda: store.puts)
        said = sorted(it.answer for it in calls)
        assert said == sorted([SUBJECT] + ["Replayed"] * (THREADS - 1))
        assert [len(it) for it in store.puts] == [1]  # (the others wait for the answer to that)
        assert len(checks.report().uses) == 1
        assert nothing_waits(checks)


def test_a_store_has_one_wait_for_its_first_answers(monkeypatch):
    """A validator is made by then, where the store answers late and tells no withdrawals."""
    now, waits = [0.0], []
    monkeypatch.setattr("svid._claims.time", types.SimpleNamespace(monotonic=lambda: now[0]))
    store = svid.testing.MemoryStore()
    claims = _claims.Claims(store, store, tells=True)
    claims._grow = claims._hear = lambda: None
    claims._announced.wait = lambda seconds: now.__setitem__(0, now[0] + 0.75 * seconds)
    claims._heard.wait = waits.append
    claims.begin(2.0)
    assert waits == [0.5]


def test_a_validator_begins_once_the_store_answers():
    store, said = Fickle(), []
    store.before = lambda: time.sleep(0.5)
    store.after = lambda: said.append("answered")
    with strict(store):
        assert said


def test_validators_of_one_store():
    store, tokens = svid.testing.MemoryStore(), [fresh(jti=str(it)) for it in range(20)]
    with strict(store) as one, strict(store) as other:
        calls = [
            Soon(checks.check, token) for token in tokens for checks in (one, other, one, other)
        ]
        said = [it.answer for it in calls]
    for at in range(len(tokens)):
        assert sorted(said[4 * at : 4 * at + 4]) == ["Replayed"] * 3 + [SUBJECT]


def test_a_store_that_fails_now_and_then():
    """Calls fail before or after they are made, or take long: no token is accepted twice."""
    store, chance = Fickle(), random.Random(7)

    def fault():
        match chance.randrange(8):
            case 0 | 1:
                away()
            case 2:
                time.sleep(0.03)

    tokens = [fresh(jti=str(it)) for it in range(40)]
    with strict(store, wait=0.2) as one, strict(store, wait=0.2) as other:
        store.before = store.after = fault
        said = []

        def work(number):
            for token in chance.sample(tokens, len(tokens)):
                said.append((token, answer((one, other)[number % 2].check, token)))

        for it in [Soon(work, number) for number in range(8)]:
            assert it.answer == ""
        assert {it for _, it in said} <= {SUBJECT, "Replayed", "Unavailable"}
        won = [token for token, it in said if it == SUBJECT]
        assert len(won) == len(set(won)) > 0
        assert nothing_waits(one) and nothing_waits(other)


def test_claims_go_on_once_there_is_memory(monkeypatch):
    with strict(svid.testing.MemoryStore(), wait=0.3) as checks:
        send, wants = checks._handle.send, 3 * [MemoryError]  # (two threads wait for claims)

        def sends(due):
            if wants:
                raise wants.pop()
            return send(due)

        monkeypatch.setattr(checks._handle, "send", sends)
        assert answer(checks.check, fresh(jti="first")) == "Unavailable"
        until(lambda: answer(checks.check, fresh(jti=os.urandom(8).hex())) == SUBJECT)


def test_want_of_memory_in_any_line_of_a_call_leaves_none_under_way(monkeypatch):
    """Else less and less would go on: at most 64 calls are under way."""
    monkeypatch.setattr(_claims, "_REST", 0.001)
    functions = {"_taken", "_found", "_grow", "_answered", "_failed"}
    ran, armed, puts = set(), [], []

    def line(frame, event, _):
        at = frame.f_code.co_name, frame.f_lineno
        wants = linecache.getline(_claims.__file__, frame.f_lineno).strip() != "return claims"
        if armed and event == "line" and at not in ran and wants:
            armed.clear()
            ran.add(at)
            raise MemoryError  # (from here on nobody traces this thread)
        return line

    def traced(frame, *_):
        is_one = frame.f_code.co_name in functions and frame.f_globals is vars(_claims)
        return line if is_one else None

    def fails_now_and_then():
        puts.append(1)
        if len(puts) % 3 == 0:
            away()

    monkeypatch.setattr(threading, "_trace_hook", traced)
    is_news = True
    while is_news:
        store = Fickle()
        store.before = fails_now_and_then
        armed.append(True)
        with strict(store, wait=0.1) as checks:
            until(lambda: checks.ready)
            for _ in range(4):
                in_time(checks.check, fresh(jti=os.urandom(8).hex()))
            is_news = not armed
            armed.clear()
            store.before = lambda: None
            until(lambda: checks.ready)
            pacing = checks._handle._claims._pacing
            until(lambda: pacing.calls == 0)
    assert {it for it, _ in ran} == functions and len(ran) > 30


def test_a_store_may_raise_anything(monkeypatch, caplog):
    """As what ends a coroutine, which is no Exception."""
    monkeypatch.setattr(_claims, "_HEARS", 0.01)
    store, said = Pages(), []

    def ends(*_):
        said.append(1)
        raise asyncio.CancelledError("it ends")

    with bound(store, wait=0.2) as checks:
        until(lambda: checks.ready)
        pacing = checks._handle._claims._pacing
        pacing.calls += 63  # (one more that stays under way would be one too many)
        monkeypatch.setattr(store, "put", ends)
        for _ in range(3):
            until(lambda: said.clear() or answer(checks.check, fresh(), caller=b"a") and said)
        monkeypatch.undo()
        monkeypatch.setattr(store, "withdraw", ends)
        assert Soon(checks.withdraw, fresh(jti="2")).answer == "Unavailable"
        monkeypatch.undo()
        monkeypatch.setattr(store, "withdrawals", ends)
        said.clear()
        until(lambda: len(said) > 2)
        monkeypatch.undo()
        store.withdraw(checks.withdraw(fresh(jti="3")).key, int(time.time()) + 1000)
        until(lambda: checks.ready)
        check = functools.partial(checks.check, caller=b"a")
        assert in_time(check, fresh()) == SUBJECT
        other = fresh(jti="4")
        with strict(store) as theirs:
            theirs.withdraw(other)
        until(lambda: answer(checks.judge, other) == "Withdrawn")
    assert "it ends" in caplog.text


def test_each_life_has_claims_of_its_own():
    """A restart does not take the claims of the life before for its own."""
    store, token = svid.testing.MemoryStore(), fresh()
    for said in SUBJECT, "Replayed":
        with strict(store, validator_id=b"v" * 16) as checks:
            assert answer(checks.check, token) == said


def test_a_store_and_a_state_folder(tmp_path):
    store, one, two = svid.testing.MemoryStore(), fresh(jti="1"), fresh(jti="2")
    with strict(store, state=tmp_path) as checks:
        assert answer(checks.check, one) == SUBJECT
        checks.withdraw(two)
    with strict(svid.testing.MemoryStore(), state=tmp_path) as checks:
        assert answer(checks.check, two) == "Withdrawn"


def test_a_token_is_bound_to_its_caller():
    store, token = svid.testing.MemoryStore(), fresh()
    with bound(store) as one, bound(store) as other:
        for checks in one, other, one:
            assert answer(checks.check, token, caller=b"owner" * 9) == SUBJECT
            assert answer(checks.check, token, caller=b"owner" * 10) == "Replayed"
        one.withdraw(token)
        for checks in one, other:
            assert answer(checks.check, token, caller=b"owner" * 9) == "Withdrawn"


def test_a_caller_is_given_in_mode_bound_alone():
    with bound(svid.testing.MemoryStore()) as checks:
        with pytest.raises(ValueError, match="caller"):
            checks.check(fresh())
        with pytest.raises(TypeError, match="bytes"):
            checks.check(fresh(), caller="owner")
    with validator() as checks, pytest.raises(ValueError, match="caller"):
        checks.check(fresh(), caller=b"owner")


# -- The store


def test_a_store_that_answers_late():
    store, token = Fickle(), fresh()
    with strict(store, wait=0.2) as checks:
        with holding(store):
            assert Soon(checks.check, token).answer == "Unavailable"
            assert nothing_waits(checks)
        # (the claim is of this life, so the token is not lost)
        assert in_time(checks.check, token) == SUBJECT
        assert in_time(checks.check, token) == "Replayed"


def test_a_store_that_never_answers(caplog):
    store, token = Fickle(), fresh()
    with strict(store, wait=0.2) as checks:
        until(lambda: checks.ready)
        store.before = away

        def is_put_again():
            assert Soon(checks.check, token).answer == "Unavailable"
            return len(store.puts) > 2 and "the store is away" in caplog.text

        until(is_put_again)
        store.before = lambda: None
        assert in_time(checks.check, token) == SUBJECT
        assert nothing_waits(checks)


def test_an_answer_that_is_lost():
    """The same claim is put again, and finds its own entry."""
    store, token, fails = Fickle(), fresh(), [True]

    def lost():
        if fails:
            fails.pop()
            away()

    with strict(store, wait=PATIENCE) as checks:
        store.after = lost
        assert Soon(checks.check, token).answer == SUBJECT
        assert [len(it) for it in store.puts] == [1, 1]
        assert store.puts[0] == store.puts[1]
        assert Soon(checks.check, token).answer == "Replayed"


def test_an_answer_that_comes_again():
    """Nothing comes of it."""
    store, token, said = Fickle(), fresh(), []
    with strict(store) as checks:
        real = checks._handle.found

        def twice(number, found):
            real(number, found)
            real(number, found)
            said.append((number, found))

        checks._handle.found = twice
        assert Soon(checks.check, token).answer == SUBJECT
        until(lambda: said)
        twice(*said[0])
        assert Soon(checks.check, token).answer == "Replayed"
        assert len(checks.report().uses) == 1 and nothing_waits(checks)


@pytest.mark.parametrize(("owner", "said"), [(b"o" * 32, "Replayed"), (bytes(32), "Withdrawn")])
def test_an_entry_of_another_owner(owner, said):
    class Theirs(svid.testing.MemoryStore):
        def put(self, claims):
            return [it._replace(owner=owner) for it in super().put(claims)]

    token = fresh()
    with strict(Theirs()) as checks:
        assert Soon(checks.check, token).answer == said
        assert [it.withdrawn for it in checks.report().uses] == [True] * (said == "Withdrawn")


@pytest.mark.parametrize(
    "wrong", [lambda _: [], lambda it: [it[0]._replace(owner=b"")] if it else []]
)
def test_an_answer_that_is_none(wrong):
    """It counts as no answer: the claim is put again."""

    class Wrong(svid.testing.MemoryStore):
        wrongs = 0

        def put(self, claims):
            found = super().put(claims)
            if not claims or self.wrongs > 1:
                return found
            self.wrongs += 1
            return wrong(found)

    store = Wrong()
    with strict(store, wait=PATIENCE) as checks:
        assert Soon(checks.check, fresh()).answer == SUBJECT
    assert store.wrongs == 2


def test_a_claim_without_an_answer_stops_no_other():
    """A store may answer some claims of a call: these count, and the others are put again."""

    class Partly(Fickle):
        away = None

        def put_each(self, claims):
            found = self.put(claims)
            if len(claims) == 2 and not self.away:
                self.away = claims[0].key
            return [
                ConnectionError("its server is away") if claim.key == self.away else it
                for claim, it in zip(claims, found)
            ]

    store = Partly()
    with strict(store, wait=PATIENCE) as checks:
        with holding(store):
            first = Soon(checks.check, fresh(jti="first"))
            until(lambda: store.puts)
            checks._handle._claims._pacing.calls = 64  # (as many as may be under way)
            both = [Soon(checks.check, fresh(jti=it)) for it in ("one", "other")]
            until(lambda: len(checks._handle._claims._waiting) == 2)
            checks._handle._claims._pacing.calls = 1
        assert first.answer == SUBJECT
        until(lambda: [it.said for it in both].count(SUBJECT) == 1)
        until(lambda: [[it.key for it in claims] for claims in store.puts].count([store.away]) > 1)
        store.away = b""
        assert [it.answer for it in both] == [SUBJECT, SUBJECT]


class Requests:
    """Those that wait for claims: for each claim until it was put so many times."""

    def __init__(self, most):
        self.most, self.sent, self.is_answered = most, [], threading.Event()

    def send(self, due):
        these = [number for number, _ in self.sent]
        if these.count(due.number) < self.most:
            self.sent.append((due.number, time.monotonic()))
            return svid.Claim(due.key, b"o" * 32, due.expires)

    def reached(self):
        """They are asked nothing."""

    def found(self, _number, _found):
        self.is_answered.set()


@contextlib.contextmanager
def partly_answered(requests):
    """A store answers the first one of two claims: the server of the other one is away."""

    class Partly(svid.testing.MemoryStore):
        def put_each(self, claims):
            found = self.put(claims)
            return [
                it if claim.key == bytes(32) else ConnectionError("its server is away")
                for claim, it in zip(claims, found)
            ]

    claims = _claims.Claims(Partly(), requests, tells=False)
    for n in range(2):
        claims.add(_claims.Due(n, bytes([n]) * 32, int(time.time()) + 300, bytes(16)))
    with contextlib.closing(claims):
        claims.begin(PATIENCE)
        assert requests.is_answered.wait(PATIENCE)
        yield claims


def test_a_store_that_answers_some_claims_alone_may_be_away():
    """It is there, and its call ends well. But a server of a Cluster is away."""
    with partly_answered(Requests(1)) as claims:
        assert claims.is_there and claims.look(0)


def test_a_claim_without_an_answer_rests():
    """Else the servers that are there would be asked as often as they answer."""
    requests = Requests(2)
    with partly_answered(requests):
        until(lambda: len(requests.sent) == 3)
    first, again = (moment for number, moment in requests.sent if number == 1)
    assert again - first > 0.009


def test_calls_one_after_the_other_share_some_threads():
    def threads():
        return {it for it in threading.enumerate() if it.name == "svid-claims"}

    before = threads()
    with strict(svid.testing.MemoryStore()) as checks:
        for n in range(20):
            assert answer(checks.check, fresh(jti=str(n))) == SUBJECT
        assert len(threads() - before) < 10


def test_a_store_that_sorts_its_claims(caplog):
    """That raises, so that no answer goes to another request."""

    class Sorting(Fickle):
        def put(self, claims):
            if claims:
                claims.sort()
            return super().put(claims)

    store = Sorting()
    with strict(store, wait=0.2) as checks:

        def has_raised():
            assert Soon(checks.check, fresh()).answer == "Unavailable"
            return "no attribute 'sort'" in caplog.text

        until(has_raised)
    assert store.puts == []


@pytest.mark.parametrize("most", [THREADS, 10])
def test_many_claims_share_a_call(most, monkeypatch):
    monkeypatch.setattr(_claims, "_MOST", most)
    store = Fickle()
    with strict(store, wait=PATIENCE) as checks:
        with holding(store):
            calls = [Soon(checks.check, fresh(jti="first"))]
            until(lambda: store.puts)
            checks._handle._claims._pacing.calls = 64  # (as many as may be under way)
            calls += [Soon(checks.check, fresh(jti=str(it))) for it in range(THREADS)]
            until(lambda: len(checks._handle._claims._waiting) == THREADS)
            checks._handle._claims._pacing.calls = 1
        assert {it.answer for it in calls} == {SUBJECT}
        rest = [THREADS % most] if THREADS % most else []
        assert sorted(len(it) for it in store.puts) == [1, *rest, *[most] * (THREADS // most)]


def test_a_call_that_hangs_does_not_hold_up_the_others():
    store = Fickle()
    with strict(store, wait=PATIENCE) as checks:
        go = threading.Event()
        store.before = lambda: len(store.puts) == 1 and go.wait(PATIENCE)
        first = Soon(checks.check, fresh(jti="first"))
        until(lambda: store.puts)
        for it in range(3):
            assert Soon(checks.check, fresh(jti=str(it))).answer == SUBJECT
        assert first.thread.is_alive()
        go.set()
        assert first.answer == SUBJECT


def test_a_claim_that_is_late_is_not_put():
    """Nobody would get the answer, and the token would be lost."""
    store, late = Fickle(), fresh(jti="late")
    with strict(store, wait=0.3) as checks:
        claims = checks._handle._claims
        claims._pacing.calls = 64  # (as many as may be under way)
        assert Soon(checks.check, late).answer == "Unavailable"
        claims._pacing.calls = 0
        until(lambda: Soon(checks.check, fresh(jti=os.urandom(8).hex())).answer == SUBJECT)
        assert all(it.expires == store.puts[0][0].expires for put in store.puts for it in put)
        keys = {it.key for put in store.puts for it in put}
        assert checks.judge(late).use.key not in keys


def test_a_claim_of_who_does_not_know_yet_that_it_is_late():
    """It is asked about right before it goes out."""
    store = Fickle()
    with strict(store, wait=0.3) as checks:
        until(lambda: checks.ready)
        member, held = checks._handle, threading.Event()
        claims = member._claims
        claims._pacing.calls = 64
        member._overdue = lambda: held.wait(PATIENCE)
        call = Soon(checks.check, fresh())
        until(lambda: claims._waiting)
        until(lambda: member._until_due() == 0)
        claims._pacing.calls = 0
        with claims._gate:
            claims._gate.notify()
        until(lambda: not member._open)
        held.set()
        assert call.answer == "Unavailable"
        assert store.puts == [] and nothing_waits(checks)


def test_a_store_that_has_lost_entries():
    store = svid.testing.MemoryStore(lasts=3620)
    with strict(store, longest=3600) as checks:
        assert Soon(checks.check, fresh(jti="1")).answer == SUBJECT
        assert checks.unready() is None
        store.lose()
        with pytest.raises(svid.Unavailable, match="before the store lost entries"):
            checks.check(fresh(jti="2"))
        assert checks.unready().startswith("The store has lost entries")
        assert checks.unready(int(time.time()) + 60) is None


def test_what_the_store_has_lost_is_not_forgotten():
    """An answer that was under way before the loss says nothing of it."""
    store = svid.testing.MemoryStore(lasts=3620)
    with strict(store, longest=3600) as checks:
        store.lose()
        with pytest.raises(svid.Unavailable, match="before the store lost entries"):
            checks.check(fresh(jti="1"))
        store._deaf = 0
        assert Soon(checks.check, fresh(jti="2")).answer == SUBJECT
        assert checks.unready().startswith("The store has lost entries")


def test_a_token_that_lives_longer_than_the_store_keeps_it():
    now = int(time.time())
    with strict(svid.testing.MemoryStore(now=lambda: now - 3600), longest=3600) as checks:
        with pytest.raises(svid.Unavailable, match="lasts seconds past the store's time"):
            checks.check(fresh())


def test_the_memory_of_a_store():
    clock = [1000]
    store = svid.testing.MemoryStore(now=lambda: clock[0], margin=10, lasts=100)
    mine, theirs = (svid.Claim(b"k" * 32, it * 32, 1050) for it in (b"m", b"t"))
    assert store.put([]) == []
    assert store.put([mine, theirs, mine]) == [svid.Found(b"m" * 32, 1000, 0)] * 3
    clock[0] = 1059
    assert store.put([theirs]) == [svid.Found(b"m" * 32, 1059, 0)]
    clock[0] = 1060
    assert store.put([theirs]) == [svid.Found(b"t" * 32, 1060, 0)]
    store.put([mine._replace(key=b"l" * 32, expires=1200)])
    store.withdraw(b"l" * 32, 1100)
    clock[0] = 1209
    late = theirs._replace(key=b"l" * 32)
    assert store.put([late]) == [svid.Found(svid.WITHDRAWN, 1209, 0)]
    store.lose()
    assert store.put([late]) == [svid.Found(b"t" * 32, 1209, 1309)]


# -- Withdrawals


def test_a_withdrawal_reaches_the_other_validators():
    store, token = svid.testing.MemoryStore(), fresh()
    with strict(store) as one, strict(store) as other:
        use = one.withdraw(token)
        assert use.withdrawn
        for checks in one, other, other:
            assert Soon(checks.check, token).answer == "Withdrawn"
        assert [it.withdrawn for it in other.report().uses] == [True]
        assert nothing_waits(one)


def test_a_withdrawal_that_the_store_may_not_have():
    store, token = Fickle(), fresh()
    with strict(store, wait=0.2) as checks:
        store.before = away
        with pytest.raises(svid.Unavailable, match="withdraw it again"):
            checks.withdraw(token)
        with holding(store), pytest.raises(svid.Unavailable, match="withdraw it again"):
            checks.withdraw(token)
        assert in_time(checks.check, token) == "Withdrawn"
        until(lambda: answer(checks.withdraw, token) != "Unavailable")
        assert nothing_waits(checks)


def test_a_withdrawal_for_which_there_is_no_thread(tmp_path, monkeypatch):
    """The store may lack it, and the disk has it all the same."""
    store, token, start = svid.testing.MemoryStore(), fresh(), threading.Thread.start

    def none(thread):
        if thread.name == "svid-withdraw":
            raise RuntimeError("can't start new thread")
        start(thread)

    with strict(store, state=tmp_path) as checks:
        with monkeypatch.context() as patch:
            patch.setattr(threading.Thread, "start", none)
            with pytest.raises(svid.Unavailable, match="withdraw it again"):
                checks.withdraw(token)
        assert nothing_waits(checks)
    with strict(store, state=tmp_path) as checks:
        assert in_time(checks.check, token) == "Withdrawn"


def test_a_withdrawal_that_the_disk_may_not_have(tmp_path, monkeypatch):
    with validator(state=tmp_path) as checks:
        monkeypatch.setattr(_journal, "write", no_space)
        with pytest.raises(svid.Unavailable, match="withdraw it again"):
            checks.withdraw(fresh())
        monkeypatch.undo()
        checks.withdraw(fresh())
        assert nothing_waits(checks)


# -- Callers


OTHERS = ["spiffe://example.org/other", "spiffe://example.com"]
OURS = ["spiffe://example.com", "spiffe://example.org/billing/*"]


@pytest.mark.parametrize("terms", [{}, {"mode": "reuse"}, {"mode": "strict"}], ids=str)
def test_callers(terms):
    if terms.get("mode") == "strict":
        terms = {**terms, "store": svid.testing.MemoryStore()}
    token = fresh()
    with validator(callers=OTHERS, **terms) as closed:
        for call in closed.check, closed.judge, closed.check:
            assert Soon(call, token).answer == "NotAllowed"
            assert Soon(call, token[:-6] + "AAAAAA").answer == "BadSignature"
        assert closed.report().uses == () and nothing_waits(closed)
    for callers in OURS, OURS[1], iter(OURS), None:
        with validator(callers=callers, **terms) as opened:
            token = fresh(jti=os.urandom(8).hex())
            assert Soon(opened.judge, token).answer == SUBJECT
            assert Soon(opened.check, token).answer == SUBJECT


@pytest.mark.parametrize("callers", [[], (), iter(())], ids=["list", "tuple", "iterator"])
def test_no_callers_are_not_all(callers):
    with pytest.raises(ValueError, match="leave it out"):
        validator(callers=callers)


@pytest.mark.parametrize("callers", ["", "example.org", ["spiffe://example.org", "a"], ["*"]])
def test_callers_that_are_no_patterns(callers):
    with pytest.raises(ValueError, match="no pattern of SPIFFE IDs"):
        validator(callers=callers)


def test_callers_and_audiences_of_several_lines():
    with pytest.raises(ValueError, match="line feed"):
        validator(audiences=["ledger", "a\nb"], callers=OURS)


# -- Deadlines


def test_a_verifier_that_takes_too_long():
    """The token is not used up: it was not judged in time."""
    token, slow = fresh(), [True]

    def verifies(*_):
        end = time.monotonic() + 0.3  # (the request has come)
        until(lambda: not slow or time.monotonic() > end)
        return True

    with validator(verifies=verifies, wait=0.2) as checks:
        assert Soon(checks.check, token).answer == "Unavailable"
        assert checks.report().uses == () and nothing_waits(checks)
        slow.clear()
        assert in_time(checks.check, token) == SUBJECT


def test_those_that_wait_are_late_one_by_one():
    store = Fickle()
    with strict(store, wait=0.3) as checks:
        with holding(store):
            calls = [Soon(checks.check, fresh(jti=str(it % 4))) for it in range(8)]
            assert {it.answer for it in calls} == {"Unavailable"}
        assert nothing_waits(checks)


def test_who_waits_behind_a_late_claim_goes_on(monkeypatch):
    """Its turn comes as the one before it is late, and it is not late itself."""
    store, token, go = Fickle(), fresh(), threading.Event()
    with strict(store, wait=PATIENCE) as checks:
        store.before = lambda: len(store.puts) == 1 and go.wait(PATIENCE)
        first = Soon(checks.check, token)
        until(lambda: store.puts)
        came = _member.up()
        until(lambda: _member.up() > came + 1)
        second = Soon(checks.check, token)
        until(lambda: len(checks._handle._open) == 2)
        checks._handle._until_due()
        late = checks._handle._due.at
        monkeypatch.setattr(_member, "up", lambda: late)
        checks._handle._overdue()
        assert (first.answer, second.answer) == ("Unavailable", SUBJECT)
        go.set()


def test_an_error_leaves_nobody_behind():
    """Who waits behind a request that ends by an error has its turn."""
    store, token, asked = Fickle(), fresh(), []

    def verifies(*_):
        asked.append(True)
        if len(asked) == 1:
            raise KeyboardInterrupt
        return True

    with strict(store, verifies=verifies) as checks:
        with pytest.raises(KeyboardInterrupt):
            checks.check(token)
        assert nothing_waits(checks)
        assert checks._handle._until_due() == threading.TIMEOUT_MAX
        assert Soon(checks.check, token).answer == SUBJECT


def test_closing_while_others_wait():
    store = Fickle()
    checks = strict(store, wait=PATIENCE * 9)
    with holding(store):
        calls = [Soon(checks.check, fresh(jti=str(it % 3))) for it in range(6)]
        calls.append(Soon(checks.withdraw, fresh(jti="w")))
        until(lambda: len(checks._handle._open) == 6 and checks._handle._withdrawals)
        checks.close()
        assert {it.answer for it in calls} == {"Closed"}
    until(lambda: not claiming())
    assert nothing_waits(checks)


def test_a_fork_puts_no_claims():
    store, token = Fickle(), fresh()
    with strict(store) as checks:
        assert forked(lambda: answer(checks.check, token)) == "Forked"
        assert forked(checks.unready) == "Forked"
        assert forked(checks.close) is None
        assert store.puts == [] and Soon(checks.check, token).answer == SUBJECT


def claiming():
    return [it for it in threading.enumerate() if it.name == "svid-claims"]


def test_a_validator_that_is_dropped_ends_its_threads():
    checks = strict(svid.testing.MemoryStore())
    gone = weakref.ref(checks._handle)
    assert Soon(checks.check, fresh()).answer == SUBJECT and claiming()
    del checks
    gc.collect()
    until(lambda: gone() is None and not claiming())


# -- Readiness


def no_space(*_):
    raise OSError(errno.ENOSPC, "no space")


KEEPS_NOTHING = "The state folder takes no acceptance. Mend the disk."


def test_a_disk_that_fails(tmp_path, monkeypatch):
    token = fresh(jti="1")
    with validator(state=tmp_path) as checks:
        assert checks.ready and checks.unready() is None
        monkeypatch.setattr(_journal, "write", no_space)
        with pytest.raises(svid.Unavailable, match="did not take the acceptance.*no space"):
            checks.check(token)
        for _ in range(2):
            assert not checks.ready and checks.unready() == KEEPS_NOTHING
        monkeypatch.undo()
        until(lambda: checks.ready)  # (each look tries to keep that use)
        assert answer(checks.check, fresh(jti="2")) == SUBJECT
        assert answer(checks.check, token) == "Replayed"
    with validator(state=tmp_path) as checks:
        assert len(checks.report().uses) == 2


def test_a_disk_that_hangs(tmp_path, monkeypatch):
    go, real = threading.Event(), os.fdatasync

    def fdatasync(file):
        go.wait(PATIENCE)
        real(file)

    with validator(state=tmp_path, wait=0.2) as checks:
        monkeypatch.setattr(os, "fdatasync", fdatasync)

        def hangs():  # (a check that is late before it was judged stores and shows nothing)
            assert Soon(checks.check, fresh(jti=os.urandom(8).hex())).answer == "Unavailable"
            return checks.unready() == KEEPS_NOTHING

        until(hangs)
        assert nothing_waits(checks)
        go.set()
        until(lambda: checks.ready)
        until(lambda: Soon(checks.check, fresh(jti=os.urandom(8).hex())).answer == SUBJECT)


def test_a_store_that_is_not_there_yet(caplog):
    store = Fickle()
    store.before = away
    with strict(store, wait=0.1) as checks:
        assert checks.unready() == "The group's store was not reached yet."
        with pytest.raises(svid.Unavailable, match="not reached yet"):
            checks.check(fresh())
        assert store.puts == [] and "the store is away" in caplog.text
        store.before = lambda: None
        until(lambda: checks.ready)
        assert in_time(checks.check, fresh()) == SUBJECT


def test_an_answer_that_is_not_handed_on():
    """As where there is no memory for that: nobody waits for longer than their time."""
    store = Fickle()
    with strict(store, wait=3) as checks, holding(store):
        member, came = checks._handle, []
        calls = [Soon(checks.check, fresh(jti="1")), Soon(checks.withdraw, fresh(jti="2"))]

        def have_come():
            with member._lock:
                for them in member._open, member._withdrawals:
                    came.extend(them)
                    them.clear()
            return len(came) == 2

        until(have_come)
        assert [it.answer for it in calls] == ["Unavailable"] * 2


def test_a_store_that_is_reached_meanwhile():
    """Who has looked before does not say later that it was not reached."""
    store = Fickle()
    store.before = away
    with strict(store, wait=0.01) as checks:
        member, claims = checks._handle, checks._handle._claims
        lock, look = member._lock, claims.look

        class Reached:
            """The lock of the validator. While a thread waits for it, the store is reached."""

            def __enter__(self):
                member._lock = lock
                claims._answered([], [])
                lock.acquire()

            def __exit__(self, *_):
                lock.release()

        def looks(_):
            claims.look, member._lock = look, Reached()
            return False

        claims.look = looks
        assert checks.unready() is None


def test_a_store_that_goes_away():
    store = Fickle()
    with strict(store, wait=0.1) as checks:
        until(lambda: checks.ready)
        store.before = away

        def is_away():  # (a claim that is late does not go out, and shows nothing)
            assert Soon(checks.check, fresh(jti=os.urandom(8).hex())).answer == "Unavailable"
            return not checks.ready

        until(is_away)
        assert checks.unready().startswith("The group's store does not answer")
        store.before = lambda: None
        until(lambda: checks.ready)  # (each look asks the store)


@pytest.mark.parametrize("mode", ["bound", "once", "reuse"])
@pytest.mark.parametrize("is_silent", [False, True])
def test_a_store_that_tells_no_withdrawals_any_more(mode, is_silent, monkeypatch):
    """Its claims go on. In the mode bound no tokens are to be sent here, as with svidd."""
    monkeypatch.setattr(_claims, "_HEARS", 0.01)
    store, go = Pages(), threading.Event()
    who = {"caller": b"a"} if mode == "bound" else {}
    with validator(mode=mode, store=store, wait=0.05) as checks:
        until(lambda: checks.ready)
        store.before = (lambda: go.wait(PATIENCE)) if is_silent else away
        if mode == "bound":
            until(lambda: not checks.ready)
            assert checks.unready().startswith("The group's store does not answer")
        else:
            until(lambda: checks._handle._claims.look(0.05))
            assert checks.ready
        assert in_time(functools.partial(checks.check, **who), fresh()) == SUBJECT
        store.before = lambda: None
        go.set()
        until(lambda: not checks._handle._claims.look(0.05))
        assert checks.ready


@pytest.mark.parametrize("tells", [False, True])
def test_a_store_that_fails_is_away_since_it_failed_first(tells, monkeypatch):
    """Each of its answers may come at once."""
    monkeypatch.setattr(_claims, "_HEARS", 0.001)
    store, failed, now = Pages() if tells else Fickle(), [], [time.monotonic()]

    def fails():
        failed.append(now[0])
        away()

    with validator(mode="reuse" if tells else "strict", store=store) as checks:
        until(lambda: checks.ready)
        looks = claims_of(checks).look
        moves = types.SimpleNamespace(monotonic=lambda: now[0])
        monkeypatch.setattr(_claims, "time", moves)
        store.before = fails
        call = None if tells else Soon(checks.check, fresh())
        for _ in range(3):
            now[0] += 9
            until(lambda: not looks(1e9) and failed.count(now[0]) > tells)
        assert looks(17)
    assert tells or call.answer == "Closed"


def test_claims_wait_for_a_store_without_a_turn(monkeypatch):
    """A store that is away costs no processor, neither of the service nor of its own."""
    store, asked, turns, taken = Fickle(), [], [], _claims.Claims._taken

    def fails():
        asked.append(time.monotonic())
        away()

    monkeypatch.setattr(_claims.Claims, "_taken", lambda own: turns.append(1) or taken(own))
    store.before = fails
    with strict(store, wait=0.01):
        until(lambda: len(asked) > 5)
        assert len(turns) < 20 * len(asked)


def test_a_clock_that_jumps():
    now = int(time.time())
    with validator(step=3600) as checks:
        assert checks.unready(now) is None
        assert checks.unready(now + 7200).startswith("The clock went ahead too far at once.")
        assert checks.unready(now) is None


def test_renewed_bundles_count_for_who_waits():
    """A key that is gone by then lets nobody in."""
    store, token = Fickle(), fresh()
    with strict(store, wait=PATIENCE) as checks:
        with holding(store):
            calls = [Soon(checks.check, token) for _ in range(2)]
            until(lambda: store.puts)
            checks.renew(bundle(entry(private_key("ES256", 1), "k2")))
        assert {it.answer for it in calls} == {"NoKey"}


# -- Withdrawals of the store


class Pages(svid.testing.MemoryStore):
    """A store that tells one withdrawal at a time, and what a test wants before that."""

    def __init__(self, **terms):
        super().__init__(**terms)
        self.before, self.asked, self.forgets = lambda: None, 0, False

    def withdrawals(self, after):
        self.asked += 1
        self.before()
        if self.forgets:  # (the position is one that it does not know)
            after, self.forgets = "", False
        these, _ = super().withdrawals(after)
        return these[:1], str(int(after or 0) + len(these[:1]) or "")


@pytest.mark.parametrize("mode", ["once", "reuse", "bound"])
def test_withdrawals_of_the_store_are_heard(mode, monkeypatch, tmp_path):
    """Those that were there before, page by page, and those that come. Each is taken once.

    So is that of a token which was accepted here.
    """
    monkeypatch.setattr(_claims, "_HEARS", 0.01)
    store, tokens, clock = Pages(), [fresh(jti=str(it)) for it in range(5)], svid.testing.Clock()
    who = {"caller": b"a"} if mode == "bound" else {}
    with strict(store) as other:
        for it in tokens[:3]:
            other.withdraw(it)
        state = tmp_path if mode == "once" else None
        with validator(mode=mode, store=store, state=state, clock=clock) as checks:
            said = [answer(checks.check, it, **who) for it in tokens]
            assert said == ["Withdrawn"] * 3 + [SUBJECT] * 2
            assert checks.ready
            other.withdraw(tokens[4])
            until(lambda: answer(checks.judge, tokens[4]) == "Withdrawn")
            mine = checks.withdraw(tokens[3])
            clock.advance(5)
            store.forgets, asked = True, store.asked
            until(lambda: store.asked > asked + 9)
            heard = [it for it in checks.report().uses if it.withdrawn]
            assert len(heard) == 5 and mine in heard
    if mode == "once":
        with validator(mode=mode, state=tmp_path) as checks:
            assert len([it for it in checks.report().uses if it.withdrawn]) == 5


def test_no_token_is_judged_before_withdrawals_are_read(monkeypatch, caplog):
    monkeypatch.setattr(_claims, "_HEARS", 0.01)
    store, token = Pages(), fresh()
    store.before = away
    with validator(mode="reuse", store=store, wait=0.05) as checks:
        assert answer(checks.check, token) == "Unavailable" and "withdrawals" in checks.unready()
        store.before = lambda: None
        until(lambda: checks.ready)
        checks._handle._wait = PATIENCE
        assert in_time(checks.check, token) == SUBJECT
    said = [it.getMessage() for it in caplog.records]
    assert said.count("the group's store tells no withdrawals: the store is away") == 1


def test_withdrawals_are_read_though_nobody_can_be_warned(monkeypatch):
    """The store was away, and the logger has failed."""
    monkeypatch.setattr(_claims, "_HEARS", 0.01)
    store, token = Pages(), fresh()
    with no_logger(), validator(mode="reuse", store=store) as checks:
        until(lambda: checks.ready)
        store.before, asked = away, store.asked
        until(lambda: store.asked > asked + 2)
        store.before = lambda: None
        with validator(mode="reuse", store=store) as other:
            other.withdraw(token)
        until(lambda: answer(checks.judge, token) == "Withdrawn")


def test_a_withdrawal_that_has_expired_is_passed_over(monkeypatch):
    monkeypatch.setattr(_claims, "_HEARS", 0.01)
    store = Pages()
    store.withdraw(b"k" * 32, 1)
    store.withdraw(b"l" * 32, int(time.time()) + 1000)
    with validator(mode="reuse", store=store) as checks:
        assert [it.key for it in checks.report().uses] == [b"l" * 32]


@pytest.mark.parametrize("told", [0, 1])
def test_a_store_that_tells_nothing_is_asked_after_a_pause(monkeypatch, told):
    """A store that is away would else be asked thousands of times a second, by each member.

    It may go away after it has told some.
    """
    monkeypatch.setattr(_claims, "_HEARS", 0.02)
    store, asked = Pages(), []
    for n in range(2):
        store.withdraw(bytes([n]) * 32, int(time.time()) + 1000)

    def fails():
        if store.asked > told:
            asked.append(time.monotonic())
            away()

    store.before = fails
    with validator(mode="reuse", store=store, wait=0.01):
        until(lambda: len(asked) > 20)
    assert min(after - before for before, after in zip(asked, asked[1:])) >= 0.019


def test_in_mode_strict_no_withdrawals_are_read():
    store = Pages()
    with strict(store) as checks:
        assert answer(checks.check, fresh()) == SUBJECT
    assert store.asked == 0


def test_who_reads_withdrawals_ends():
    def threads():
        return [it for it in threading.enumerate() if it.name == "svid-withdrawals"]

    until(lambda: gc.collect() >= 0 and not threads())  # (those of earlier tests)
    with validator(mode="reuse", store=Pages()):
        assert len(threads()) == 1
    until(lambda: not threads())
    checks = validator(mode="reuse", store=Pages())
    del checks
    gc.collect()
    until(lambda: not threads())


# -- After a suspension


class Suspended(Pages):
    """A store whose validators look at it once at their start, and then where a look is due."""

    def __init__(self, monkeypatch):
        super().__init__()
        self.after = lambda: None
        self.clock, self.up = svid.testing.Clock(), time.monotonic()
        monkeypatch.setattr(_claims, "_HEARS", 9 * PATIENCE)
        moves = types.SimpleNamespace(monotonic=lambda: self.up)
        monkeypatch.setattr(_looks, "time", moves)

    def withdrawals(self, after):
        found = super().withdrawals(after)
        self.after()  # (what it has read may be old by now)
        return found

    def validator(self, mode, **terms):
        checks = validator(mode=mode, store=self, clock=self.clock, **terms)
        until(lambda: checks.ready and not claims_of(checks).looks.is_due(int(self.clock())))
        return checks

    def withdraw_meanwhile(self, token, seconds=100):
        """The process is suspended for so long, and another member withdraws the token."""
        with validator(mode="reuse") as other:
            use = other.withdraw(token)
        self.withdraw(use.key, use.expires)
        self.clock.advance(seconds)


def claims_of(checks):
    return checks._handle._claims


def caller_of(mode):
    return {"caller": b"a"} if mode == "bound" else {}


@pytest.mark.parametrize("mode", ["once", "reuse", "bound"])
def test_a_withdrawal_while_the_machine_was_suspended(mode, monkeypatch):
    """The clock that only goes ahead stands still then. While a process is stopped, both go on."""
    store, tokens = Suspended(monkeypatch), [fresh(jti=str(n)) for n in range(4)]
    with store.validator(mode) as checks:
        who = caller_of(mode)
        assert answer(checks.check, tokens[0], **who) == SUBJECT
        for n, token in enumerate(tokens):
            store.withdraw_meanwhile(token, seconds=9 * (n % 2))
            store.up += 8 * (1 - n % 2)
            said = answer(checks.judge, token) if n == 3 else answer(checks.check, token, **who)
            assert said == "Withdrawn"


def test_no_look_is_due_while_looks_are_made(monkeypatch):
    store, tokens = Suspended(monkeypatch), [fresh(jti=str(n)) for n in range(2)]
    with store.validator("reuse") as checks:
        store.up, asked = store.up + 7, store.asked
        store.withdraw_meanwhile(tokens[0], seconds=7)
        assert answer(checks.check, tokens[1]) == SUBJECT and store.asked == asked
        store.clock.advance(-100)
        assert answer(checks.check, tokens[1]) == SUBJECT and store.asked == asked


def test_a_look_from_before_a_suspension_does_not_count(monkeypatch):
    store, token, go = Suspended(monkeypatch), fresh(), threading.Event()
    with store.validator("reuse") as checks:
        looks = claims_of(checks).looks
        store.after = lambda: go.wait(PATIENCE)
        asked = store.asked
        looks._ended.wake()
        until(lambda: store.asked > asked)
        store.withdraw_meanwhile(token)
        call = Soon(checks.check, token)
        until(lambda: looks._wanted == looks._begun + 1 or call.said)
        go.set()
        assert call.answer == "Withdrawn"


@pytest.mark.parametrize("is_away", [False, True])
def test_requests_after_a_suspension_share_a_look(is_away, monkeypatch):
    """Also where it fails: whoever comes then is answered at once, as before."""
    store, tokens, go = Suspended(monkeypatch), [fresh(jti=str(n)) for n in range(2)], []
    with store.validator("reuse", wait=9 * PATIENCE) as checks:
        looks, asked, waits, begun = claims_of(checks).looks, store.asked, [], []
        wait_for = looks._turn.wait_for
        looks._turn.wait_for = lambda *given: waits.append(1) or wait_for(*given)

        def holds():
            begun.append(True)
            until(lambda: go)
            if is_away:
                away()

        store.before = holds
        store.withdraw_meanwhile(tokens[0])
        calls = [Soon(checks.check, tokens[0])]
        until(lambda: begun)
        calls += [Soon(checks.check, tokens[0]) for _ in range(THREADS - 1)]
        until(lambda: len(waits) == THREADS)
        go.append(True)
        assert {it.answer for it in calls} == {SUBJECT if is_away else "Withdrawn"}
        assert answer(checks.check, tokens[1]) == SUBJECT
        assert (len(waits), store.asked - asked) == (THREADS, 1 if is_away else 2)


@pytest.mark.parametrize("mode", ["once", "reuse", "bound"])
def test_a_store_that_hangs_after_a_suspension(mode, monkeypatch):
    """A request waits for a part of its time, and is answered then. The next one is at once."""
    store, token = Suspended(monkeypatch), fresh()
    with store.validator(mode) as checks:
        looks, waits, who = claims_of(checks).looks, [], caller_of(mode)
        looks._turn.wait_for = lambda _, most: waits.append(most)
        if mode != "once":
            assert answer(checks.check, token, **who) == SUBJECT
        with holding(store):
            store.withdraw_meanwhile(fresh(jti="2"))
            assert answer(checks.check, token, **who) == SUBJECT
            assert answer(checks.judge, fresh(jti="2")) == SUBJECT
        assert waits == [0.75 * PATIENCE]


def test_a_store_that_hangs_ends_no_request_late(monkeypatch):
    store, token = Suspended(monkeypatch), fresh()
    with store.validator("reuse", wait=0.2) as checks, holding(store):
        store.withdraw_meanwhile(token)
        assert in_time(checks.check, token) == SUBJECT


def test_closing_while_a_look_is_awaited(monkeypatch):
    store, token = Suspended(monkeypatch), fresh()
    checks = store.validator("reuse", wait=9 * PATIENCE)
    with holding(store):
        store.withdraw_meanwhile(token)
        call = Soon(checks.check, token)
        until(lambda: claims_of(checks).looks._wanted)
        checks.close()
        assert call.answer == "Closed"
