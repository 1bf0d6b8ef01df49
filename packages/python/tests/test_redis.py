"""RedisStore, over real servers. The tests of go/claims/redis run over it too."""

import contextlib
import gc
import inspect
import logging
import os
import pathlib
import resource
import signal
import socket
import ssl
import subprocess
import threading
import time
import traceback
import types
from concurrent.futures import ThreadPoolExecutor

import of_go
import pytest
import redis
import svid
from making import (
    PATIENCE,
    Authority,
    Clocks,
    fresh,
    joined,
    no_logger,
    status_of,
    until,
    validator,
)
from svid import _scripts
from svid import redis as store_of_redis
from svid._group import End, GroupStore, warn_of_end
from svid.postgres import PostgresStore
from svid.redis import RedisStore, State, StoreFault

CLIENT = pathlib.Path(__file__).parent / "store_client.py"
# The tests of go/claims/redis, in groups. One process runs those that are chosen.
TESTS = {
    "member": "TestAMemberOfAnotherLanguage|TestStore|TestListsHaveAnAge|TestGarbageInAList",
    "fit": "TestAServerThatForgets|TestASettingThatIsChanged|TestTheFirstRewrite"
    "|TestAKeyThatIsNoRecord|TestAServerThatGetsAFile|TestRightsOfAnotherLanguage|TestPasswords"
    "|TestTLS|TestASocket",
    "losses": "TestAnEntryThatIsRemovedByHand|TestWhatAMemberKnows|TestATokenThatLivesTooLong"
    "|TestMembersAgree|TestEachPutLooksAtTheEpoch|TestAnEndCoversWhatEachMemberKnows"
    "|TestAStoreThatWasMadeAnew|TestMembersCompareFirst|TestWhatIsOverIsNotKept"
    "|TestAClockThatIsADayOff|TestAnAnswerOfAnEarlierRun|TestAnEntryThatWasFound"
    "|TestEntriesThatWereFound|TestATokenThatIsWithdrawnAgain"
    "|TestALateAnswerOfAServerThatIsGone",
    "ends": "TestFullMemory|TestFullDisk|TestLateAnswers|TestKilledOverAndOver"
    "|TestAServerThatIsSlow",
    "replicas": "TestAReplicaAlone|TestAReplicaUnderTheSameName|TestATakeover"
    "|TestATakeoverWithReplicas|TestTooFewReplicas|TestTwoPrimaries|TestAPrimaryThatWasAReplica"
    "|TestEachPutLooksAtTheRun|TestAnswersInAnotherOrder",
    "sentinels": "TestSentinel|TestAPrimaryThatHung|TestSentinelsThatDisagree",
    "cluster": "TestCluster|TestAMemberOfAnotherLanguageInACluster",
    "cluster_servers": "TestClusterWithoutOneServer|TestHowAClusterIsNamed",
    "cluster_replicas": "TestClusterTakeover|TestClusterTakeoverWithReplicas",
}
# Those of parts that only the member in Go has.
OTHERS = {
    "TestRights",
    "TestALookThatALateAnswerOvertook",
    "TestACallThatIsCut",
    "TestFewEntriesAreKnown",
    "TestALateAnswerAfterASuspension",
    "TestANumberThatExpires",
    "TestAServerThatIsAskedAfterASuspension",
    "TestSentinelsThatDisagreeMeanwhile",
    "TestAnEntryThatGoesMeanwhile",
    "TestAKeyOfAnUnknownAlgorithm",
    "TestOptions",
    "TestRecords",
    "TestSlots",
    "TestNoTextIsAnID",
    "TestARecordThatChangedMeanwhile",
    "TestServersThatHang",
    "TestEachSearchForThePrimaryLeavesNothing",
    "TestABurstLeavesFewConnections",
    "TestAServerThatIsAwayIsAskedNowAndThen",
    "TestMembersThatComeAndGoLeaveNoKey",
    "TestALookThatANewConnectionOvertook",
    "TestAnAddressThatLeadsToAnotherServer",
    "TestAContextThatEndsLater",
    "TestPasswordsOfSentinels",
    "TestWhatIsAskedOnceLeavesNothing",
    "TestAServerWhoseConnectionsEnd",
    "TestAServerThatIsNamedTwice",
    "TestAnOldPrimaryAfterASuspension",
    "TestAnAnswerOfAServerThatWasReplaced",
    "TestALookThatHasNoTime",
}


@pytest.fixture(scope="module")
def binary(tmp_path_factory):
    """The tests of go/claims/redis as a program."""
    made = tmp_path_factory.mktemp("go") / "redis.test"
    of_go.built("test", "-c", "-ldflags=-w", "-o", str(made), "./claims/redis")
    return made


@pytest.fixture(scope="module")
def outcome(binary, request):
    """How the tests of go/claims/redis end that this run of pytest has."""
    env = {**os.environ, "TMPDIR": of_go.room()}
    env["SVID_STORE_CLIENT"] = of_go.client(CLIENT, "redis")
    tests = of_go.chosen(request, TESTS)
    return of_go.Outcome([binary], tests, cwd=of_go.TOP / "go/claims/redis", env=env)


@pytest.mark.parametrize("name", TESTS)
def test_store(outcome, name):
    """What go/claims/redis promises of a member over real servers."""
    for it in TESTS[name].split("|"):
        assert outcome.ended.get(it) in ("PASS", "SKIP"), outcome.of(it)


def test_every_test_of_a_store_is_run(binary):
    words = [binary, "-test.list", "^Test"]
    listed = subprocess.check_output(words, text=True, timeout=PATIENCE).split()
    assert {it for names in TESTS.values() for it in names.split("|")} == {*listed} - OTHERS


class Machine:
    """A server, on a socket of its own."""

    def __init__(self, folder, *more, port=0):
        folder.mkdir(exist_ok=True)
        self.url = f"unix://{folder}/socket"
        self.words = ["redis-server", "--port", str(port), "--unixsocket", f"{folder}/socket"]
        self.words += ["--dir", str(folder), "--appendonly", "yes", "--appendfsync", "always"]
        self.words += ["--save", "", "--logfile", f"{folder}/log", *more]
        self.socket = f"{folder}/socket"
        self.start()

    def start(self):
        self.run = subprocess.Popen(self.words)
        until(self._answers)

    def _answers(self):
        with contextlib.suppress(redis.exceptions.ConnectionError):
            return self.client().ping()

    def client(self):
        return redis.Redis(unix_socket_path=self.socket)

    def kill(self):
        self.run.kill()
        self.run.wait()

    @contextlib.contextmanager
    def paused(self):
        self.run.send_signal(signal.SIGSTOP)
        try:
            yield
        finally:
            self.run.send_signal(signal.SIGCONT)


@pytest.fixture
def machine(tmp_path):
    made = Machine(tmp_path)
    try:
        yield made
    finally:
        made.kill()


def store_of(machine, **terms):
    return RedisStore(machine.url, **{"wait": PATIENCE, **terms})


def claim(n, owner=b"o"):
    return svid.Claim(bytes([n]) * 32, owner * 32, int(time.time()) + 300)


def put(store, *claims):
    """Puts claims until they are answered."""
    end = time.monotonic() + PATIENCE
    while True:
        try:
            return store.put(claims)
        except StoreFault:
            assert time.monotonic() < end
            time.sleep(0.02)


def test_one_validator_accepts_a_token(machine):
    token = fresh(jti="one")
    with store_of(machine) as store, store_of(machine) as other:
        put(store, claim(1))
        with validator(mode="strict", store=store) as one:
            with validator(mode="strict", store=other) as two:
                assert one.check(token).spiffe_id
                with pytest.raises(svid.Replayed):
                    two.check(token)


def test_a_withdrawal_wins_over_a_claim(machine):
    with store_of(machine) as one, store_of(machine) as other:
        assert put(one, claim(1))[0].owner == b"o" * 32
        one.withdraw(claim(1).key, claim(1).expires)
        assert put(one, claim(1))[0].owner == svid.WITHDRAWN
        until(lambda: put(other, claim(1))[0].owner == svid.WITHDRAWN)


@contextlib.contextmanager
def slow(path, pause):
    """The address at which each answer of the server at a socket comes so many seconds late."""

    def relay(come, go, rest):
        with contextlib.suppress(OSError):
            while some := come.recv(65536):
                time.sleep(rest)
                go.sendall(some)
        for it in come, go:
            with contextlib.suppress(OSError):
                it.shutdown(socket.SHUT_RDWR)

    def accept():
        with contextlib.suppress(OSError):
            while True:
                one, _ = server.accept()
                other = socket.socket(socket.AF_UNIX)
                other.connect(path)
                for words in (one, other, 0), (other, one, pause):
                    threading.Thread(target=relay, args=words, daemon=True).start()

    with socket.create_server(("127.0.0.1", 0)) as server:
        threading.Thread(target=accept, daemon=True).start()
        yield f"redis://127.0.0.1:{server.getsockname()[1]}"
        server.shutdown(socket.SHUT_RDWR)


def test_a_server_that_is_slow_is_waited_for(machine):
    """As long as a call may take: a look has two answers, and that of each second ends before."""
    with slow(machine.socket, 0.8) as url, RedisStore(url, wait=PATIENCE) as store:
        assert put(store, claim(1))[0].owner == b"o" * 32


def test_a_number_of_a_life_never_goes_back(machine):
    """A look that was given up may come to the server after a later one."""
    with unwatched(machine.url) as store:
        until(lambda: store.put([claim(1)]))
        (key,) = machine.client().keys("svid:{svid}:life:*")
        machine.client().set(key, 1000)
        store.state()
        assert machine.client().get(key) == b"1000"


def test_the_last_claim_is_missed_though_many_others_were_found_since(machine):
    """A server that crashed may lack it alone."""
    *others, last = [claim(n) for n in range(store_of_redis.MOST_MARKS + 2)]
    with unwatched(machine.url) as store:
        for it in (*others, last, *others):
            put(store, it)
        machine.client().delete(b"svid:{svid}:" + last.key)
        assert store.state().deaf > last.expires


def test_each_member_has_numbers_of_its_own(machine):
    """By them it sees that a server is an older copy: those of another member may be greater."""

    def lives():
        return {*machine.client().keys("svid:{svid}:life:*")}

    before = lives()
    with store_of(machine) as one, store_of(machine) as other:
        for it in one, other:
            put(it, claim(1))
        assert len(lives() - before) == 2


def test_claims_of_tokens_that_expire_at_any_time(machine):
    """One that expires too late stops no other one of its call."""
    with store_of(machine) as store:
        put(store, claim(1))
        these = [claim(2), claim(3)._replace(expires=2**64 - 1), claim(4)._replace(expires=0)]
        good, late, over = store.put_each(these)
        assert (good.owner, late.name, over.owner) == (b"o" * 32, "late", b"o" * 32)
        assert store.put_each(these[1:2])[0].name == "late"


def test_a_server_that_lost_its_scripts_gets_them_again(machine):
    with store_of(machine) as store:
        put(store, claim(1))
        machine.client().script_flush()
        assert store.put([claim(1, b"x"), claim(2)])[0].owner == b"o" * 32


def test_a_call_ends_though_the_server_does_not_answer(machine):
    """It fails within `wait`, or soon after it. The same claim finds its own entry later."""
    with store_of(machine, wait=0.5) as store:
        put(store, claim(1))
        with machine.paused():
            for call in (
                lambda: store.put([claim(2)]),
                lambda: store.put([]),
                lambda: store.withdraw(claim(3).key, claim(3).expires),
                store.withdrawals,
                store.state,
            ):
                begun = time.monotonic()
                with pytest.raises(StoreFault):
                    call()
                assert time.monotonic() - begun < PATIENCE / 3  # (a busy machine)
        assert put(store, claim(2))[0].owner == b"o" * 32


def test_close_ends_calls(machine):
    """At once, and not when they would end by themselves."""
    store = store_of(machine, wait=9 * PATIENCE)
    put(store, claim(1))
    raised = []

    def call():
        try:
            store.put([claim(2)])
        except StoreFault as why:
            raised.append(why.name)

    with machine.paused():
        thread = threading.Thread(target=call, daemon=True)
        thread.start()
        until(lambda: store._open and not any(it.idle for it in store._pools.values()))
        store.close()
        thread.join(PATIENCE)
        assert raised == ["closed"]
    store.close()
    for call in (lambda: store.put([claim(1)]), store.state, store.withdrawals):
        with pytest.raises(StoreFault, match="closed"):
            call()
    assert [it.name for it in store.put_each([claim(1), claim(2)])] == ["closed", "closed"]


def test_a_store_that_is_closed_has_no_connection(machine):
    """Though somebody keeps it. With several addresses it has one of each for its looks."""
    with machine.client() as client:
        before = len(client.client_list())
        store = RedisStore(machine.url, machine.url, wait=PATIENCE)
        put(store, claim(1))
        assert len(client.client_list()) >= before + 3
        store.close()
        until(lambda: len(client.client_list()) == before)


def test_nothing_of_a_store_stays(machine):
    """Neither a thread nor a descriptor, when it is closed and when it is dropped."""
    threads, files = threading.active_count(), len(os.listdir("/proc/self/fd"))
    stores = [store_of(machine) for _ in range(3)]
    for it in stores:
        put(it, claim(1))
    for it in stores[1:]:
        it.close()
    del it
    stores.clear()
    until(lambda: gc.collect() >= 0 and threading.active_count() <= threads)
    until(lambda: gc.collect() >= 0 and len(os.listdir("/proc/self/fd")) <= files)


def test_a_store_of_another_process_answers_nobody(machine):
    with store_of(machine) as store:
        put(store, claim(1))
        child = os.fork()
        if not child:
            status = 1
            try:
                store.put([claim(2)])
            except svid.Forked:
                status = 0
            finally:
                os._exit(status)
        assert status_of(child) == 0
        assert put(store, claim(1))[0].owner == b"o" * 32


def test_warnings(machine, caplog):
    """The end of an epoch is warned of once, and so is a server that is away."""
    caplog.set_level(logging.WARNING, "svid")
    with store_of(machine) as store:
        put(store, claim(1))
        machine.client().flushall()
        until(lambda: "the epoch of the group's store has ended" in caplog.text)
        machine.kill()
        until(lambda: "can't be looked at" in caplog.text)
        machine.start()
        assert put(store, claim(1))[0].deaf >= claim(1).expires
    assert caplog.text.count("has ended") == 1


def test_terms(machine):
    """They are those of svidd: see go/guard. So are the 3 seconds in which members compare."""
    with store_of(machine, longest=8000, ahead=10, wait=1e300) as store:
        put(store, claim(1))
        record = machine.client().get("svid:{svid}:epoch").decode().split()
        assert record[4:7] == ["8020", "120", "60"]
        assert int(record[11]) // 1000 - int(record[3]) in (2, 3)
    with store_of(machine, ahead=61) as store:
        with pytest.raises(StoreFault, match="give all members the same clock tolerance"):
            store.put([])


@pytest.mark.parametrize("kind", [RedisStore, PostgresStore])
def test_a_store_has_the_terms_of_a_validator_by_default(kind):
    """All members of a store are to have the same."""
    own, theirs = (inspect.signature(it).parameters for it in (kind, svid.Validator))
    for name in "longest", "ahead", "wait":
        assert own[name].default == theirs[name].default


def test_a_longest_that_servers_can_not_count_with():
    """A member with it would write what no member can read."""
    with pytest.raises(ValueError, match="below 2"):
        RedisStore("redis://h", longest=2**52 - 60, ahead=30)


def unwatched(*servers):
    """A store that looks at its servers in calls alone."""
    store = RedisStore.__new__(RedisStore)
    store._begin(servers, "svid", 1, PATIENCE, (7200, 60, 60), 500)
    return store


def test_an_answer_of_a_server_that_is_gone_after_a_suspension(machine, monkeypatch):
    """It does not count: another one may stand in its place, and lack what it has stored."""
    clocks = Clocks(monkeypatch)
    with unwatched(machine.url) as store:
        put(store, claim(1))
        run = store._run

        def suspended(one, name, *rest):
            answers = run(one, name, *rest)
            if name == "put":
                clocks.wall += 100
                machine.kill()
            return answers

        store._run = suspended
        with pytest.raises(StoreFault):
            store.put([claim(2)])


@contextlib.contextmanager
def beside(tmp_path):
    """A server that is a replica of none."""
    other = Machine(tmp_path / "other")
    try:
        other.client().replicaof("127.0.0.1", "1")
        yield other
    finally:
        other.kill()


@pytest.mark.parametrize("is_sent", [False, True])
@pytest.mark.parametrize("call", ["put", "withdraw", "withdrawals"])
def test_an_old_primary_after_a_suspension(machine, tmp_path, monkeypatch, call, is_sent):
    """Another server has taken over meanwhile. What the old one answers does not count."""
    clocks = Clocks(monkeypatch)
    with beside(tmp_path) as other, unwatched(machine.url, other.url) as store:
        put(store, claim(1))
        other.client().replicaof("NO", "ONE")
        run, (one,) = store._run, [claim(2)]

        def suspended(*given):
            answers = run(*given)
            clocks.wall += 100
            return answers

        if is_sent:
            store._run = suspended
        else:
            clocks.wall += 100
        calls = {
            "put": lambda: store.put([one]),
            "withdraw": lambda: store.withdraw(one.key, one.expires),
            "withdrawals": store.withdrawals,
        }
        with pytest.raises(StoreFault) as fault:
            calls[call]()
        assert fault.value.name == "primaries"


def test_an_answer_of_a_server_that_was_replaced(machine, tmp_path, monkeypatch):
    """It does not count, where the call took long."""
    clocks = Clocks(monkeypatch)
    with beside(tmp_path) as other, unwatched(machine.url, other.url) as store:
        put(store, claim(1))
        run = store._run

        def suspended(one, name, *rest):
            answers = run(one, name, *rest)
            if name == "put":
                clocks.wall += 100
                machine.client().replicaof("127.0.0.1", "1")
                other.client().replicaof("NO", "ONE")
            return answers

        store._run = suspended
        with pytest.raises(StoreFault) as fault:
            store.put([claim(2)])
        assert fault.value.name == "run"


def test_a_look_that_has_no_time_says_nothing(machine, tmp_path):
    """Who does not answer may be the primary."""
    with beside(tmp_path) as other, unwatched(machine.url, other.url) as store:
        put(store, claim(1))
        with other.paused():
            store._servers.lost()
            with pytest.raises(StoreFault):
                store._servers.primary(time.monotonic() + 0.2)
            put(store, claim(1))


def test_a_look_that_a_late_answer_overtook(machine):
    """An answer of an earlier run may come meanwhile. Another look compares what that put."""
    with unwatched(machine.url) as store:
        put(store, claim(1))
        (it,) = store._shards
        asked, at = it.known, it.agreed
        later = b" ".join([*asked.record.split(b" ")[:7], b"later", *asked.record.split(b" ")[8:]])
        it.known = asked._replace(marks=(*asked.marks, b"another"))
        for was in asked, it.known:
            it.count += 1
            rest = it.checked, at, later, asked.epoch, asked.deaf, 1, 1
            assert store._adopt(it, it.count, was, *rest) == (was is not asked)
            assert it.known.run == (asked.run if was is asked else b"later")


@pytest.mark.parametrize("is_looked_at", [False, True])
def test_a_connection_that_is_new_may_lead_to_another_server(machine, is_looked_at):
    """A server that an older copy replaced, down to its memory, has the run and the record.

    That may happen as a look at the server ends.
    """
    with unwatched(machine.url) as store:
        adopt = store._adopt

        def replaced():
            machine.client().delete(b"svid:{svid}:" + claim(1).key)
            machine.client().client_kill_filter(_type="normal", skipme=True)

        def adopted(*known):
            store._adopt = adopt
            replaced()
            with store._connection(store._shards, time.monotonic() + PATIENCE):
                return adopt(*known)

        assert put(store, claim(1))[0].deaf == 0
        if is_looked_at:
            other = store._taken(store._shards, time.monotonic())
            store._adopt = adopted
            store._agree(other, store._shards, time.monotonic() + PATIENCE)
        else:
            replaced()
        found = put(store, claim(1, b"x"))[0]
        assert (found.owner, found.deaf > claim(1).expires) == (b"x" * 32, True)


def test_who_does_not_reach_the_primary_looks_for_another_one(tmp_path):
    """Also where it has no connection yet whose end would tell that."""
    machines = []
    try:
        machines += [Machine(tmp_path / n) for n in "ab"]
        one, two = machines
        two.client().replicaof("127.0.0.1", "1")
        with unwatched(one.url, two.url) as store:
            put(store, claim(1))
            one.kill()
            with store._lock:
                store._ended(store._pools[one.socket].idle)
            two.client().replicaof("NO", "ONE")
            assert put(store, claim(1, b"x"))[0].owner == b"x" * 32
    finally:
        for it in machines:
            it.kill()


def test_an_address_that_leads_to_another_server(machine, tmp_path):
    """A member connects again once the server says that it is a replica."""
    other, address = Machine(tmp_path / "other"), tmp_path / "address"
    try:
        address.symlink_to(machine.socket)
        with RedisStore(f"unix://{address}", wait=PATIENCE) as store:
            put(store, claim(1))
            machine.client().replicaof("127.0.0.1", "1")
            with pytest.raises(StoreFault, match="it is a replica"):
                store.put([claim(1)])
            address.unlink()
            address.symlink_to(other.socket)
            assert put(store, claim(1, b"x"))[0].owner == b"x" * 32
    finally:
        other.kill()


def test_a_cluster_whose_servers_do_not_know_their_names(tmp_path):
    """They tell no host, which then is the one that was asked.

    The slots of two shards are the last and the first one of a range. A server may get them later.
    """
    more = ["--cluster-enabled", "yes", "--cluster-preferred-endpoint-type", "unknown-endpoint"]
    more += ["--cluster-require-full-coverage", "no"]
    slots = {it: store_of_redis._Shard(it, f"svid:{it:02x}").slot for it in range(16)}
    last, first = sorted((slots[0], slots[12]))
    nobody = {last + 1, first - 1}
    assert not nobody & {*slots.values()} and last + 1 < first - 1
    ranges = (0, last, last + 2, first - 2, first, 16383)
    with held_ports(2) as (port, bus):
        made = Machine(tmp_path / "one", *more, "--cluster-port", str(bus), port=port)
    try:
        ask = made.client().execute_command
        ask("CLUSTER ADDSLOTSRANGE", *ranges[:4])
        until(lambda: ask("CLUSTER INFO")["cluster_state"] == "ok")
        with RedisStore(f"redis://127.0.0.1:{port}", wait=PATIENCE) as store:
            with pytest.raises(StoreFault, match="no server of the Cluster has a slot"):
                store.put([claim(1), claim(200)])
            ask("CLUSTER ADDSLOTSRANGE", *ranges[4:])
            assert put(store, claim(1), claim(200))[1].owner == b"o" * 32
            assert len(store._shards) == 16
    finally:
        made.kill()


@contextlib.contextmanager
def held_ports(count):
    """Ports that nobody else has, for a server that the block starts."""
    with contextlib.ExitStack() as all:
        held = [all.enter_context(socket.socket()) for _ in range(count)]
        for it in held:
            it.setsockopt(socket.SOL_SOCKET, socket.SO_REUSEADDR, 1)
            it.bind(("127.0.0.1", 0))
        yield [it.getsockname()[1] for it in held]


@pytest.mark.parametrize("host", ["127.0.0.1", "localhost"])
def test_a_server_of_another_name(host, tmp_path):
    """By TLS. Its certificate is good, and that of 127.0.0.1."""
    authority, context = Authority(), ssl.SSLContext(ssl.PROTOCOL_TLS_SERVER)
    context.load_cert_chain(authority.server(tmp_path))
    heard = []

    def serve():
        with contextlib.suppress(OSError), listening.accept()[0] as bare:
            with context.wrap_socket(bare, server_side=True) as one:
                heard.append(one.recv(9))

    with socket.create_server(("127.0.0.1", 0)) as listening:
        thread = threading.Thread(target=serve, daemon=True)
        thread.start()
        port, known = listening.getsockname()[1], authority.pem(tmp_path)
        url = f"rediss://{host}:{port}?ssl_ca_certs={known}"
        store = store_of_redis._Servers([url], End())
        with pytest.raises(StoreFault) as raised:
            store.is_cluster(time.monotonic() + PATIENCE)
        thread.join(PATIENCE)
    is_other = "certificate verify failed" in str(raised.value)
    assert (is_other, len(heard)) == ((False, 1) if host == "127.0.0.1" else (True, 0))


def test_all_answers_of_a_call_have_its_time_together(monkeypatch):
    """A server may answer one command after the other, each of them in time."""
    now = [0.0]

    class Slow:
        _sock = types.SimpleNamespace(settimeout=lambda _: None)

        def connect(self):
            """Takes no time."""

        pack_commands = send_packed_command = lambda self, it: it

        def read_response(self):
            now[0] += 0.4
            return b"OK"

    monkeypatch.setattr(store_of_redis, "time", types.SimpleNamespace(monotonic=lambda: now[0]))
    at = types.SimpleNamespace(name="slow", connection=lambda _: Slow())
    one = store_of_redis._Connection(at, End(), 1.0)
    assert one.call([("PING",)] * 2, 1.0) == [b"OK"] * 2
    with pytest.raises(StoreFault) as raised:
        one.call([("PING",)] * 9, now[0] + 1.0)
    assert raised.value.name == "silent" and now[0] < 3


@pytest.mark.parametrize(("word", "name"), _scripts.CODES.items())
def test_what_a_server_says_by_its_first_word(word, name):
    """redis-py takes the word away from errors that it knows."""
    told = redis.connection.PythonParser(65_536).parse_error(f"{word} 1 127.0.0.1:1")
    one = types.SimpleNamespace(_ends=End(), at=types.SimpleNamespace(name="it"))
    assert store_of_redis._Connection._fault(one, told).name == name


def test_many_calls_share_a_look(monkeypatch):
    servers = store_of_redis._Servers(["redis://h:1", "redis://h:2"], End())
    asked, go, end = [], threading.Event(), time.monotonic() + PATIENCE

    def ask(_):
        asked.append(1)
        go.wait(PATIENCE)
        return servers._all[:1]

    class Lock:
        """It remembers which threads asked for it."""

        came, real = [], servers._looking

        def acquire(self, timeout):
            self.came.append(1)
            return self.real.acquire(timeout=timeout)

        def release(self):
            self.real.release()

    lock = servers._looking = Lock()
    monkeypatch.setattr(servers, "_ask", ask)
    terms = {"target": servers.primary, "args": (end,), "daemon": True}
    calls = [threading.Thread(**terms) for _ in range(8)]
    for it in calls:
        it.start()
    until(lambda: asked and len(lock.came) == 8)  # (who comes after the look makes none)
    go.set()
    joined(*calls)
    assert len(asked) == 1


def test_a_server_that_hangs_has_one_thread(monkeypatch):
    servers, go = store_of_redis._Servers(["redis://h:1", "redis://h:2"], End()), threading.Event()
    monkeypatch.setattr(servers, "_asked", lambda *_: go.wait(PATIENCE))
    before = set(threading.enumerate())
    for _ in range(5):
        with pytest.raises(StoreFault):
            servers.look(time.monotonic() + 0.02)
    assert len(set(threading.enumerate()) - before) <= 2
    go.set()


def test_a_connection_whose_answer_is_late_ends(machine):
    """The next call would read that answer."""
    with unwatched(machine.url) as store:
        put(store, claim(1))
        store._wait = 0.2
        with machine.paused(), pytest.raises(StoreFault):
            store.put([claim(2)])
        assert not any(it.idle for it in store._pools.values())


def test_looks_at_servers_share_their_connections(machine, monkeypatch):
    """After a suspension they make others, since these may have ended."""
    clocks = Clocks(monkeypatch)
    monkeypatch.setattr(_scripts, "ASK_WAIT", 1000 * PATIENCE)
    servers = store_of_redis._Servers([machine.url, machine.url], End())
    with contextlib.closing(servers), machine.client() as client:

        def made():
            servers.look(time.monotonic() + 2 * PATIENCE)
            return client.info("stats")["total_connections_received"]

        assert len({made() for _ in range(9)}) == 1
        before = made()
        clocks.wall += 100
        assert {made() for _ in range(9)} == {before + 2}


def test_a_server_that_starts_again_fails_one_call(machine):
    """With it all connections end that wait for a call."""
    with unwatched(machine.url) as store:
        put(store, claim(1))
        shards, end = dict.fromkeys(store._shards), time.monotonic() + PATIENCE
        for it in [store._taken(shards, end) for _ in range(3)]:
            store._give(it, True)
        machine.kill()
        machine.start()
        faults = []

        def is_put():
            try:
                return store.put([claim(2)])
            except StoreFault as why:
                faults.append(why.name)

        until(is_put)
        assert faults.count("server") == 1, faults


def test_members_compare_with_pauses(machine):
    with unwatched(machine.url) as store:
        compare, compared = store._compare, []
        store._compare = lambda *given: compared.append(1) or compare(*given)
        put(store, claim(1))
        assert len(compared) <= 500 / store_of_redis._scripts.PAUSE + 5


def test_a_connection_that_is_made_while_it_closes_ends(machine, monkeypatch):
    class Late(store_of_redis._Connection):
        def __init__(self, *given):
            super().__init__(*given)
            store._end.set()

    with unwatched(machine.url) as store:
        put(store, claim(1))
        (pool,) = store._pools.values()
        store._ended(pool.idle)
        monkeypatch.setattr(store_of_redis, "_Connection", Late)
        with pytest.raises(StoreFault, match="closed"):
            store.put([claim(1)])
        assert not store._open


def test_a_shard_of_no_cluster(machine, monkeypatch):
    """A server that took the place of a Cluster would get claims that other members don't see."""
    monkeypatch.setattr(store_of_redis._Servers, "is_cluster", lambda *_: True)
    monkeypatch.setattr(store_of_redis._Servers, "holder", lambda servers, *_: servers._all[0])
    with store_of(machine) as store:
        with pytest.raises(StoreFault, match="none of a Cluster any more") as raised:
            store.put([claim(1)])
        assert raised.value.name == "unfit"
    assert machine.client().keys() == []


def test_servers_that_hang(machine, tmp_path):
    """The first server that answers says if there is a Cluster, though no look has time for all."""
    with contextlib.ExitStack() as open:
        urls = []
        for n in range(4):
            one = open.enter_context(socket.socket(socket.AF_UNIX))
            one.bind(f"{tmp_path}/hangs{n}")
            one.listen()
            urls.append(f"unix://{tmp_path}/hangs{n}")
        with RedisStore(*urls, machine.url, wait=1.5) as store:
            put(store, claim(1))


def test_a_server_that_hangs_is_asked_last(machine, tmp_path, monkeypatch):
    """Each call that looks for the servers of a Cluster would wait for it."""
    monkeypatch.setattr(_scripts, "ASK_WAIT", 50)
    with socket.socket(socket.AF_UNIX) as hangs:
        hangs.bind(f"{tmp_path}/hangs")
        hangs.listen()
        servers = store_of_redis._Servers([f"unix://{tmp_path}/hangs", machine.url], End())

        def is_answered():
            with contextlib.suppress(StoreFault):
                return servers.is_cluster(time.monotonic() + PATIENCE) is False

        until(is_answered)
        monkeypatch.setattr(_scripts, "ASK_WAIT", 1000 * PATIENCE)
        assert is_answered()


class Told(GroupStore):
    """A store whose server says what a test wants."""

    def __init__(self):
        self._begin_group(["server"], 1, 2.0, (7200, 60, 60))
        self.time, self.looks, self.told, self.is_away = 1000, [], [], False

    def close(self):
        self._end.set()

    def _look(self, end):
        self.looks.append(time.monotonic())
        if self.is_away:
            raise StoreFault("silent")
        self._epoch = "e"
        return State("e", 0, self.time), 0

    def _put_each(self, claims, end):
        return [svid.Found(it.owner, self.time, 0) for it in claims]

    def _withdraw(self, key, expires, end):
        return svid.WITHDRAWN

    def _withdrawals(self, after, end):
        return ([] if after else self.told), "last"

    def look_again(self):
        """Waits until what a look has seen is known."""
        before = len(self.looks)
        until(lambda: len(self.looks) > before + 1)


def test_a_store_is_looked_at_though_nobody_can_be_warned(monkeypatch):
    """It was away, or its epoch has ended, and the logger has failed."""
    monkeypatch.setattr("svid._group._statements.STATE_EVERY", 1)
    with no_logger(), Told() as store:
        store._watch()
        store.look_again()
        store.is_away = True
        store.look_again()
        store.is_away = False
        store.look_again()
        warn_of_end(1000)


def test_a_store_is_looked_at_once_a_second(monkeypatch):
    """A look that takes some time comes no later for it, and nobody looks twice at once."""
    now, waits = [0.0], []
    monkeypatch.setattr("svid._group.time", types.SimpleNamespace(monotonic=lambda: now[0]))

    class Slow(Told):
        def _look(self, end):
            now[0] += (0.25, 0.0, 1.5)[len(waits)]
            return super()._look(end)

    def wait(seconds):
        waits.append(seconds)
        now[0] += seconds
        if len(waits) == 3:
            store.close()

    with Slow() as store:
        store._end.wait = wait
        store._watch()
        until(lambda: len(waits) == 3)
    assert waits == [0.75, 1.0, 0.0]


def test_a_store_of_a_process_with_many_files_is_looked_at(monkeypatch):
    """As of a service with more than a thousand connections."""
    monkeypatch.setattr("svid._group._statements.STATE_EVERY", 10)
    before = resource.getrlimit(resource.RLIMIT_NOFILE)
    resource.setrlimit(resource.RLIMIT_NOFILE, (before[1], before[1]))
    with contextlib.ExitStack() as at_end:
        at_end.callback(resource.setrlimit, resource.RLIMIT_NOFILE, before)
        for _ in range(1024):
            at_end.callback(os.close, os.open(os.devnull, os.O_RDONLY))
        store = at_end.enter_context(Told())
        store._watch()
        until(lambda: len(store.looks) > 2)


def test_a_store_that_is_closed_waits_for_nothing(monkeypatch):
    """Its thread ends at once, and not at its next look."""
    monkeypatch.setattr("svid._group._statements.STATE_EVERY", 2000 * PATIENCE)
    before = {*threading.enumerate()}
    with Told() as store:
        store._watch()
        until(lambda: store._heard)
        (thread,) = {it for it in threading.enumerate() if it.name == "svid-store"} - before
    thread.join(PATIENCE)
    assert not thread.is_alive()


def test_each_outage_is_warned_of(monkeypatch, caplog):
    monkeypatch.setattr("svid._group._statements.STATE_EVERY", 10)
    with Told() as store:
        store._watch()
        for is_away in (True, False, True, False):
            store.is_away = is_away
            store.look_again()
    assert caplog.text.count("can't be looked at") == 2


def test_an_outage_is_told_by_the_look_at_the_store(monkeypatch, caplog):
    """What reads the withdrawals then says less."""

    class Unfit(Told):
        def _look(self, end):
            self.looks.append(end)
            raise StoreFault("unfit", "its settings")

        def _withdrawals(self, after, end):
            raise StoreFault("silent")

    monkeypatch.setattr("svid._group._statements.STATE_EVERY", 10)
    with Unfit() as store:
        store._watch()
        store.look_again()
    assert caplog.messages == ["the group's store can't be looked at: its settings"]


def test_who_withdraws_a_token_again_does_not_take_that_back():
    """Neither by this member nor by another one."""
    with Told() as store:
        store.told = [(claim(1).key, 9000), (claim(1).key, 1001)]
        for expires in 9000, 1001:
            store.withdraw(claim(2).key, expires)
        store._watch()
        until(lambda: store.looks)
        store.time = 5000  # (what expires by then is forgotten at a look)
        store.look_again()
        owners = [it.owner for it in store.put([claim(n) for n in (1, 2, 3)])]
        assert owners == [svid.WITHDRAWN, svid.WITHDRAWN, b"o" * 32]


def test_no_claim_is_answered_before_withdrawals_are_read():
    """Somebody may have looked at the store before."""
    with Told() as store:
        store.told = [(claim(1).key, claim(1).expires)]
        store.state()
        assert store.put([claim(1)])[0].owner == svid.WITHDRAWN


def test_no_claim_is_answered_before_withdrawals_are_read_though_two_read_them():
    """Neither takes what the other one has read for all that there is."""
    pages = {"": ([], "1"), "1": ([(claim(1).key, claim(1).expires)], "2")}
    both = {page: threading.Barrier(2, timeout=PATIENCE) for page in pages}

    class Pages(Told):
        def _withdrawals(self, after, end):
            if after in both:
                both[after].wait()
            return pages.get(after, ([], "2"))

    with Pages() as store, ThreadPoolExecutor(2) as pool:
        found = [pool.submit(store.put, [claim(1)]) for _ in range(2)]
        assert [it.result(PATIENCE)[0].owner for it in found] == [svid.WITHDRAWN] * 2


def test_a_first_call_has_one_end(monkeypatch):
    """It looks at the store, reads the withdrawals and puts the claims, all until the same end."""
    now, ends = [0.0], []
    monkeypatch.setattr("svid._group.time", types.SimpleNamespace(monotonic=lambda: now[0]))

    class Slow(Told):
        def _look(self, end):
            return self._until_then(end) and super()._look(end)

        def _withdrawals(self, after, end):
            return self._until_then(end) and super()._withdrawals(after, end)

        def _put_each(self, claims, end):
            return self._until_then(end) and super()._put_each(claims, end)

        def _until_then(self, end):
            now[0] += 0.25
            ends.append(end)
            return True

    with Slow() as store:
        store.put([claim(1)])
    assert len(ends) == 4 and {*ends} == {2.0}


def test_withdrawals_are_kept_in_mind_as_long_as_an_entry(monkeypatch):
    """A member whose clock is behind may accept the token after it has expired here."""
    monkeypatch.setattr("svid._group._statements.STATE_EVERY", 10)
    with Told() as store:
        store.withdraw(claim(1).key, 5000)
        store._watch()
        for store.time, owner in (5120, svid.WITHDRAWN), (5121, b"o" * 32):
            store.look_again()
            assert store.put([claim(1)])[0].owner == owner


def test_withdrawals_are_heard_though_a_server_is_away():
    """The server of a Cluster that has them may be there."""

    class Partly(GroupStore):
        def __init__(self):
            self._begin_group(["server"], 1, 2.0, (7200, 120, 60))

        def close(self):
            self._end.set()

        def _look(self, end):
            raise StoreFault("silent")

        def _put_each(self, claims, end):
            raise StoreFault("silent")

        def _withdraw(self, key, expires, end):
            raise StoreFault("silent")

        def _withdrawals(self, after, end):
            return ([] if after else [(claim(1).key, claim(1).expires)]), "last"

    with Partly() as store:
        store._watch()
        until(lambda: claim(1).key in store._withdrawn)
        with pytest.raises(StoreFault):
            store.state()


def test_passwords(tmp_path, monkeypatch):
    """One may stand in the address, in a file, or in the environment."""
    machine = Machine(tmp_path)
    try:
        machine.client().config_set("requirepass", "sesame")
        file = tmp_path / "password"
        file.write_text("sesame\n")
        with store_of(machine) as store:
            with pytest.raises(StoreFault) as raised:
                store.put([])
            assert raised.value.name == "password"
        urls = [machine.url.replace("://", "://:sesame@"), f"{machine.url}?password_file={file}"]
        for url in urls:
            with RedisStore(url, wait=PATIENCE) as store:
                put(store, claim(1))
        monkeypatch.setenv("REDISCLI_AUTH", "sesame")
        with store_of(machine) as store:
            put(store, claim(1))
    finally:
        machine.kill()


def test_no_error_has_a_password():
    """Nor has one that led to it, though the server says what it was given."""
    says = b"-ERR unknown command 'AUTH', with args beginning with: 'sesame' \r\n"

    def answer(listening):
        with contextlib.suppress(OSError):
            while client := listening.accept()[0]:
                with client:
                    while client.recv(1000):
                        client.sendall(says)

    with socket.create_server(("127.0.0.1", 0)) as listening:
        threading.Thread(target=answer, args=(listening,), daemon=True).start()
        url = f"redis://:sesame@127.0.0.1:{listening.getsockname()[1]}"
        with RedisStore(url, wait=PATIENCE) as store, pytest.raises(StoreFault) as raised:
            store.put([])
        said = "".join(traceback.format_exception(raised.value))
        assert "unknown command 'AUTH'" in said and "sesame" not in said
        listening.shutdown(socket.SHUT_RDWR)


def test_no_error_that_led_to_another_has_a_password():
    password = "s" * 9
    try:
        try:
            raise ValueError(password)
        except ValueError:
            raise OSError(f"it has {password}")
    except OSError as why:
        store_of_redis._hide(password, why)
        said = "".join(traceback.format_exception(why))
    assert said.count("***") == 2 and password not in said


@pytest.mark.parametrize(
    "urls, terms",
    [
        ([], {}),
        (["http://u:secret@h"], {}),
        (["redis://u:secret@h:x"], {}),
        (["redis:"], {}),
        (["redis://u:secret@"], {}),
        (["redis://h/secret"], {}),
        (["redis://h/01"], {}),
        (["redis://u:secret@h?secret=1"], {}),
        (["redis://h?settings=secret"], {}),
        (["redis://h?replicas=0"], {}),
        (["redis://h?replicas=65"], {}),
        (["redis://h?ssl_ca_certs=/dev/null"], {}),
        (["rediss://h?ssl_certfile=/dev/null"], {}),
        (["redis+sentinel://h"], {}),
        (["redis://h?service=secret"], {}),
        (["unix://run/redis.sock"], {}),
        (["redis://h", "redis+sentinel://h?service=x"], {}),
        (["redis://h"], {"group": "{x}"}),
        (["redis://h"], {"group": "x" * 65}),
        (["redis://h"], {"replicas": 0}),
        (["redis://h"], {"replicas": 65}),
        (["redis://h"], {"wait": 0}),
    ],
)
def test_what_is_no_store(urls, terms):
    with pytest.raises(ValueError) as raised:
        RedisStore(*urls, **terms)
    assert "secret" not in str(raised.value)


def test_a_file_that_is_not_there():
    for url in ("rediss://h?ssl_ca_certs=/nowhere", "redis://h?password_file=/nowhere"):
        with pytest.raises(OSError, match="/nowhere"):
            RedisStore(url)
