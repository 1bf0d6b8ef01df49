"""Bundles: every form in which they are given, and how they are renewed."""

import contextlib
import gc
import json
import logging
import os
import pathlib
import signal
import subprocess
import sys
import threading
import time

import pytest
import svid
from making import (
    NOW,
    PATIENCE,
    bundle,
    entry,
    no_logger,
    private_key,
    token,
    until,
    validator,
    verdict,
)
from svid import _follow
from test_threads import forked

KEY = private_key("ES256")
JWKS = {"keys": [entry(KEY, "k1")]}
ACCEPTED = f"accepted spiffe://example.org/billing/api {NOW + 300}"
# As `spire-server bundle show -format spiffe` writes it: with the X.509 authorities too.
SPIRE = {
    "keys": [
        {"use": "x509-svid", "kty": "RSA", "n": "AQAB", "e": "AQAB", "x5c": ["MIID"]},
        entry(KEY, "k1"),
    ],
    "spiffe_sequence": 3,
    "spiffe_refresh_hint": 300,
}


def says(bundles, made=None, **terms):
    with validator(bundles, **terms) as checks:
        return verdict(checks, made or token())


def test_a_dict():
    assert says({"example.org": JWKS}) == ACCEPTED
    assert says({"other.example": JWKS}) == "refused UnknownDomain"
    assert says({"example.org": {"keys": []}}) == "refused NoKey"


def test_a_dict_of_what_bundles_may_be(tmp_path):
    path = tmp_path / "any name"
    path.write_text(json.dumps(SPIRE))
    for value in SPIRE, json.dumps(SPIRE).encode(), path, str(path):
        given = {"other.example": {"keys": None}, "example.org": value}
        assert says(given) == ACCEPTED


def test_json_text():
    assert says(json.dumps({"example.org": SPIRE}).encode()) == ACCEPTED


def test_a_file_of_all_bundles(tmp_path):
    path = tmp_path / "bundles.json"
    path.write_text(json.dumps({"example.org": SPIRE, "keys": JWKS}))
    assert says(path) == says(str(path)) == ACCEPTED


def test_a_file_that_spire_writes(tmp_path):
    path = tmp_path / "example.org.json"
    path.write_text(json.dumps(SPIRE, indent=4) + "\n")
    assert says(path) == ACCEPTED
    path = path.rename(tmp_path / "bundle.json")
    assert says(path) == "refused UnknownDomain"


def test_a_folder(tmp_path):
    (tmp_path / "example.org.json").write_text(json.dumps(SPIRE))
    (tmp_path / "other.example.json").write_text('{"keys":[]}')
    (tmp_path / ".example.org.json").write_text("being written")
    (tmp_path / "README").write_text("not a bundle")
    assert says(tmp_path) == ACCEPTED
    assert says(tmp_path, token(sub="spiffe://other.example/a")) == "refused NoKey"


def test_a_trust_domain_that_is_named_twice():
    """Nobody knows which one counts. The fault names the second."""
    for others in {}, {"a.example": JWKS}, {"z.example": JWKS}:
        given = {"spiffe://example.org": JWKS, "example.org": JWKS, **others}
        with pytest.raises(svid.BadBundles, match="^spiffe://example.org: An earlier document"):
            validator(given)


def test_without_a_bundle_no_token_is_refused(tmp_path):
    """That is not the token's fault, and no token is to come here."""
    folder, file = tmp_path / "folder", tmp_path / "file.json"
    for given, path, text in (
        (folder, folder / "example.org.json", SPIRE),
        (file, file, {"example.org": SPIRE}),
    ):
        folder.mkdir(exist_ok=True)
        file.write_text("{ }")
        refused = []
        with validator(given, refresh=0.01, on_refusal=refused.append) as checks:
            for _ in range(2):
                assert judged(checks, token()) == "unavailable NoBundle"
                with pytest.raises(svid.Unavailable, match="no trust bundle") as raised:
                    checks.check(token(), NOW)
                assert raised.value.reason == "NotReady" and not refused
                assert "no trust bundle" in checks.unready(NOW)
                rewrite(path, json.dumps(text))
                soon(checks, ACCEPTED)
                assert verdict(checks, token(jti=os.urandom(8).hex())) == ACCEPTED
                assert checks.unready(NOW) is None
                path.unlink() if given is folder else rewrite(file, "{}")
                until(lambda: judged(checks, token()) != ACCEPTED)
    assert says({}) == says(b"{}") == "refused UnknownDomain"  # (none is to come)


class Between:
    """The lock of a validator. Each time that it is free, something is done."""

    def __init__(self, checks, does):
        self.lock, self.does, self.is_doing = checks._handle._lock, does, False
        checks._handle._lock = self

    def __enter__(self):
        self.lock.acquire()

    def __exit__(self, *_):
        self.lock.release()
        if not self.is_doing:
            self.is_doing = True
            self.does()
            self.is_doing = False


def test_no_token_is_refused_while_the_last_bundle_goes(tmp_path):
    """Nor while the first one comes: between any two steps it is accepted, or is to come again."""
    said, refused = [], []
    with validator(on_refusal=refused.append) as checks:

        def asks():
            said.append(judged(checks, token()))
            with contextlib.suppress(svid.Unavailable):
                said.append(checks.check(token(jti=str(len(said))), NOW).spiffe_id)

        between = Between(checks, asks)
        for given in tmp_path, {"example.org": SPIRE}, tmp_path:
            checks.renew(given)
        between.is_doing = True
    assert not refused and {"unavailable NoBundle", ACCEPTED} <= {*said}


def test_a_check_from_which_the_last_bundle_goes(tmp_path):
    """It came while there was one."""

    def verifies(*_):
        checks.renew(tmp_path)
        return True

    with validator(verifies=verifies) as checks:
        with pytest.raises(svid.Unavailable, match="the bundle of example.org was not read yet"):
            checks.check(token(), NOW)


def test_the_workload_api():
    plain = {name: it for name, it in entry(KEY, "k1").items() if name != "use"}
    text = json.dumps({"keys": [plain, {**plain, "use": "x509-svid"}, 7]}).encode()
    given = svid.from_workload_api({"spiffe://example.org": text})
    assert says(given) == ACCEPTED
    assert says({"example.org": text}) == "refused NoKey"
    for bad in b"", b"[]", b"{}", b'{"keys":{}}', b"\xff":
        with pytest.raises(svid.BadBundles, match="^spiffe://example.org: "):
            svid.from_workload_api({"spiffe://a": text, "spiffe://example.org": bad})


def test_an_x509_key_of_the_workload_api_signs_no_token():
    """Its use stays, whatever that is: only a key that names none is for tokens."""
    for use, said in (
        ("jwt-svid", ACCEPTED),
        ("x509-svid", "refused NoKey"),
        (None, "refused NoKey"),
    ):
        text = json.dumps({"keys": [{**entry(KEY, "k1"), "use": use}]}).encode()
        assert says(svid.from_workload_api({"spiffe://example.org": text})) == said


@pytest.mark.parametrize(
    "given",
    [
        b"",
        b"[]",
        b'{"example.org":[]}',
        b'{"Example.org":{"keys":[]}}',
        {"example.org": {"kyes": []}},
        {"example.org/web": {"keys": []}},
        {"": {"example.org": {"keys": []}}},
        {"\udcff": {"keys": []}},
        {"example.org": b"{} , "},
        {"example.org": b'{"keys":[]},"other.example":{"keys":[]}'},
        {"example.org": b"[" * 100_000},
        {"example.org": {"keys": [float("nan")]}},
        {"example.org": {"keys": [object()]}},
        {"example.org": b'{"keys":[NaN]}'},
        {"example.org": "\ufeff{}".encode()},
    ],
)
def test_what_is_no_bundle(given):
    with pytest.raises(svid.BadBundles) as raised:
        validator(given)
    assert str(raised.value)


@pytest.mark.parametrize("given", [None, 7, [JWKS], '{"example.org": {"keys": []}}', {"a": 7}])
def test_what_is_of_no_kind(given):
    with pytest.raises(TypeError):
        svid.Validator(audiences="ledger", bundles=given)


def test_a_file_that_is_missing(tmp_path):
    for given in tmp_path / "none", {"example.org": tmp_path / "none"}:
        with pytest.raises(FileNotFoundError):
            validator(given)


@pytest.fixture
def at_most_a_minute():
    """A test that waits for longer fails."""
    signal.signal(signal.SIGALRM, lambda *_: pytest.fail("it waits"))
    signal.setitimer(signal.ITIMER_REAL, min(60, PATIENCE / 3))
    yield
    signal.setitimer(signal.ITIMER_REAL, 0)


@pytest.mark.parametrize("linked", [False, True])
def test_a_pipe_is_not_waited_for(tmp_path, linked, at_most_a_minute):
    pipe = tmp_path / "other.example.json"
    os.mkfifo(tmp_path / "pipe")
    pipe.symlink_to("pipe") if linked else os.mkfifo(pipe)
    (tmp_path / "example.org.json").write_text(json.dumps(SPIRE))
    for given in pipe, str(pipe), tmp_path, {"example.org": JWKS, "other.example": pipe}:
        with pytest.raises(OSError, match="Not a regular file.*other.example.json"):
            validator(given)
    with pytest.raises(OSError, match="Not a regular file.*null"):
        validator("/dev/null")


def test_renewing():
    with validator() as checks:
        made = token(jti="1")
        checks.check(made, NOW)
        checks.renew({"example.org": {"keys": [entry(private_key("ES256", 1), "k1")]}})
        assert verdict(checks, token(jti="2")) == "refused BadSignature"
        checks.renew(json.dumps(bundle(entry(KEY, "k1"))).encode())
        assert verdict(checks, made) == "refused Replayed"
        assert verdict(checks, token(jti="2")) == ACCEPTED


def test_renewing_by_another_file(tmp_path):
    """From then on it is that file which is read again."""
    first, second = tmp_path / "first", tmp_path / "second"
    for path in first, second:
        path.mkdir()
        (path / "example.org.json").write_text(json.dumps({"keys": []}))
    with validator(first, refresh=None) as checks:
        checks.renew(second)
        rewrite(second / "example.org.json", json.dumps(SPIRE))
        checks.renew()
        assert verdict(checks, token()) == ACCEPTED


def test_keys_of_replaced_bundles_are_freed():
    """Each bundle has four keys of 60 kB: those of 70 bundles that stayed would be 17 MB."""
    text = """
import base64, json, svid
from making import NOW, PATIENCE, bundle, entry, private_key, token
key, made = entry(private_key("ES256", 1), "k1"), token()
def bundles(which):
    return bundle(*({**key, "note": f"{which} {it}".ljust(60_000)} for it in range(4)))
def most():
    return int(open("/proc/self/status").read().partition("VmHWM:")[2].split()[0])
with svid.Validator(audiences="ledger", bundles=bundles(0), wait=PATIENCE) as checks:
    for which in range(90):
        if which == 20:
            before = most()
        checks.renew(bundles(which))
        try:
            checks.check(made, NOW)
        except svid.BadSignature:
            continue
        raise AssertionError
print(most() - before)
"""
    environment = {**os.environ, "PYTHONPATH": os.pathsep.join(sys.path)}
    words = [sys.executable, "-c", text]
    ran = subprocess.run(words, env=environment, capture_output=True, timeout=PATIENCE, check=True)
    assert int(ran.stdout) < 8_000  # kilobytes, of the most that this process had


def many_keys():
    """A mebibyte of bundles: 26,000 keys of one trust domain, none of them usable."""
    one = b'{"kty":"EC","use":"jwt-svid","kid":""}'
    count = ((1 << 20) - 40) // (len(one) + 1)
    return b'{"example.org":{"keys":[' + b",".join([one] * count) + b"]}}"


def test_bundles_are_read_without_the_lock():
    with validator() as checks:
        done = []

        def renew():
            with pytest.raises(svid.BadBundles):
                checks.renew(b"[]")
            done.append(True)

        with checks._handle._lock:
            thread = threading.Thread(target=renew, daemon=True)
            thread.start()
            thread.join(PATIENCE)
            assert done == [True]


def test_a_renewal_for_which_there_is_no_thread(tmp_path, monkeypatch):
    """The old bundles stay, and are followed as before."""
    path, other = tmp_path / "example.org.json", tmp_path / "other" / "example.org.json"
    other.parent.mkdir()
    path.write_text(json.dumps(SPIRE))
    other.write_text(json.dumps({"keys": []}))

    def start(_):
        raise RuntimeError("can't start new thread")

    with validator(path, refresh=0.01) as checks:
        with monkeypatch.context() as patch:
            patch.setattr(threading.Thread, "start", start)
            with pytest.raises(RuntimeError, match="can't start new thread"):
                checks.renew(other)
        assert judged(checks, token()) == ACCEPTED
        rewrite(path, rotation(1))
        soon(checks, ACCEPTED, token(key=private_key("ES256", 1)))


def test_a_renewal_holds_up_no_check():
    many = many_keys()
    with validator() as checks:
        part = 1.0
        # (other work on the machine may hold a check up: so one of several tries is to show it)
        for _ in range(30):
            thread = threading.Thread(target=checks.renew, args=(many,), daemon=True)
            longest, started = 0.0, time.perf_counter()
            thread.start()
            while thread.is_alive():
                began = time.perf_counter()
                with checks._handle._lock:
                    longest = max(longest, time.perf_counter() - began)
            part = min(part, longest / (time.perf_counter() - started))
            if part < 0.2:
                break
        # (One that waited for the bundles to be read would wait for a third of that, each time.)
        assert part < 0.2


def test_the_memory_of_a_renewal():
    program = """
import resource, sys, svid
many = sys.stdin.buffer.read()
checks = svid.Validator(audiences="ledger", bundles=b"{}")
before = resource.getrusage(resource.RUSAGE_SELF).ru_maxrss
for _ in range(5):
    checks.renew(many)
print(resource.getrusage(resource.RUSAGE_SELF).ru_maxrss - before)
"""
    words = [sys.executable, "-c", program]
    ran = subprocess.run(words, input=many_keys(), stdout=subprocess.PIPE, timeout=PATIENCE)
    assert ran.returncode == 0 and int(ran.stdout) < 100_000_000 // 1024


@pytest.mark.parametrize("pad", ["", "a" * 10_000])
def test_a_key_that_goes_while_a_signature_is_verified(pad):
    asked = []

    def verifies(alg, key, signed, signature):
        asked.append(key)
        if len(asked) == 1:
            checks.renew({"example.org": {"keys": [entry(KEY, "k2")]}})
        return True

    with validator(verifies=verifies) as checks:
        assert verdict(checks, token(pad=pad)) == "refused NoKey"
        assert len(asked) == 1
        # The question of a key that stays is asked again of the bundles that there are now.
        asked.clear()
        made = token(header={"kid": "k2"}, jti="2", pad=pad)
        assert verdict(checks, made) == ACCEPTED
        assert len(asked) == 2


def test_threads_check_while_bundles_are_renewed():
    texts = [token(jti=str(it), pad="a" * 10_000 * (it % 2)) for it in range(200)]
    said = []
    with validator() as checks:
        both = [bundle(entry(KEY, "k1")), bundle(entry(KEY, "k1"), entry(KEY, "k2"))]
        threads = [
            threading.Thread(
                target=lambda: said.extend(verdict(checks, it) for it in texts), daemon=True
            )
            for _ in range(4)
        ]
        for it in threads:
            it.start()
        turn, end = 0, time.monotonic() + PATIENCE
        while any(it.is_alive() for it in threads):
            assert time.monotonic() < end, "the checks do not end"
            checks.renew(both[turn % 2])
            turn += 1
    assert said.count(ACCEPTED) == len(texts)
    assert said.count("refused Replayed") == 3 * len(texts)


def test_bundles_that_are_refused_leave_the_old_ones(tmp_path):
    with validator() as checks:
        for bad in b"", {"example.org": 7}, tmp_path / "none":
            with pytest.raises((svid.BadBundles, TypeError, FileNotFoundError)):
                checks.renew(bad)
        checks.renew()
        assert verdict(checks, token()) == ACCEPTED


def rewrite(path, text):
    """Replaces a file as an agent does: by another one, renamed."""
    new = path.with_suffix(".new")
    new.write_text(text)
    os.replace(new, path)


def judged(checks, made, now=NOW):
    """What a check would print of a token, which stays good."""
    try:
        accepted = checks.judge(made, now)
        return f"accepted {accepted.spiffe_id} {accepted.expires}"
    except svid.Refused as why:
        return f"refused {why.name}"
    except svid.Unavailable as why:
        return f"unavailable {why.reason}"


def soon(checks, said, made=None):
    """Waits until a token gets this verdict."""
    made = made or token()
    until(lambda: judged(checks, made) == said)


def test_files_that_change_are_read_again(tmp_path):
    path = tmp_path / "example.org.json"
    path.write_text(json.dumps({"keys": []}))
    with validator(tmp_path, refresh=0.01) as checks:
        assert verdict(checks, token()) == "refused NoKey"
        rewrite(path, json.dumps(SPIRE))
        soon(checks, ACCEPTED)
        path.unlink()
        soon(checks, "unavailable NoBundle")


def rotation(which):
    """A bundle of another key: as many bytes for each."""
    return json.dumps({"keys": [entry(private_key("ES256", which), "k1")]})


def test_a_rotation_is_seen_by_what_the_file_has(tmp_path):
    """Its time and its size stay, and it is the same file."""
    path = tmp_path / "example.org.json"
    path.write_text(rotation(0))
    before = path.stat()
    with validator(path, refresh=0.01) as checks:
        assert verdict(checks, token(jti="1")) == ACCEPTED
        with open(path, "r+") as file:
            file.write(rotation(1))
        os.utime(path, ns=(before.st_atime_ns, before.st_mtime_ns))
        soon(checks, ACCEPTED, token(jti="2", key=private_key("ES256", 1)))
        assert verdict(checks, token(jti="2")) == "refused BadSignature"


def test_a_file_that_changes_while_the_validator_is_made_is_read_again(tmp_path, monkeypatch):
    path, read, texts = tmp_path / "example.org.json", _follow.contents, [json.dumps(SPIRE)]

    def changing(name):
        found = read(name)
        if texts:
            rewrite(path, texts.pop())
        return found

    monkeypatch.setattr(_follow, "contents", changing)
    path.write_text(json.dumps({"keys": []}))
    with validator(path, refresh=0.01) as checks:
        soon(checks, ACCEPTED)


def test_a_change_is_used_within_two_seconds(tmp_path):
    """By what the validator does by default: a look each second, which ends in time."""
    path = tmp_path / "example.org.json"
    path.write_text(json.dumps({"keys": []}))
    with validator(path) as checks:
        assert checks._refresh == 1.0
        rewrite(path, json.dumps(SPIRE))
        soon(checks, ACCEPTED)


def test_files_are_not_looked_at_where_nobody_wants_that(tmp_path):
    path = tmp_path / "example.org.json"
    path.write_text(json.dumps({"keys": []}))
    before = threads()  # (of validators of other tests, which end once they are collected)
    with validator(path, refresh=None) as checks:
        assert {*threads()} <= {*before}
        rewrite(path, json.dumps(SPIRE))
        assert verdict(checks, token()) == "refused NoKey"
        checks.renew()
        assert verdict(checks, token()) == ACCEPTED


@pytest.mark.parametrize("refresh", [0, 0.009, -1, float("nan")])
def test_a_refresh_that_can_not_be(refresh):
    with pytest.raises(ValueError, match="^refresh is None, or at least 0.01 seconds$"):
        validator(refresh=refresh)


def told(caplog):
    """The faults in the log."""
    return [it.getMessage() for it in caplog.records if it.levelno == logging.WARNING]


def look_again(checks):
    """Waits until what a look at the files found is used."""
    followed, looks = checks._followed, []
    read = followed._read
    followed._read = lambda fault: looks.append(1) or read(fault)
    until(lambda: len(looks) > 2)


def test_a_file_that_gets_bad_is_told_once_and_not_used(tmp_path, caplog):
    path = tmp_path / "example.org.json"
    path.write_text(json.dumps(SPIRE))
    caplog.set_level(logging.INFO, "svid")
    with validator(path, refresh=0.01) as checks:
        rewrite(path, "{")
        until(lambda: len(told(caplog)) == 1)
        path.unlink()
        until(lambda: len(told(caplog)) == 2)
        look_again(checks)
        assert judged(checks, token()) == ACCEPTED
        rewrite(path, json.dumps({"keys": []}))
        soon(checks, "refused NoKey")
        look_again(checks)
        path.unlink()  # (the same fault again)
        until(lambda: len(told(caplog)) == 3)
    said = [it for it in caplog.records if str(path) in it.getMessage()]
    assert [it.name for it in said] == ["svid"] * 4
    warned, well = logging.WARNING, logging.INFO
    assert [it.levelno for it in said] == [warned, warned, well, warned]


def test_a_bad_file_of_a_folder_leaves_the_others(tmp_path, caplog):
    """The others change meanwhile. Faults of a file that is gone are forgotten."""
    good, bad = tmp_path / "example.org.json", tmp_path / "other.example.json"
    good.write_text(json.dumps({"keys": []}))
    bad.write_text(json.dumps({"keys": []}))
    with validator(tmp_path, refresh=0.01) as checks:
        other = token(sub="spiffe://other.example/a")
        rewrite(bad, "[")
        rewrite(good, json.dumps(SPIRE))
        soon(checks, ACCEPTED)
        assert judged(checks, other) == "refused NoKey"
        until(lambda: len(told(caplog)) == 1)
        bad.unlink()
        soon(checks, "refused UnknownDomain", other)
        rewrite(bad, "[")
        until(lambda: len(told(caplog)) == 2)
        assert str(bad) in told(caplog)[1]


def test_a_folder_that_is_away_changes_nothing(tmp_path, caplog):
    folder = tmp_path / "bundles"
    folder.mkdir()
    (folder / "example.org.json").write_text(json.dumps(SPIRE))
    with validator(folder, refresh=0.01) as checks:
        folder.rename(tmp_path / "away")
        look_again(checks)
        assert told(caplog) and judged(checks, token()) == ACCEPTED
        (tmp_path / "away").rename(folder)
        rewrite(folder / "example.org.json", json.dumps({"keys": []}))
        soon(checks, "refused NoKey")


def test_sources_that_were_replaced_change_nothing(tmp_path):
    """Their last look may end after that."""
    path = tmp_path / "example.org.json"
    path.write_text(json.dumps(SPIRE))
    with validator(path, refresh=0.01) as checks:
        before = checks._followed
        checks.renew({"example.org": {"keys": []}})
        checks._take(before)
        assert judged(checks, token()) == "refused NoKey"


def test_bundles_that_are_not_taken_are_handed_on_again(tmp_path, caplog, monkeypatch):
    path = tmp_path / "example.org.json"
    path.write_text(json.dumps({"keys": []}))
    with validator(path, refresh=0.01) as checks:
        renew = checks._handle.renew
        monkeypatch.setattr(checks._handle, "renew", no_memory)
        rewrite(path, json.dumps(SPIRE))
        until(lambda: told(caplog))
        monkeypatch.setattr(checks._handle, "renew", renew)
        soon(checks, ACCEPTED)
    assert len(told(caplog)) == 1


def no_memory(*_):
    raise MemoryError


def test_a_logger_that_fails_ends_no_following(tmp_path):
    path = tmp_path / "example.org.json"
    path.write_text(json.dumps({"keys": []}))
    with no_logger(), validator(path, refresh=0.01) as checks:
        rewrite(path, "{")
        until(lambda: checks._followed._faults)
        rewrite(path, json.dumps(SPIRE))
        soon(checks, ACCEPTED)


def threads():
    return [it for it in threading.enumerate() if it.name == "svid-bundles"]


def test_no_thread_stays(tmp_path):
    """Of a validator that is closed, that has other bundles by now, or that nobody has."""
    until(lambda: gc.collect() >= 0 and not threads())  # (those of earlier tests)
    (tmp_path / "example.org.json").write_text(json.dumps(SPIRE))
    checks = validator(tmp_path)
    assert len(threads()) == 1
    for _ in range(3):
        checks.renew()
        assert len(threads()) == 1
    checks.renew(json.dumps({"example.org": SPIRE}).encode())
    assert not threads()
    checks.renew(tmp_path)
    checks.close()
    assert not threads()
    checks = validator(tmp_path)
    del checks
    until(lambda: not threads())


def test_a_fork_follows_nothing(tmp_path):
    (tmp_path / "example.org.json").write_text(json.dumps(SPIRE))
    with validator(tmp_path, refresh=0.01) as checks:

        def child():
            assert not threads()
            checks.close()

        forked(child)
        rewrite(tmp_path / "example.org.json", json.dumps({"keys": []}))
        soon(checks, "refused NoKey")


def test_a_folder_of_links_that_change_at_once(tmp_path):
    """As a Kubernetes ConfigMap is mounted: the files are links into a folder that is replaced."""
    for name, text in ("1", '{"keys":[]}'), ("2", json.dumps(SPIRE)):
        (tmp_path / name).mkdir()
        (tmp_path / name / "example.org.json").write_text(text)
    data = tmp_path / "data"
    data.symlink_to("1")
    mount = tmp_path / "mount"
    mount.mkdir()
    (mount / "example.org.json").symlink_to("../data/example.org.json")
    with validator(mount, refresh=0.01) as checks:
        assert verdict(checks, token()) == "refused NoKey"
        pathlib.Path(tmp_path / "new").symlink_to("2")
        os.replace(tmp_path / "new", data)
        soon(checks, ACCEPTED)
