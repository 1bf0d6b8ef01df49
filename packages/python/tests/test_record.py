"""The record: what it gains, how it is shared and kept, and what the clock does to it."""

import dataclasses
import functools
import os
import sys
import time

import pytest
import svid
from making import NOW, token, validator, verdict
from svid import _library as lib

ACCEPTED = f"accepted spiffe://example.org/billing/api {NOW + 300}"


def test_an_acceptance():
    with validator(validator_id=b"p" * 16) as checks:
        accepted = checks.check(token(jti="1"), NOW)
    assert accepted.spiffe_id == "spiffe://example.org/billing/api"
    assert (accepted.trust_domain, accepted.path) == ("example.org", "/billing/api")
    assert accepted.expires == accepted.use.expires == NOW + 300
    assert (accepted.use.at, accepted.use.validator_id) == (NOW, b"p" * 16)
    assert len(accepted.use.key) == 32 and not accepted.use.withdrawn
    assert dataclasses.is_dataclass(accepted) and dataclasses.is_dataclass(accepted.use)


def test_a_subject_without_a_path():
    with validator() as checks:
        accepted = checks.check(token(sub="spiffe://example.org"), NOW)
    assert (accepted.trust_domain, accepted.path) == ("example.org", "")


def test_judging_adds_nothing():
    with validator() as checks:
        made = token()
        judged = checks.judge(made, NOW)
        assert checks.report().uses == ()
        assert checks.check(made, NOW) == judged
        with pytest.raises(svid.Replayed):
            checks.judge(made, NOW)


def test_the_clock_of_the_system_is_the_default():
    soon = int(time.time())
    with validator() as checks:
        use = checks.check(token(exp=soon + 300)).use
        with pytest.raises(svid.Expired):
            checks.check(token(exp=soon - 1))
    assert soon <= use.at <= time.time()


def test_the_clock_of_the_system_is_the_default_of_each_call(tmp_path):
    soon = int(time.time())
    with validator() as kept:
        made = kept.check(token(exp=soon + 300)).use
        kept.save(tmp_path / "kept")
        summary = kept.summary()
    calls = [
        lambda it: it.tick(),
        lambda it: it.take(b""),
        lambda it: it.load(tmp_path / "kept"),
        lambda it: it.answer(summary),
        lambda it: it.withdraw(token(exp=soon + 300, jti="1")),
        lambda it: it.withdraw_key(made.key, made.expires),
        lambda it: it.judge(token(exp=soon + 300)),
    ]
    for call in calls:
        with validator() as checks:
            call(checks)
            assert soon <= checks.report().moment <= time.time()


def test_a_clock_before_1970():
    """It is no time far ahead, by which the record has forgotten all."""
    with validator(clock=lambda: -5.0) as checks:
        made = token()
        checks.check(made, NOW)
        for call in checks.tick, lambda: checks.check(made):
            with pytest.raises(ValueError, match="since 1970"):
                call()
        with pytest.raises(svid.Replayed):
            checks.check(made, NOW)


@pytest.mark.parametrize(
    "now", [NOW * 1000, -1, 1e11, float("nan"), float("inf"), 2**64, 10**30]
)
def test_a_moment_that_is_none(now):
    with validator() as checks:
        for call in (
            checks.tick,
            lambda it: checks.check(token(), it),
            lambda it: checks.take(b"", it),
        ):
            with pytest.raises(ValueError):
                call(now)
        assert checks.report().moment == 0
        with pytest.raises(TypeError):
            checks.tick("1")


def test_a_moment_has_whole_seconds():
    with validator() as checks:
        assert checks.check(token(), NOW + 0.9).use.at == NOW


def test_a_jump_of_the_clock_does_nothing():
    with validator(step=86_400) as checks:
        made = token(exp=NOW + 999_999)
        checks.check(token(), NOW)
        with pytest.raises(svid.Jump):
            checks.check(made, NOW + 86_401)
        assert checks.report().moment == NOW
        assert checks.check(made, NOW + 86_400).use.at == NOW + 86_400


def test_a_clock_that_is_set_back_judges_at_the_record():
    with validator() as checks:
        checks.tick(NOW + 300)
        assert verdict(checks, token()) == "refused Expired"


def test_a_use_has_the_moment_of_the_record():
    """And not the time of the call, if the clock was set back."""
    with validator() as checks, validator() as other:
        checks.tick(NOW + 100)
        used, withdrawn = checks.check(token(jti="1"), NOW), checks.withdraw(token(jti="2"), NOW)
        assert (used.use.at, withdrawn.at) == (NOW + 100, NOW + 100)
        assert checks.judge(token(jti="3"), NOW).use.at == NOW + 100
        for use in used.use, withdrawn:
            other.take(use.message, NOW + 100)
        assert other.report() == checks.report()


def test_times_of_more_than_32_bits():
    late, last = 2**33, 2**64 - 1
    with validator() as checks:
        assert checks.check(token(exp=late + 300), late).use.at == late
        assert checks.withdraw(token(exp=last, jti="1"), late).expires == last
        assert checks.withdraw_key(bytes(32), last, late).expires == last
        checks.tick(late + 1)
        report = checks.report()
        assert [it.expires for it in report.uses] == [late + 300, last, last]
        assert report.moment == late + 1


def test_a_limit_of_0_is_a_limit():
    with validator(longest=0) as checks:
        assert verdict(checks, token(exp=NOW + 1)) == "refused TooLongLived"
    with validator(ahead=0) as checks, validator() as other:
        message = other.check(token(), NOW + 1).use.message
        with pytest.raises(svid.TooFar):
            checks.take(message, NOW)
        checks.take(message, NOW + 1)
    with validator(step=0) as checks:
        checks.tick(NOW)
        with pytest.raises(svid.Jump):
            checks.tick(NOW + 1)


def test_without_limits_a_token_and_a_clock_may_go_far():
    last = 2**64 - 1
    with validator() as checks:
        assert verdict(checks, token(exp=last), 1).startswith("accepted")
        assert verdict(checks, token(exp=last, jti="1"), NOW).startswith("accepted")


def test_messages_may_lie_thirty_seconds_ahead():
    with validator() as checks, validator() as other:
        message = other.check(token(), NOW + 30).use.message
        with pytest.raises(svid.TooFar):
            checks.take(message, NOW - 1)
        checks.take(message, NOW)


def test_validators_have_ids_of_their_own():
    with validator() as a, validator() as b:
        assert a.check(token(), NOW).use.validator_id != b.check(token(), NOW).use.validator_id


def test_a_token_that_is_none_tells_the_time_too():
    with validator() as checks:
        for which, junk in enumerate(["junk", token(header={"kid": "k2"})]):
            assert verdict(checks, junk, NOW + which).startswith("refused No")
            assert checks.report().moment == NOW + which


def test_a_withdrawal_by_the_text():
    with validator() as checks, validator() as other:
        made = token(jti="1")
        use = checks.withdraw(made, NOW)
        assert use.withdrawn and use.expires == NOW + 300
        assert verdict(checks, made) == "refused Withdrawn"
        other.take(use.message, NOW)
        assert verdict(other, made) == "refused Withdrawn"
        assert other.report().uses == (use,)


@pytest.mark.parametrize("jti", [None, "", "é\u0000\U0001f600"])
def test_a_withdrawal_has_the_key_of_the_use(jti):
    with validator() as checks:
        made = token(jti=jti)
        accepted = checks.check(made, NOW).use
        assert checks.withdraw(made, NOW).key == accepted.key


def test_a_withdrawal_by_the_key():
    with validator() as checks:
        made = token()
        use = checks.judge(made, NOW).use
        checks.withdraw_key(use.key, use.expires, NOW)
        assert verdict(checks, made) == "refused Withdrawn"
        with pytest.raises(ValueError):
            checks.withdraw_key(b"short", NOW + 1, NOW)
        with pytest.raises(ValueError):
            checks.withdraw_key(use.key, -1, NOW)
        with pytest.raises(TypeError):
            checks.withdraw_key(use.key, None, NOW)


def test_a_token_of_others_is_withdrawn_too():
    with validator() as checks:
        checks.withdraw(token(sub="spiffe://unknown.example/a"), NOW)
        checks.withdraw(token(header={"kid": "unknown"}, jti="2"), NOW)
        assert len(checks.report().uses) == 2


def test_what_is_not_withdrawn():
    with validator() as checks:
        with pytest.raises(svid.Gone):
            checks.withdraw(token(exp=NOW), NOW)
        with pytest.raises(svid.NotThreeParts):
            checks.withdraw("no token", NOW)
        with pytest.raises(svid.Jti):
            checks.withdraw(token(jti=1), NOW)
        assert checks.report().uses == ()


def test_one_tells_another():
    with validator() as a, validator() as b:
        one, two = token(jti="1"), token(jti="2")
        b.take(a.check(one, NOW).use.message, NOW)
        assert verdict(b, one) == "refused Replayed"
        assert verdict(b, two) == ACCEPTED
        a.take(b"".join(b.parts()), NOW)
        assert verdict(a, two) == "refused Replayed"
        assert a.report().uses == b.report().uses


@pytest.mark.parametrize("kind", [bytes, bytearray, memoryview])
def test_messages_of_every_kind_of_bytes(kind):
    with validator() as a, validator() as b:
        use = a.check(token(), NOW).use
        b.take(kind(use.message), NOW)
        b.take(kind(a.answer(kind(b.summary()), NOW)), NOW)
        b.withdraw_key(kind(use.key), use.expires, NOW)
        assert len(b.report().uses) == 2


def test_messages_that_are_no_bytes():
    with validator() as checks:
        for call in checks.take, checks.answer, lambda it: checks.withdraw_key(it, NOW):
            for other in "a" * 32, 32, None, ["a"] * 32:
                with pytest.raises(TypeError):
                    call(other)


def test_a_summary_and_its_answer():
    with validator() as a, validator() as b:
        for jti in range(20):
            a.check(token(jti=str(jti)), NOW)
        summary = b.summary()
        assert len(summary) == 8205
        b.take(a.answer(summary, NOW), NOW)
        assert b.report() == a.report()
        assert len(a.answer(b.summary(), NOW)) == 17
        with pytest.raises(svid.BadMessages) as raised:
            a.answer(b"".join(b.parts()), NOW)
        assert raised.value.reason == "NotSummary"


def test_an_answer_that_is_longer_than_the_room():
    with validator(verifies=lambda *_: True) as a, validator() as b:
        for jti in range(1200):
            a.check(token(jti=str(jti)), NOW)
        answer = a.answer(b.summary(), NOW)
        assert len(answer) > 65_536
        b.take(answer, NOW)
        assert len(b.report().uses) == 1200


@pytest.mark.parametrize("size, count", [(82, 20), (146, 20), (147, 10), (500, 3), (10_000, 1)])
def test_parts(size, count):
    with validator() as a, validator() as b:
        for jti in range(20):
            a.check(token(jti=str(jti)), NOW)
        parts = list(a.parts(size))
        assert max(map(len, parts)) <= size and len(parts) == count
        for part in reversed(parts):
            b.take(part, NOW)
        assert a.report() == b.report()


@pytest.mark.parametrize("size", [0, -1, 81])
def test_parts_of_no_size(size):
    with validator() as checks, pytest.raises(ValueError):
        checks.parts(size)


def test_uses_that_come_between_parts():
    with validator() as checks:
        for jti in range(4):
            checks.check(token(jti=str(jti)), NOW)
        before = checks.report().uses
        parts = checks.parts(82)
        told = [next(parts)]
        checks.check(token(jti="new"), NOW)
        told += parts
        with validator() as other:
            other.take(b"".join(told), NOW)
            assert set(before) <= set(other.report().uses)


def test_an_empty_record_is_one_part():
    with validator() as checks:
        assert list(checks.parts()) == [b"JSR\x02\x01" + bytes(12)]
        assert checks.report() == svid.Report(0, (), {})


def test_a_report_of_a_token_used_twice():
    with validator() as a, validator() as b:
        made = token()
        uses = {a.check(made, NOW).use, b.check(made, NOW + 1).use}
        a.take(b"".join(b.parts()), NOW + 1)
        report = a.report()
        assert report.moment == NOW + 1 and set(report.uses) == uses
        assert report.twice == {next(iter(uses)).key: 2}


@pytest.mark.parametrize(
    "messages, fault",
    [
        (b"JSR\x09", ("Magic", 1, 0)),
        (b"JSR\x02\x07", ("Kind", 1, 4)),
        (b"JSR\x02\x01" + bytes(12) + b"JSR", ("Truncated", 2, 3)),
        (bytes(67_108_865), ("Magic", 1, 0)),
        ((b"JSR\x02\x02" + bytes(8200)) * 8180, ("TooMuch", 0, 0)),
    ],
    ids=["magic", "kind", "truncated", "too much, and bad", "too much"],
)
def test_bytes_that_are_no_messages(messages, fault):
    with validator() as checks:
        with pytest.raises(svid.BadMessages) as raised:
            checks.take(messages, NOW)
        assert (raised.value.reason, raised.value.message, raised.value.offset) == fault
        assert checks.report().moment == 0


def test_messages_from_too_far_ahead():
    with validator(ahead=10) as a, validator() as b:
        use = b.check(token(), NOW + 11).use
        with pytest.raises(svid.TooFar):
            a.take(use.message, NOW)
        with pytest.raises(svid.TooFar):
            a.answer(b.summary(), NOW)
        a.take(use.message, NOW + 1)
        assert a.report().uses == (use,)


def test_want_of_memory_hides_no_second_use(monkeypatch):
    """Nothing is taken then: the same messages, taken again, tell of the token."""
    said, made = [], token()
    with validator(on_twice=said.append) as one, validator() as two:
        key = one.check(made, NOW).use.key
        message = two.check(made, NOW).use.message
        with monkeypatch.context() as patched:
            patched.setattr(lib.library, "svid_entries_read", lambda *_: lib.NO_MEMORY)
            with pytest.raises(MemoryError):
                one.take(message, NOW)
        assert len(one.report().uses) == 1
        one.take(message, NOW)
    assert said == [key]


def test_a_record_that_is_kept(tmp_path):
    kept = tmp_path / "kept"
    with validator() as a:
        made = token()
        a.check(made, NOW)
        a.save(kept)
        with validator() as b:
            b.load(kept, NOW)
            assert verdict(b, made) == "refused Replayed"
            b.check(token(jti="2"), NOW)
            b.save(str(kept))
            a.load(str(kept), NOW)
            assert a.report() == b.report()
    assert [it.name for it in tmp_path.iterdir()] == ["kept"]


def test_a_save_that_fails_leaves_the_old_one(tmp_path):
    kept = tmp_path / "kept"
    kept.write_bytes(b"old")
    checks = validator()
    checks.close()
    with pytest.raises(svid.Closed):
        checks.save(kept)
    assert kept.read_bytes() == b"old" and list(tmp_path.iterdir()) == [kept]
    with validator() as checks, pytest.raises(OSError):
        checks.save(tmp_path / "none" / "kept")


@pytest.mark.parametrize("cut", [1, 16, 18, 81])
def test_a_damaged_save(tmp_path, cut):
    kept = tmp_path / "kept"
    with validator() as checks:
        kept.write_bytes(checks.check(token(), NOW).use.message[:cut])
        with pytest.raises(svid.BadMessages) as raised:
            checks.load(kept, NOW)
        assert raised.value.reason == "Truncated"
    with validator() as checks, pytest.raises(OSError):
        checks.load(tmp_path / "none")


def test_a_save_of_several_batches(tmp_path):
    kept = tmp_path / "kept"
    with validator() as a, validator() as b:
        for jti in range(5):
            a.check(token(jti=str(jti)), NOW)
        kept.write_bytes(b"".join(a.parts(150)))
        b.load(kept, NOW)
        assert a.report() == b.report()


@functools.cache
def many_uses():
    """One more than a batch has."""
    return [svid.Use(NOW + 300, it.to_bytes(32, "big"), bytes(16), NOW) for it in range(65_537)]


@functools.cache
def many_messages():
    return svid.records.batches(many_uses())


def test_a_save_of_a_full_batch(tmp_path):
    """A batch has up to 65,536 uses, and the file may go on behind it."""
    uses = many_uses()
    begin, _, end = svid.Use(NOW + 300, b"k" * 32, bytes(16), NOW).message.partition(b"k" * 32)
    texts = [begin[17:] + it.key + end for it in uses]
    full = b"JSR\x02\x01" + NOW.to_bytes(8, "big") + (65_536).to_bytes(4, "big")
    kept = tmp_path / "kept"
    kept.write_bytes(full + b"".join(texts[:-1]) + uses[-1].message)
    with validator() as a, validator() as b:
        a.load(kept, NOW)
        assert a.report().uses == tuple(uses)
        a.save(kept)
        b.load(kept, NOW)
        assert b.report().uses == tuple(uses)


def test_uses_as_messages():
    """Those of one moment are one batch, in which they rise."""
    uses = [svid.Use(9, bytes([key]) * 32, bytes(16), at) for key, at in ((2, 1), (3, 2), (1, 1))]
    with svid.Validator(audiences="a", bundles=b"{}") as checks:
        messages = svid.records.batches(uses)
        assert len(messages) == 2 * 17 + 3 * 65 and svid.records.batches([]) == b""
        checks.take(messages, 5)
        assert set(checks.report().uses) == set(uses)


@pytest.mark.parametrize("cut", [0, 1, 81, 4_259_857, 4_259_938])
def test_a_save_that_is_cut_off_behind_a_full_batch(tmp_path, cut):
    """What is whole is taken, and the error says that the rest is not."""
    kept = tmp_path / "kept"
    kept.write_bytes(many_messages()[:cut])
    with validator() as checks:
        if cut in (0, 4_259_857):
            checks.load(kept, NOW)
        else:
            with pytest.raises(svid.BadMessages) as raised:
                checks.load(kept, NOW)
            assert raised.value.reason == "Truncated"
        taken = svid.records.entries_of(b"".join(checks.parts()))
        assert len(taken) == (65_536 if cut >= 4_259_857 else 0)


def test_a_save_is_synced_before_it_has_its_name(tmp_path, monkeypatch):
    calls = []
    for name in "fsync", "replace":
        real = getattr(os, name)

        def told(*given, name=name, real=real):
            calls.append((name, [it.stat().st_size for it in tmp_path.iterdir()]))
            return real(*given)

        monkeypatch.setattr(os, name, told)
    with validator() as checks:
        use = checks.check(token(), NOW).use
        checks.save(tmp_path / "kept")
    assert calls == [("fsync", [len(use.message)]), ("replace", [len(use.message)])]


@pytest.mark.parametrize(
    "terms, error",
    [
        ({"audiences": []}, ValueError),
        ({"audiences": ["a", ""]}, ValueError),
        ({"audiences": ["\udc80"]}, ValueError),
        ({"audiences": [1]}, TypeError),
        ({"audiences": None}, TypeError),
        ({"validator_id": b"short"}, ValueError),
        ({"longest": -1}, ValueError),
        ({"ahead": 2**64}, ValueError),
        ({"step": -1}, ValueError),
        ({"refresh": -1}, ValueError),
    ],
)
def test_terms_that_are_none(terms, error):
    with pytest.raises(error):
        validator(**terms)


def test_an_audience_may_have_any_characters():
    names = ["a\nb", "c\r", " d", "\0", "é\u200b", "\ufeff"]
    with validator(audiences=names) as checks:
        for name in names:
            made = token(aud=["other", name], jti=name)
            assert checks.judge(made, NOW).audience == name
            assert verdict(checks, made) == ACCEPTED
        for name in ["a", "b", "c", "d", "a\nbc\r", "", "é"]:
            assert verdict(checks, token(aud=name, jti=name)) == "refused NotAudience"


def test_what_the_package_gives_its_modules_give():
    """To who imports all of a module, as of svid.records."""
    for name in svid.__all__:
        module = getattr(getattr(svid, name), "__module__", "svid")
        if module.startswith("svid."):
            assert name in getattr(sys.modules[module], "__all__", [name])


def test_one_audience_is_one_name():
    with validator(audiences="ledger") as checks:
        assert verdict(checks, token(aud="ledger")) == ACCEPTED
        assert verdict(checks, token(aud="l")) == "refused NotAudience"
