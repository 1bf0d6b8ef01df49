"""What `svid.testing` has for the tests of a service, and what a service gets for a token."""

import copy
import logging
import pickle
import time

import jwt
import pytest
import svid
from making import NOW, PATIENCE, bundle, claims, entry, private_key, token, validator
from svid.testing import Clock, Issuer, MemoryStore

WRONG = {
    "expired": svid.Expired,
    "not_yet": svid.NotYet,
    "wrong_audience": svid.NotAudience,
    "bad_signature": svid.BadSignature,
    "unknown_key": svid.NoKey,
    "malformed": svid.NotThreeParts,
}


def made_by(issuer, **terms):
    return validator(issuer.bundles, **terms)


@pytest.mark.parametrize("clock", [time.time, Clock(NOW - 10**8)], ids=["system", "own"])
@pytest.mark.parametrize("how", WRONG)
def test_a_token_that_is_wrong_in_one_way(how, clock):
    issuer = Issuer(clock=clock)
    with made_by(issuer, clock=clock, longest=300) as checks:
        for given in {}, {"sub": "spiffe://example.org/other", "jti": "a"}:
            with pytest.raises(WRONG[how]):
                checks.check(issuer.wrong(how, aud="ledger", **given))
            assert checks.report().uses == ()
            accepted = checks.check(issuer.token(aud="ledger", **given))
            assert accepted.spiffe_id == given.get("sub", issuer.spiffe_id)
            checks.close()
            checks = made_by(issuer, clock=clock, longest=300)


def test_a_token_that_is_wrong_in_no_known_way():
    with pytest.raises(ValueError, match="'any'"):
        Issuer().wrong("any")


def test_each_token_is_another_one():
    issuer = Issuer("other.example", path="/a/b")
    with made_by(issuer) as checks:
        made = issuer.token(aud="ledger")
        assert checks.check(made).spiffe_id == "spiffe://other.example/a/b"
        checks.check(issuer.token(aud="ledger"))
        with pytest.raises(svid.Replayed):
            checks.check(made)
        with pytest.raises(svid.NotAudience):
            checks.check(issuer.token())
        with pytest.raises(svid.Exp):
            checks.check(issuer.token(exp=None))


def test_a_rotation():
    issuer = Issuer()
    with made_by(issuer) as checks:
        before = [issuer.token(aud="ledger") for _ in range(3)]
        checks.check(before[0])
        issuer.rotate()
        with pytest.raises(svid.NoKey):
            checks.check(issuer.token(aud="ledger"))
        checks.renew(issuer.bundles)
        checks.check(issuer.token(aud="ledger"))
        checks.check(before[1])
        issuer.rotate(keep=False)
        checks.renew(issuer.bundles)
        checks.check(issuer.token(aud="ledger"))
        with pytest.raises(svid.NoKey):
            checks.check(before[2])


def test_a_clock_that_a_test_moves():
    clock = Clock(NOW)
    issuer = Issuer(clock=clock)
    with made_by(issuer, clock=clock) as checks:
        made = issuer.token(aud="ledger", exp=NOW + 60)
        checks.judge(made)
        clock.advance(60)
        for call in checks.check, checks.judge:
            with pytest.raises(svid.Expired):
                call(made)
        with pytest.raises(svid.Gone):
            checks.withdraw(made)
        clock.now = NOW + 70.9
        checks.tick()
        assert checks.report().moment == NOW + 70
    assert abs(Clock().now - time.time()) < PATIENCE


# -- What a service gets


def test_what_an_acceptance_has():
    """Both of a check and of a judgment."""
    given = {
        "aud": ["other", "second", "first"],
        "jti": "a",
        "n": 2**70,
        "é": {"x": [None, 1.5]},
    }
    issuer = Issuer()
    made = issuer.token(**given)
    with made_by(issuer, audiences=["first", "second"]) as checks:
        for accepted in checks.judge(made), checks.check(made):
            assert accepted.claims == jwt.decode(made, options={"verify_signature": False})
            assert accepted.claims["é"] == {"x": [None, 1.5]} and accepted.claims["n"] == 2**70
            assert accepted.audience == "first"
            assert accepted.key_id == jwt.get_unverified_header(made)["kid"]
            assert made not in repr(accepted)
            for it in copy.deepcopy(accepted), pickle.loads(pickle.dumps(accepted)):
                assert it == accepted and it.claims == accepted.claims


@pytest.mark.parametrize(
    ("header", "said"), [({}, None), ({"kid": "clé \U0001f511"}, "clé \U0001f511")]
)
def test_the_id_of_a_key(header, said):
    """A token may have none, and one may have any letters."""
    with validator(bundle(entry(private_key("ES256"), "clé \U0001f511"))) as checks:
        made = jwt.encode(claims(), private_key("ES256"), "ES256", headers=header)
        accepted = checks.check(made, NOW)
        assert (accepted.key_id, accepted.audience) == (said, "ledger")


# -- Hooks


def test_refusals_are_told():
    said, issuer = [], Issuer()
    terms = {"on_refusal": said.append, "callers": issuer.spiffe_id}
    with made_by(issuer, **terms) as checks:
        good, other = issuer.token(aud="ledger"), issuer.token(
            aud="ledger", sub="spiffe://example.org/a"
        )
        checks.judge(good)
        checks.check(good)
        for call, made in (
            (checks.check, good),
            (checks.check, "a"),
            (checks.judge, issuer.wrong("expired", aud="ledger")),
            (checks.judge, other),
            (checks.check, other),
        ):
            with pytest.raises(svid.Error) as raised:
                call(made)
            assert said[-1] is raised.value
    names = ["Replayed", "NotThreeParts", "Expired", "NotAllowed", "NotAllowed"]
    assert [type(it).__name__ for it in said] == names


def test_a_hook_that_fails_changes_no_answer(caplog):
    told = []

    def fails(what):
        told.append(what)
        raise ConnectionError("no logger")

    with validator(on_refusal=fails, on_twice=fails) as one, validator() as two:
        for call in one.check, one.judge:
            with pytest.raises(svid.NotThreeParts):
                call("a", NOW)
        assert len(told) == 2
        made = [token(jti=str(it)) for it in range(2)]
        uses = [two.check(it, NOW).use for it in made if one.check(it, NOW)]
        one.take(b"".join(it.message for it in uses), NOW)
    assert sorted(told[2:]) == sorted(it.key for it in uses)
    failed = [it for it in caplog.records if it.exc_info]
    assert [str(it.exc_info[1]) for it in failed] == ["no logger"] * 4


def test_the_logger_has_refusals(caplog):
    caplog.set_level(logging.INFO, "svid")
    with validator() as checks:
        with pytest.raises(svid.NotThreeParts):
            checks.check("secret")
    assert [(it.name, it.levelname, it.getMessage()) for it in caplog.records] == [
        ("svid", "INFO", "NotThreeParts")
    ]


def test_a_token_that_two_accept_is_told_once(caplog):
    said = []
    with validator(on_twice=said.append) as one, validator() as two, validator() as three:
        made = [token(jti=str(it)) for it in range(40)]
        uses = [two.check(it, NOW).use for it in made]
        one.take(b"".join(it.message for it in uses[:20]), NOW)
        assert said == []
        mine = one.check(made[30], NOW).use
        for _ in range(2):
            one.take(uses[30].message, NOW)
            assert said == [mine.key]
        one.withdraw_key(uses[0].key, NOW + 300, NOW)
        one.take(three.withdraw_key(uses[1].key, NOW + 300, NOW).message, NOW)
        assert said == [mine.key]
        again = three.check(made[5], NOW).use
        two.take(again.message, NOW)
        assert [it.getMessage().split()[-1] for it in caplog.records] == [again.key.hex()]
        # Of two that neither of them made, in one piece.
        four = validator()
        four._on_twice = said.append
        four.take(uses[5].message + again.message, NOW)
        assert said[1:] == [again.key]
        four.close()


def test_a_record_of_its_own_tells_nothing(tmp_path):
    said = []
    with validator(on_twice=said.append) as one, validator() as two:
        made = token()
        one.check(made, NOW)
        one.take(two.check(made, NOW).use.message, NOW)
        one.save(tmp_path / "record")
        one.load(tmp_path / "record", NOW)
    assert len(said) == 1


# -- Limits are said in words


def test_no_life_is_unlimited_unless_it_is_said():
    with svid.Validator(
        audiences="ledger", bundles=bundle(entry(private_key("ES256"), "k1"))
    ) as it:
        it.judge(token(exp=NOW + 3600), NOW)
        with pytest.raises(svid.TooLongLived):
            it.judge(token(exp=NOW + 3601), NOW)
    with validator(longest=svid.UNLIMITED) as it:
        it.judge(token(exp=2**64 - 1), NOW)
    assert repr(svid.UNLIMITED) == "svid.UNLIMITED"
    for bad in None, "3600":
        with pytest.raises(TypeError, match="longest is a number of seconds"):
            validator(longest=bad)


# -- A store in memory


def test_the_withdrawals_of_a_store():
    store = MemoryStore(now=lambda: NOW)
    assert store.withdrawals("") == ([], "")
    store.withdraw(b"a" * 32, NOW + 1)
    store.withdraw(b"b" * 32, NOW + 2)
    these, last = store.withdrawals("")
    assert these == [(b"a" * 32, NOW + 1), (b"b" * 32, NOW + 2)]
    assert store.withdrawals(last) == ([], last)
    assert store.withdrawals("1") == (these[1:], last)
    store.lose()
    assert store.withdrawals(last) == ([], "")
