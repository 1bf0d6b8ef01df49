"""Each refusal, by a token that has it, and the errors of the other calls."""

import copy
import json
import pickle
import subprocess
import sys

import pytest
import svid
import vectors
from making import NOW, PATIENCE, b64, claims, entry, private_key, signed, token, validator
from svid._group import StoreFault
from svid.errors import REFUSALS

KEY = private_key("ES256")
HEADER = b'{"alg":"ES256","kid":"k1"}'
PAYLOAD = b'{"sub":"spiffe://example.org/billing/api","aud":["ledger"],"exp":1767225900}'


def text(header=HEADER, payload=PAYLOAD):
    return signed("ES256", KEY, header, payload)


# Of each refusal the first vector that ends in it.
REFUSED = {
    it.__name__: next(
        vector
        for vector in vectors.TOKENS["vectors"]
        if vector["calls"][-1]["answer"] == f"refused {it.__name__}"
    )
    for it in REFUSALS.values()
}


@pytest.fixture
def checks():
    with validator() as made:
        yield made


def test_every_refusal_has_a_token():
    assert len(REFUSED) == len(REFUSALS)


@pytest.mark.parametrize("name", REFUSED)
@pytest.mark.parametrize("spelled", [str, str.encode])
def test_refusal(name, spelled):
    *calls, last = REFUSED[name]["calls"]
    with vectors.opened(REFUSED[name]) as checks:
        for call in calls:
            assert vectors.called(checks, call) == call["answer"]
        before = checks.report()
        for ask in checks.check, checks.judge:
            with pytest.raises(svid.Refused) as raised:
                ask(spelled(last["token"]), last["now"])
            assert type(raised.value) is getattr(svid, name)
            assert raised.value.name == name
            assert str(raised.value).startswith(name + ": ")
        assert checks.report().uses == before.uses


def test_refusals_say_what_is_wrong_and_nothing_of_the_token():
    for kind in REFUSALS.values():
        refused = kind()
        assert kind.__doc__ and "\n" not in str(refused) and "  " not in str(refused)
        assert kind.__doc__.replace("`", "").split() == str(refused).split()[1:]


def test_a_program_without_docstrings_says_the_same():
    """As python -OO runs it."""
    words = "from svid.errors import REFUSALS\nfor it in REFUSALS.values(): print(it())"
    ran = [sys.executable, "-OO", "-c", words]
    said = subprocess.check_output(ran, text=True, timeout=PATIENCE)
    assert said.splitlines() == [str(it()) for it in REFUSALS.values()]


WITH = {
    svid.BadBundles: ("no bundle",),
    svid.BadMessages: ("Magic", 1, 0),
    svid.Unavailable: ("the disk hangs", "NotKept"),
    svid.Held: ("state", "process 1"),
    svid.Damaged: ("snapshot", 7),
    svid.OtherFormat: ("snapshot", 3),
    StoreFault: ("late", ": by an hour"),
}
KINDS = [it for it in vars(svid).values() if isinstance(it, type) and issubclass(it, svid.Error)]


@pytest.mark.parametrize("kind", [*KINDS, StoreFault], ids=lambda it: it.__name__)
def test_an_error_goes_from_one_process_to_another(kind):
    """As from a worker of a pool, which else would end it."""
    made = kind(*WITH.get(kind, ()))
    for it in pickle.loads(pickle.dumps(made)), copy.deepcopy(made):
        assert (type(it), str(it), vars(it)) == (kind, str(made), vars(made))
    assert str(made) or kind in (svid.Error, svid.Refused)


@pytest.mark.parametrize(
    "junk",
    ["", ".", "..", "...", "\0", "é", "\udc80", b"\xff.\xfe.\xfd", "a" * 10_000_000, b"." * 65_536],
    ids=range(10),
)
def test_junk_is_refused(checks, junk):
    with pytest.raises(svid.Refused):
        checks.check(junk, NOW)


def test_the_longest_token_is_judged(checks):
    head, payload, signature = text().split(".")
    padded = '{"pad":"' + "a" * 48_900 + '",' + str(claims()).replace("'", '"')[1:]
    long = signed("ES256", KEY, HEADER, padded.encode())
    assert 65_000 < len(long) <= 65_536
    assert checks.check(long, NOW).spiffe_id == "spiffe://example.org/billing/api"


@pytest.mark.parametrize("other", [None, 7, bytearray(b"a.b.c"), ["a"]])
def test_a_token_is_text_or_bytes(checks, other):
    with pytest.raises(TypeError):
        checks.check(other, NOW)


def test_closed():
    checks = validator()
    checks.close()
    checks.close()
    calls = [
        lambda: checks.check(token()),
        lambda: checks.judge("x"),
        lambda: checks.withdraw(token()),
        lambda: checks.withdraw_key(b"k" * 32, NOW),
        checks.tick,
        lambda: checks.take(b""),
        lambda: list(checks.parts()),
        checks.summary,
        lambda: checks.answer(b""),
        checks.report,
        checks.renew,
        checks.unready,
    ]
    for call in calls:
        with pytest.raises(svid.Closed):
            call()


def test_a_validator_closes_with_its_block_and_with_an_error():
    with pytest.raises(KeyError), validator() as checks:
        raise KeyError
    with pytest.raises(svid.Closed):
        checks.check(token(), NOW)


def test_a_verifier_that_fails_changes_nothing():
    def fails(*_):
        raise ConnectionError("no verifier")

    with validator(verifies=fails) as checks:
        with pytest.raises(ConnectionError):
            checks.check(token(), NOW)
        assert checks.report().uses == ()


@pytest.mark.parametrize("answer", [1, "no", None, object()])
def test_a_verifier_says_true_or_false(answer):
    """What an async one returns is true of any signature."""
    with validator(verifies=lambda *_: answer) as checks:
        for made in token(), token(long="x" * 9000):
            for call in checks.check, checks.judge:
                with pytest.raises(TypeError, match="True or False"):
                    call(made, NOW)
        assert checks.report().uses == ()


def test_a_verifier_is_asked_of_the_key_and_the_signature():
    asked = []
    with validator(verifies=lambda *it: asked.append(it) or True) as checks:
        made = token()
        checks.check(made, NOW)
    [(alg, key, signing_input, signature)] = asked
    assert (alg, signing_input) == ("ES256", made.rpartition(".")[0].encode())
    assert b64(signature) == made.rpartition(".")[2]
    assert json.loads(key) == entry(KEY, "k1")
