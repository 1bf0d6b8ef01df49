"""What an error says, in the words of lists/statuses.toml."""

import tomllib

import pytest

import svid
from making import NOW, bundle, entry, fresh, private_key, token, validator
from svid import _frames, _handle, _library
from vectors import HERE, read

STATUSES = {
    group.get("prefix", "") + it["name"]: {"advice": group.get("advice", ""), **it}
    for group in tomllib.loads((HERE.parents[1] / "lists/statuses.toml").read_text())["group"]
    for it in group["status"]
}
BAD_MESSAGES = {it["fault"]["reason"]: it for it in read("messages")["vectors"] if "fault" in it}
REASONS = {
    "Magic": "MAGIC",
    "Kind": "KIND",
    "Count": "COUNT",
    "UseKind": "USE_KIND",
    "UseExpired": "USE_EXPIRED",
    "UseFuture": "USE_FUTURE",
    "UseOrder": "USE_ORDER",
    "Truncated": "TRUNCATED",
}


def sentence(name, where=""):
    """What is wrong by a status, as a sentence without marks; where that is; and what to do."""
    said = STATUSES[name]
    words, advice = said.get("words", capital(said.get("says", ""))), capital(said["advice"])
    return " ".join(filter(None, (words.replace("`", ""), where, advice)))


def capital(text):
    return text and f"{text[0].upper()}{text[1:]}."


def test_each_reason_is_tried():
    assert set(BAD_MESSAGES) == set(REASONS)


@pytest.mark.parametrize("reason", REASONS)
def test_what_is_wrong_with_messages(reason):
    vector, said = BAD_MESSAGES[reason], STATUSES[REASONS[reason]]
    with validator() as checks, pytest.raises(svid.BadMessages) as raised:
        checks.take(bytes.fromhex(vector["messages"]), NOW)
    at = vector["fault"]
    where = f"{reason} in message {at['message']} at byte {at['offset']}"
    assert str(raised.value) == f"{where}: {said['says']}, and due is {said['due']}"


def test_a_use_that_no_message_tells():
    uses = [svid.Use(exp, bytes(32), bytes(16), 1, withdrawn=False) for exp in (2, 1)]
    with pytest.raises(ValueError) as raised:
        svid.records.batches(uses)
    where = "It is number 1 of the uses, counted from 0."
    assert str(raised.value) == sentence("USE_EXPIRED", where)


def clause(name):
    return f"{STATUSES[name]['says']}: {STATUSES[name]['advice']}"


def test_messages_that_nothing_is_read_of():
    with validator() as checks:
        with pytest.raises(svid.BadMessages) as raised:
            checks.answer(b"JSR\x02\x01" + bytes(12), NOW)
        assert str(raised.value) == f"NotSummary: {clause('NOT_SUMMARY')}"
    # (test_record.py takes so many)
    assert str(svid.BadMessages("TooMuch", 0, 0)) == f"TooMuch: {clause('TOO_MUCH')}"


@pytest.mark.parametrize(
    ("bundles", "name", "rank"),
    [
        (b"[]", "BUNDLES_NOT_OBJECT", ""),
        (b'{"a":{"keys":[]},"B":{}}', "BUNDLES_DOMAIN", "0"),
        (b'{"a":{"keys":[]},"b":{}}', "BUNDLES_KEYS", "1"),
        (b'{"keys":[],"spiffe_sequence":1}', "BUNDLES_UNNAMED", ""),
        (b'{"A":1,"keys":null}', "BUNDLES_UNNAMED", ""),
    ],
)
def test_what_is_wrong_with_bundles(bundles, name, rank):
    with pytest.raises(svid.BadBundles) as raised:
        validator(bundles)
    where = f"It is number {rank} of the names in rising order, counted from 0." if rank else ""
    assert str(raised.value) == sentence(name, where)


def test_what_a_validator_does_not_do():
    with validator(ahead=10, step=100) as checks, validator() as other:
        use = other.check(token(), NOW + 11).use
        with pytest.raises(svid.TooFar) as raised:
            checks.take(use.message, NOW)
        assert str(raised.value) == sentence("TOO_FAR")
        with pytest.raises(svid.Gone) as raised:
            checks.withdraw_key(bytes(32), NOW, NOW)
        assert str(raised.value) == sentence("GONE")
        checks.tick(NOW)
        with pytest.raises(svid.Jump) as raised:
            checks.tick(NOW + 101)
        assert str(raised.value) == sentence("JUMP")
    with pytest.raises(svid.Closed) as raised:
        checks.tick(NOW)
    assert str(raised.value) == sentence("CLOSED")


FOLDER = [name for name in STATUSES if name.startswith("FOLDER_")]


@pytest.mark.parametrize("name", FOLDER)
def test_what_a_folder_does_not_do(name):
    said = STATUSES[name]
    with pytest.raises(svid.Unavailable) as raised:
        _frames._judge(said["number"])
    assert str(raised.value) == ": ".join(filter(None, (said["says"], said["advice"])))


@pytest.mark.parametrize(
    ("pattern", "name", "offset"),
    [
        ("spiffe://" + "a" * 2040, "PATTERN_TOO_LONG", 0),
        ("example.org", "PATTERN_SCHEME", 0),
        ("spiffe://", "PATTERN_DOMAIN_EMPTY", 0),
        ("spiffe://A", "PATTERN_DOMAIN_BYTE", 9),
        ("spiffe://" + "a" * 256, "PATTERN_DOMAIN_LONG", 0),
        ("spiffe://a//*", "PATTERN_SEGMENT_EMPTY", 11),
        ("spiffe://a/../*", "PATTERN_SEGMENT_DOTS", 11),
        ("spiffe://a/b*", "PATTERN_PATH_BYTE", 12),
    ],
    ids=lambda it: it if str(it).startswith("PATTERN_") else "",
)
def test_what_is_no_pattern(pattern, name, offset):
    with pytest.raises(ValueError) as raised:
        svid.allows(pattern, "spiffe://a/b")
    said = f"{pattern!r} is no pattern of SPIFFE IDs (byte {offset}): {sentence(name)}"
    assert str(raised.value) == said


def test_want_of_memory():
    why = _handle.fault(STATUSES["NO_MEMORY"]["number"], _library.Told())
    assert isinstance(why, MemoryError)
    assert str(why) == sentence("NO_MEMORY")


BUNDLES = bundle(entry(private_key("ES256"), "k1"))
CALLS = {
    "svid_bundles_join": lambda checks: validator({"example.org": b'{"keys":[]}'}),
    "svid_bundles_open": lambda checks: checks.renew(BUNDLES),
    "svid_entries_read": lambda checks: checks.take(b""),
    "svid_entries_write": lambda checks: checks.withdraw(fresh()).message,
    "svid_id_allows": lambda checks: svid.allows("spiffe://a/*", "spiffe://a/b"),
    "svid_key_spki": lambda checks: checks.check(fresh()),
    "svid_member_come": lambda checks: checks.check(fresh()),
    "svid_member_open": lambda checks: validator(),
    "svid_member_rules": lambda checks: validator(callers=["spiffe://a/*"]),
    "svid_report": lambda checks: checks.report(),
    "svid_token_open": lambda checks: checks.check(fresh()),
    "svid_token_payload": lambda checks: checks.judge(fresh()).claims,
    "svid_token_says": lambda checks: checks.judge(fresh()).audience,
    "svid_validator_answer": lambda checks: checks.answer(checks.summary()),
    "svid_validator_ask_token": lambda checks: checks.judge(fresh()),
    "svid_validator_bucket": lambda checks: checks.take(checks.withdraw(fresh()).message),
    "svid_validator_judge_token": lambda checks: checks.judge(fresh()),
    "svid_validator_open_by_lengths": lambda checks: validator(),
    "svid_validator_parts": lambda checks: b"".join(checks.parts()),
    "svid_validator_summary": lambda checks: checks.summary(),
    "svid_validator_take": lambda checks: checks.take(b""),
    "svid_validator_tick": lambda checks: checks.tick(),
    "svid_validator_withdraw": lambda checks: checks.withdraw(fresh()),
}


@pytest.mark.parametrize("name", CALLS)
def test_a_call_that_has_no_memory(name, monkeypatch):
    """It raises MemoryError, and can be made again."""
    with validator() as checks:
        with monkeypatch.context() as patched:
            for library in _library.library, _library.quick:
                patched.setattr(library, name, lambda *_: _library.NO_MEMORY)
            with pytest.raises(MemoryError) as raised:
                CALLS[name](checks)
            assert str(raised.value) == sentence("NO_MEMORY")
        CALLS[name](checks)


UNAVAILABLE = ["CLAIM_FAR", "CLAIM_DEAF", "LATE", "NOT_KEPT", "LEFT"]


@pytest.mark.parametrize(
    "number", [*range(211, 223), *(STATUSES[it]["number"] for it in UNAVAILABLE)]
)
def test_why_a_token_has_no_answer(number):
    name = next(name for name, it in STATUSES.items() if it["number"] == number)
    why = _handle.fault(number)
    assert isinstance(why, svid.Unavailable)
    assert str(why) == sentence(name)


def test_what_is_no_id():
    with pytest.raises(ValueError) as raised:
        svid.allows("spiffe://a", "spiffe://a//b")
    said = f"'spiffe://a//b' is no SPIFFE ID (byte 11): {sentence('ID_SEGMENT_EMPTY')}"
    assert str(raised.value) == said
