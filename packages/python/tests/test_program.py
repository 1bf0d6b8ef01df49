"""Generated tokens, good and bad, in rows of 250: the package and the program say the same of each.

`CASES` in the environment is how many tokens there are, the same ones each time. The questions that
the program's table has are written by this test, from signatures that PyJWT verified.
"""

import functools
import json
import os
import random

import pytest
from making import (
    ALGORITHMS,
    KTY,
    NOW,
    SIGNERS,
    b64,
    certificate,
    entry,
    private_key,
    program,
    question,
    unb64,
    validator,
    verdict,
)
from svid._library import MOST_CANDIDATES
from svid.errors import REFUSALS

ROW = 250
ROWS = int(os.environ.get("CASES", "5000")) // ROW
LONGEST = 3600
DOMAIN = "example.org"

KEYS = {alg: private_key(alg) for alg in ALGORITHMS}
SECOND = private_key("ES256", 1)
BUNDLES = {
    DOMAIN: {
        "keys": [
            entry(KEYS["ES256"], "es", x5c=[certificate(KEYS["ES256"])]),
            entry(SECOND, "es"),
            entry(KEYS["RS256"], "rs", note={"é": [1, "\u2028", '"\\\n']}),
            entry(KEYS["ES384"], ""),
            entry(KEYS["ES512"], "es5"),
            {**entry(private_key("ES256", 2), "x509"), "use": "x509-svid"},
            {name: it for name, it in entry(KEYS["ES256"], "es").items() if name != "kid"},
        ]
    },
    "other.example": {"keys": [entry(SECOND, "es")], "spiffe_sequence": 1},
    "empty.example": {"keys": None},
}

# Values of members, as JSON text: what is usual, and what is odd.
NAMES = ["spiffe://example.org/web"] * 3 + ["spiffe://example.org", "spiffe://other.example/a"]
NAMES += ["spiffe://empty.example/a", "spiffe://unknown.example/a"]
TEXTS = ["", "es", "rs", "es5", "k\u00e9\U0001f600", "JWT", "JOSE", "jwt", "ES256", "HS256", "none"]
TEXTS += ["ledger", "other", "spiffe://example.org/..", "spiffe://Example.org", "spiffe://a/%"]
ODD = [
    "null",
    "true",
    "[]",
    "{}",
    "-0",
    "1.0",
    "1e3",
    "1e400",
    "-1",
    str(2**64),
    '"\\ud800"',
    "x",
]
MOMENTS = [NOW - 1, NOW, NOW + 1, NOW + LONGEST, NOW + LONGEST + 1, 0, 2**64 - 1]


# (not by hypothesis: what draws a token there takes ten times as long as all that judges it)
chance = random.Random(7)
pick = chance.choice


def quoted(texts):
    return json.dumps(pick(texts), ensure_ascii=pick([False, True]))


def odd():
    return pick([lambda: pick(ODD), lambda: quoted(TEXTS), moment])()


def moment():
    return str(pick(MOMENTS))


def audiences():
    several = [quoted(["ledger", "other", ""]) for _ in range(chance.randint(0, 3))]
    return pick([f"[{','.join(several)}]", quoted(["ledger", "other", ""])])


def made_of(members):
    """An object with the members: one may be left out, have another value, or be given twice."""
    members = list(members)
    change = pick(["", "", "", "less", "odd", "twice", "deep", "text"])
    index = chance.randrange(len(members))
    name, _ = members[index]
    if change == "less":
        del members[index]
    elif change == "odd":
        members[index] = (name, odd())
    elif change == "twice":
        members.insert(chance.randint(0, len(members)), (name, odd()))
    elif change == "deep":
        depth = pick([1, 126, 127])
        members.append(("deep", "[" * depth + "]" * depth))
    elif change == "text":
        return pick(["", "[]", "7", "{}", "{", '{"a":1}}', "\ufeff{}"]).encode()
    space = pick(["", "", "", " ", "\n\t"])
    text = ",".join(f'{space}"{name}":{space}{value}' for name, value in members)
    return (space + "{" + text + "}" + space).encode()


def any_token():
    alg = pick(ALGORITHMS + ["ES256"] * 5)
    header = [("alg", f'"{alg}"')]
    if chance.randrange(4):
        header.append(("kid", '"es"' if alg == "ES256" else quoted(["rs", "", "es5", "es"])))
    header += pick([[], [], [("typ", '"JWT"')], [("crit", "[]")], [("typ", "7")]])
    payload = [("sub", quoted(NAMES)), ("aud", audiences()), ("exp", str(NOW + 60))]
    payload += pick([[], [("nbf", str(NOW))], [("exp", str(NOW + 61))]])
    if pick([False, True]):
        payload.append(("jti", quoted(["1", "2", "3", "", "\u0000\u00e9"])))
    if chance.randrange(5) == 0:
        payload.append((pick(["exp", "nbf"]), moment()))
    key = SECOND if alg == "ES256" and pick([False, True]) else KEYS[alg]
    text = f"{b64(made_of(header))}.{b64(made_of(payload))}"
    signature = b64(SIGNERS[alg].sign(text.encode(), key))
    return pick(CHANGES)(f"{text}.{signature}")


def as_it_is(text):
    return text


def with_a_byte_changed(text):
    index = chance.randrange(len(text))
    return text[:index] + pick("A-_=.+/ ~é") + text[index + 1 :]


def with_a_byte_less(text):
    index = chance.randrange(len(text))
    return text[:index] + text[index + 1 :]


def with_another_signature(text):
    signature = pick([b"", b"\0", bytes(64), bytes(96), bytes(132), bytes(256)])
    return f"{text.rpartition('.')[0]}.{b64(signature)}"


def with_more_behind(text):
    return text + pick(["=", ".", ".AA", "A", "AAAA", " ", "A" * 66_000])


CHANGES = [as_it_is] * 8
CHANGES += [with_a_byte_changed, with_a_byte_less, with_another_signature, with_more_behind]


def row():
    """Tokens. Some come again."""
    made = [any_token() for _ in range(ROW)]
    for _ in range(chance.randint(0, ROW // 5)):
        index = chance.randint(1, ROW - 1)
        made[index] = made[chance.randrange(index)]
    return made


def questions(text):
    """The questions of a token whose answer is yes, of the keys that are tried, by PyJWT."""
    try:
        head, payload, _ = text.split(".")
        signature = unb64(text.rpartition(".")[2])
        header = json.loads(unb64(head))
        alg, kid = header["alg"], header.get("kid")
        verifier = SIGNERS[alg]
    except (ValueError, KeyError, TypeError):
        return
    if alg not in ALGORITHMS:  # PyJWT has more
        return
    kind = KTY[alg[:2]]
    signed = f"{head}.{payload}".encode()
    for domain, bundle in BUNDLES.items():
        fit = [
            key
            for key in bundle["keys"] or []
            if key["kty"] == kind and key["use"] == "jwt-svid" and "kid" in key
            if kid is None or key["kid"] == kid
        ]
        for key in fit[:MOST_CANDIDATES]:
            if verifier.verify(signed, read(alg, json.dumps(key)), signature):
                yield question(domain, key, alg, signed, signature)


@functools.lru_cache(maxsize=None)
def read(alg, key):
    """A key as PyJWT reads it."""
    return SIGNERS[alg].from_jwk(key)


seen = {}


@pytest.mark.parametrize("number", range(ROWS))
def test_the_program_says_the_same(number):
    made = row()
    table = [it for text in made for it in questions(text)]
    with validator(BUNDLES, longest=LONGEST) as checks:
        ours = [verdict(checks, it) for it in made]
    theirs = program(BUNDLES, table, made, "--longest", str(LONGEST))
    assert [it for it in zip(made, ours, theirs) if it[1] != it[2]] == []
    assert len(theirs) == len(made)
    for it in ours:
        name = it.split(" ")[0] if it.startswith("accepted") else it
        seen[name] = seen.get(name, 0) + 1


def test_the_cases_have_every_verdict():
    """All but one of the refusals came up: no command of the program withdraws."""
    names = {"accepted"} | {f"refused {it.__name__}" for it in REFUSALS.values()}
    assert names - set(seen) == {"refused Withdrawn"}
    assert sum(seen.values()) >= ROW * ROWS
