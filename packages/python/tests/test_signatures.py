"""Signatures: tokens of four other libraries, and of every algorithm.

(test_vectors.py has keys of every kind, and signatures of every form.)
"""

import json
import subprocess

import jwt
import pytest
from authlib.jose import JsonWebToken
from cryptography.hazmat.primitives import serialization
from cryptography.hazmat.primitives.asymmetric import rsa
from jose import jwt as python_jose
from making import (
    ALGORITHMS,
    NOW,
    PATIENCE,
    SIGNERS,
    b64,
    bundle,
    certificate,
    claims,
    entry,
    number,
    pem,
    private_key,
    program,
    question,
    token,
    unb64,
    validator,
    verdict,
)
from svid import _library as lib

ACCEPTED = f"accepted spiffe://example.org/billing/api {NOW + 300}"
BAD_SIGNATURE = "refused BadSignature"


def by_pyjwt(alg, key):
    return jwt.encode(claims(), key, alg, headers={"kid": "k1"})


def by_authlib(alg, key):
    return JsonWebToken([alg]).encode({"alg": alg, "kid": "k1"}, claims(), pem(key)).decode()


def by_python_jose(alg, key):
    return python_jose.encode(claims(), pem(key).decode(), alg, headers={"kid": "k1"})


def by_jose(alg, key):
    """By the command `jose`."""
    numbers = key.private_numbers()
    public = {name: it for name, it in entry(key, "k1").items() if name not in ("use", "kid")}
    if isinstance(key, rsa.RSAPrivateKey):
        secret = {"d": numbers.d, "p": numbers.p, "q": numbers.q, "qi": numbers.iqmp}
        secret |= {"dp": numbers.dmp1, "dq": numbers.dmq1}
        private = {name: number(value) for name, value in secret.items()}
    else:
        private = {"d": number(numbers.private_value, (key.curve.key_size + 7) // 8)}
    template = json.dumps({"protected": {"alg": alg, "kid": "k1"}})
    work = json.dumps({"payload": b64(json.dumps(claims()).encode())})
    words = ["jose", "jws", "sig", "-i", work, "-k", "-", "-s", template, "-c", "-o", "-"]
    given = json.dumps({**public, **private}).encode()
    ran = subprocess.run(words, input=given, capture_output=True, timeout=PATIENCE, check=True)
    return ran.stdout.decode()


WRITERS = [
    (write, alg)
    for write in (by_pyjwt, by_authlib, by_python_jose, by_jose)
    for alg in ALGORITHMS
    if write is not by_python_jose or not alg.startswith("PS")  # which python-jose does not have
]


@pytest.mark.parametrize("write, alg", WRITERS, ids=lambda it: getattr(it, "__name__", it))
def test_tokens_of_other_libraries(write, alg):
    key, stranger = private_key(alg), private_key(alg, 1)
    good, other = write(alg, key).strip(), write(alg, stranger).strip()
    head, payload, signature = good.split(".")
    changed = b64(json.dumps(claims(sub="spiffe://example.org/root")).encode())
    swapped = b64(json.dumps({"alg": swap(alg), "kid": "k1"}).encode())
    tokens = [
        other,
        f"{head}.{changed}.{signature}",
        f"{head}.{payload}.{flipped(signature)}",
        f"{head}.{payload}.{b64(unb64(signature)[:-1])}",
        f"{head}.{payload}.{b64(unb64(signature) + bytes(1))}",
        f"{swapped}.{payload}.{signature}",
        good,
        good,
    ]
    expected = [BAD_SIGNATURE] * 6 + [ACCEPTED, "refused Replayed"]
    bundles = bundle(entry(key, "k1"))
    with validator(bundles) as checks:
        assert [verdict(checks, it) for it in tokens] == expected
    assert program(bundles, table(bundles, tokens), tokens) == expected


def swap(alg):
    """Another algorithm for the same kind of key."""
    return {"R": "PS", "P": "RS", "E": "ES"}[alg[0]] + {"256": "384"}.get(alg[2:], "256")


def flipped(signature):
    return ("B" if signature[0] == "A" else "A") + signature[1:]


def table(bundles, tokens):
    """The questions of the tokens whose answer is yes, by PyJWT."""
    return [it for text in tokens for it in yes(bundles["example.org"]["keys"], text)]


def yes(entries, text):
    signed, _, signature = text.rpartition(".")
    alg = jwt.get_unverified_header(text)["alg"]
    signature = jwt.utils.base64url_decode(signature)
    for key in entries:
        public = SIGNERS[alg].from_jwk(key)
        if SIGNERS[alg].verify(signed.encode(), public, signature):
            yield question("example.org", key, alg, signed.encode(), signature)


@pytest.mark.parametrize("alg", ALGORITHMS)
def test_keys_with_certificates(alg):
    key = private_key(alg)
    signer = key if isinstance(key, rsa.RSAPrivateKey) else private_key("ES256")
    with validator(bundle(entry(key, "k1", x5c=[certificate(signer)], x5t="AA"))) as checks:
        assert verdict(checks, token(alg)) == ACCEPTED
        assert verdict(checks, token(alg, private_key(alg, 1))) == BAD_SIGNATURE


def test_a_certificate_alone_is_no_key():
    only = {"use": "jwt-svid", "kid": "k1", "kty": "EC", "x5c": [certificate(private_key("ES256"))]}
    with validator(bundle(only)) as checks:
        assert verdict(checks, token()) == BAD_SIGNATURE


def test_a_token_without_the_name_of_a_key():
    first = [entry(private_key(alg), alg) for alg in ("RS256", "ES256", "ES384")]
    for alg in ALGORITHMS:
        with validator(bundle(*first, entry(private_key(alg, 1), "last"))) as checks:
            made = jwt.encode(claims(jti=alg), private_key(alg, 1), alg)
            assert verdict(checks, made) == ACCEPTED
            stranger = jwt.encode(claims(), private_key("ES256", 9), "ES256")
            assert verdict(checks, stranger) == BAD_SIGNATURE


def test_many_keys_are_more_than_the_room():
    keys = [private_key("ES256", which) for which in range(3)]
    entries = [entry(keys[it == 2], "k1", note=f"{it}" * 27_000) for it in range(3)]
    with validator(bundle(*entries)) as checks:
        assert verdict(checks, jwt.encode(claims(jti="1"), keys[1], "ES256")) == ACCEPTED
        assert verdict(checks, jwt.encode(claims(jti="2"), keys[2], "ES256")) == BAD_SIGNATURE


def test_want_of_memory_for_a_key_is_a_passing_fault(monkeypatch):
    """It is no bad signature, and the next check reads the key."""
    with validator() as checks:
        with monkeypatch.context() as patched:
            patched.setattr(lib.quick, "svid_key_spki", lambda *_: lib.NO_MEMORY)
            with pytest.raises(MemoryError):
                checks.check(token(), NOW)
        assert verdict(checks, token()).startswith("accepted")


def test_a_secret_is_no_key():
    """A public key is no secret of HS256, and no signature is none."""
    public = private_key("ES256").public_key()
    text = public.public_bytes(
        serialization.Encoding.DER, serialization.PublicFormat.SubjectPublicKeyInfo
    )
    with validator() as checks:
        for made in (
            jwt.encode(claims(), text, "HS256", headers={"kid": "k1"}),
            jwt.encode(claims(), None, "none", headers={"kid": "k1"}),
        ):
            assert verdict(checks, made) == "refused Alg"


def test_one_key_verifies_by_each_of_its_algorithms():
    key = private_key("RS256")
    with validator(bundle(entry(key, "k1"))) as checks:
        for turn in range(2):
            for alg in ALGORITHMS:
                if alg[0] != "E":
                    assert verdict(checks, token(alg, key, jti=f"{alg} {turn}")) == ACCEPTED


@pytest.mark.parametrize("most", [-1, 0, 2047, 16_385])
def test_the_bound_of_rsa_keys_has_bounds(most):
    with pytest.raises(ValueError, match="rsa_bits must be from 2,048 to 16,384"):
        validator(rsa_bits=most)
