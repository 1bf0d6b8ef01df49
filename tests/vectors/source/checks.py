"""The setting that checks have unless a vector says otherwise, and the tokens and bundles that many of them share."""

import json

from . import crypto
from .crypto import json_text

NOW = 1_767_225_600  # 2026-01-01
DOMAIN = "example.org"
SUBJECT = "spiffe://example.org/billing/api"
AUDIENCE = "ledger"
EXP = NOW + 300
VALIDATOR_ID = bytes(range(0, 256, 17))
MOST = 2**64 - 1
MOST_CANDIDATES = 3  # how many keys are tried for a token: docs/FORMATS.md, "Candidates"

READERS = ["c", "go", "page", "python", "rust", "svid"]


def entry(key, kid="k1", **members):
    """A public key as a member of a bundle."""
    return {"use": "jwt-svid", "kid": kid, **key.members(), **members}


def bundle_text(*entries, domain=DOMAIN):
    return bundles_text({domain: entries})


def bundles_text(domains):
    return json_text({name: {"keys": list(keys)} for name, keys in domains.items()})


def claims(**members):
    """Good claims with some members changed; None takes one out."""
    made = {"sub": SUBJECT, "aud": [AUDIENCE], "exp": EXP, **members}
    return {name: value for name, value in made.items() if value is not None}


def token(alg="ES256", key=None, header=None, payload=None, **members):
    """A token that the key signed; `header` and `payload` are texts, or values, in place of good ones."""
    key = key or crypto.key(alg)
    header = {"alg": alg, "kid": "k1"} if header is None else header
    return crypto.signed(key, alg, header, claims(**members) if payload is None else payload)


def accepted(sub=SUBJECT, exp=EXP):
    return f"accepted {sub} {exp}"


def with_part(text, index, part):
    """A token with another part."""
    parts = text.split(".")
    parts[index] = part
    return ".".join(parts)


def in_text(members, **values):
    """The JSON text of members, some of which are written as these texts are."""
    known = {name: json.dumps(value, ensure_ascii=False) for name, value in members.items()} | values
    return "{" + ",".join(f'"{name}":{value}' for name, value in known.items()) + "}"
