"""Which keys may have signed a token, and which of them did: docs/FORMATS.md, "Bundles", "Candidates" and "Question"."""

import json

from cryptography.hazmat.primitives.asymmetric import ec

from . import crypto, formats

# The type of the keys of an algorithm, by its first two letters.
# lists:begin ktys (written by tools/lists from lists/algorithms.toml)
KTY = {"RS": "RSA", "ES": "EC", "PS": "RSA"}
# lists:end


def yes(bundles, token):
    """The questions of a token whose answer is yes. `bundles` is an object of trust domains, as JSON."""
    try:
        domains = json.loads(bundles)
        head, payload, signature = token.split(".")
        header, claims = json.loads(crypto.unb64(head)), json.loads(crypto.unb64(payload))
        domain = claims["sub"].removeprefix("spiffe://").partition("/")[0]
        keys, alg = domains[domain]["keys"], header["alg"]
        signature = crypto.unb64(signature)
    except (ValueError, KeyError, TypeError, AttributeError):
        return []
    signed = token.rpartition(".")[0]
    return [
        formats.question(domain, json.dumps(key), alg, token)
        for key in (keys if isinstance(keys, list) else [])
        if alg in crypto.ALGORITHMS and is_candidate(key, header, alg) and made(key, alg, signed, signature)
    ]


def is_candidate(key, header, alg):
    return (
        isinstance(key, dict)
        and key.get("use") == "jwt-svid"
        and isinstance(key.get("kid"), str)
        and key.get("kty") == KTY[alg[:2]]
        and header.get("kid", key["kid"]) == key["kid"]
    )


def made(key, alg, signed, signature):
    """Whether `cryptography` takes the key, and says that it made the signature."""
    try:
        return public(key, alg).made(alg, signed, signature)
    except (ValueError, KeyError, TypeError):
        return False


def public(key, alg):
    if alg[0] != "E":
        return crypto.RSA([member(key, "n")], member(key, "e"))
    curve = crypto.CURVE_OF[alg]
    if key["crv"] != curve.name:
        raise ValueError("another curve")
    found = crypto.EC.__new__(crypto.EC)
    found.curve, found.public = curve, ec.EllipticCurvePublicNumbers(member(key, "x"), member(key, "y"), curve.curve)
    found.public.public_key()
    return found


def member(key, name):
    return int.from_bytes(crypto.unb64(key[name]), "big")
