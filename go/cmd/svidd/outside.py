"""Makes a trust bundle as SPIRE prints one, and tokens by other people's programs.

These are the libraries PyJWT, authlib and python-jose, and the command line tool jose.

Usage: outside.py AUDIENCE EXP. Prints one JSON object: "bundle" is the bundle, "good" the tokens
that must be accepted and "bad" those that must be refused, each with who made it and the refusal
that is due.
"""

import base64
import json
import os
import subprocess
import sys
import tempfile
import time

import jwt
from authlib.jose import JsonWebSignature
from cryptography.hazmat.primitives import serialization
from cryptography.hazmat.primitives.asymmetric import ec, rsa
from cryptography.hazmat.primitives import hashes
from jose import jws as jose_jws

# lists:begin algorithms (written by tools/lists from lists/algorithms.toml)
ALGORITHMS = ["RS256", "RS384", "RS512", "ES256", "ES384", "ES512", "PS256", "PS384", "PS512"]
# lists:end
CURVES = {"ES256": ec.SECP256R1(), "ES384": ec.SECP384R1(), "ES512": ec.SECP521R1()}
DOMAIN = "example.org"


def encode(data):
    return base64.urlsafe_b64encode(data).rstrip(b"=").decode()


def number(value, size=None):
    return encode(value.to_bytes(size or (value.bit_length() + 7) // 8, "big"))


def jwk(name, key):
    """The public key as SPIRE's bundle has it."""
    public = key.public_key().public_numbers()
    if isinstance(key, rsa.RSAPrivateKey):
        return {
            "use": "jwt-svid",
            "kty": "RSA",
            "kid": name,
            "n": number(public.n),
            "e": number(public.e),
        }
    size = (key.curve.key_size + 7) // 8
    curve = {256: "P-256", 384: "P-384", 521: "P-521"}[key.curve.key_size]
    return {
        "use": "jwt-svid",
        "kty": "EC",
        "kid": name,
        "crv": curve,
        "x": number(public.x, size),
        "y": number(public.y, size),
    }


def pem(key):
    return key.private_bytes(
        serialization.Encoding.PEM, serialization.PrivateFormat.PKCS8, serialization.NoEncryption()
    )


def by_pyjwt(claims, key, name, algorithm):
    return jwt.encode(claims, pem(key), algorithm=algorithm, headers={"kid": name})


def by_authlib(claims, key, name, algorithm):
    header = {"alg": algorithm, "kid": name, "typ": "JWT"}
    return (
        JsonWebSignature().serialize_compact(header, json.dumps(claims).encode(), pem(key)).decode()
    )


def by_jose(claims, key, name, algorithm):
    return jose_jws.sign(claims, pem(key).decode(), headers={"kid": name}, algorithm=algorithm)


# python-jose has no PS algorithms.
MAKERS = {
    "PyJWT": (by_pyjwt, "REP"),
    "authlib": (by_authlib, "REP"),
    "python-jose": (by_jose, "RE"),
}


def jose_tool(*words, stdin=None):
    """What the command line tool jose says."""
    return subprocess.run(
        ["jose", *words], input=stdin, capture_output=True, text=True, check=True
    ).stdout.strip()


def by_jose_tool(claims, folder):
    """Bundle entries and tokens that the tool jose makes.

    Its keys are its own: one of RSA without an alg, and those of EC with one.
    """
    keys = {"RSA": {"kty": "RSA", "bits": 2048}, **{a: {"alg": a} for a in CURVES}}
    entries, tokens = [], []
    for name, template in keys.items():
        file = os.path.join(folder, name)
        template["kid"] = "jose-" + name
        jose_tool("jwk", "gen", "-i", json.dumps(template), "-o", file)
        entries.append({"use": "jwt-svid", **json.loads(jose_tool("jwk", "pub", "-i", file))})
        for algorithm in [name] if name in CURVES else [a for a in ALGORITHMS if a not in CURVES]:
            header = {"protected": {"alg": algorithm, "kid": "jose-" + name, "typ": "JWT"}}
            payload = json.dumps(claims(f"jose-{algorithm}"))
            token = jose_tool(
                "jws", "sig", "-I", "-", "-k", file, "-s", json.dumps(header), "-c", stdin=payload
            )
            tokens.append({"by": f"jose {algorithm}", "token": token})
    return entries, tokens


def der_signed(claims, key):
    """A token whose ES256 signature is written as DER, which JWS forbids."""
    signed = (
        encode(json.dumps({"alg": "ES256", "kid": "ES256"}).encode())
        + "."
        + encode(json.dumps(claims).encode())
    )
    return signed + "." + encode(key.sign(signed.encode(), ec.ECDSA(hashes.SHA256())))


def main():
    audience, exp = sys.argv[1], int(sys.argv[2])
    one_rsa = rsa.generate_private_key(public_exponent=65537, key_size=2048)
    keys = {a: ec.generate_private_key(CURVES[a]) if a in CURVES else one_rsa for a in ALGORITHMS}
    entries = [
        {"use": "x509-svid", "kty": "EC", "crv": "P-256", "x": "AA", "y": "AA", "x5c": ["AAAA"]}
    ]
    entries += [jwk(a, keys[a]) for a in ALGORITHMS]

    def claims(identity):
        return {
            "sub": f"spiffe://{DOMAIN}/{identity}",
            "aud": [audience],
            "exp": exp,
            "iat": exp - 60,
            "jti": identity,
        }

    good, bad = [], []
    for maker, (make, kinds) in MAKERS.items():
        for algorithm in ALGORITHMS:
            if algorithm[0] in kinds:
                token = make(claims(f"{maker}-{algorithm}"), keys[algorithm], algorithm, algorithm)
                good.append({"by": f"{maker} {algorithm}", "token": token})
    with tempfile.TemporaryDirectory() as folder:
        more_entries, more_tokens = by_jose_tool(claims, folder)
    entries += more_entries
    good += more_tokens
    one = claims("bad")
    public = (
        keys["RS256"]
        .public_key()
        .public_bytes(serialization.Encoding.PEM, serialization.PublicFormat.SubjectPublicKeyInfo)
    )
    stranger = ec.generate_private_key(CURVES["ES256"])
    bad.append(
        {
            "by": "PyJWT none",
            "due": "Alg",
            "token": jwt.encode(one, None, algorithm="none", headers={"kid": "RS256"}),
        }
    )
    confused = jwt.api_jws.PyJWS()
    confused._algorithms["HS256"].prepare_key = lambda key: key  # the public key as the secret
    bad.append(
        {
            "by": "PyJWT HS256",
            "due": "Alg",
            "token": confused.encode(json.dumps(one).encode(), public, "HS256", {"kid": "RS256"}),
        }
    )
    bad.append(
        {
            "by": "PyJWT time.time()",
            "due": "Exp",
            "token": by_pyjwt(one | {"exp": time.time() + 300}, keys["ES256"], "ES256", "ES256"),
        }
    )
    bad.append(
        {
            "by": "PyJWT another key",
            "due": "BadSignature",
            "token": by_pyjwt(one, stranger, "ES256", "ES256"),
        }
    )
    bad.append(
        {
            "by": "PyJWT another kid",
            "due": "NoKey",
            "token": by_pyjwt(one, keys["ES256"], "nobody", "ES256"),
        }
    )
    bad.append(
        {
            "by": "PyJWT another algorithm",
            "due": "BadSignature",
            "token": by_pyjwt(one, keys["ES256"], "ES384", "ES256"),
        }
    )
    bad.append(
        {"by": "a DER signature", "due": "BadSignature", "token": der_signed(one, keys["ES256"])}
    )
    bad.append(
        {
            "by": "PyJWT no audience of ours",
            "due": "NotAudience",
            "token": by_pyjwt(dict(one, aud="other"), keys["ES256"], "ES256", "ES256"),
        }
    )
    bad.append(
        {
            "by": "PyJWT expired",
            "due": "Expired",
            "token": by_pyjwt(dict(one, exp=exp - 7200), keys["ES256"], "ES256", "ES256"),
        }
    )
    bad.append(
        {
            "by": "PyJWT a fraction",
            "due": "Exp",
            "token": by_pyjwt(dict(one, exp=exp + 0.5), keys["ES256"], "ES256", "ES256"),
        }
    )
    json.dump(
        {
            "bundle": {"keys": entries, "spiffe_sequence": 1, "spiffe_refresh_hint": 300},
            "good": good,
            "bad": bad,
        },
        sys.stdout,
    )


main()
