"""Writes what live.c, live.py and packages/rust/src/bin/live run on: new keys, tokens that they sign, and the answers that are due.

Usage: tokens.py FOLDER. Writes bundles.json, renewed.json (the bundles as they are later), tokens.txt (a name and a token a line), and
due.txt, the lines that live.py prints, sorted. Needs the packages `cryptography` and `jwt` (PyJWT), which signs."""
import itertools
import json
import pathlib
import sys
import jwt
from cryptography.hazmat.primitives import hashes
from cryptography.hazmat.primitives.asymmetric import ec, padding, rsa, utils
from jwt.utils import base64url_decode, base64url_encode

# lists:begin algorithms (written by tools/lists from lists/algorithms.toml)
ALGORITHMS = ["RS256", "RS384", "RS512", "ES256", "ES384", "ES512", "PS256", "PS384", "PS512"]
# lists:end
THREADS = 8
ID = "spiffe://example.org/web"


def text(number, size=None):
    return base64url_encode(number.to_bytes(size or (number.bit_length() + 7) // 8, "big")).decode()


def entry(kid, private, **more):
    """The entry of a bundle for a key."""
    public = private.public_key().public_numbers()
    if isinstance(private, rsa.RSAPrivateKey):
        return {"kty": "RSA", "use": "jwt-svid", "kid": kid, "n": text(public.n), "e": text(public.e), **more}
    size = (private.curve.key_size + 7) // 8
    curve = f"P-{private.curve.key_size}"
    return {"kty": "EC", "use": "jwt-svid", "kid": kid, "crv": curve, "x": text(public.x, size), "y": text(public.y, size), **more}


def signed(private, alg, kid, jti):
    claims = {"sub": ID, "aud": ["ledger"], "exp": 1_767_225_900, "jti": jti}
    return jwt.encode(claims, private, algorithm=alg, headers={"kid": kid} if kid else None)


def resigned(token, change):
    """The token with another signature, by its own and by what it signs."""
    text, _, signature = token.rpartition(".")
    return f"{text}.{base64url_encode(change(base64url_decode(signature), text.encode())).decode()}"


def found(makes, fits):
    """The first token that fits, of those with the numbers from 0."""
    return next(token for token in map(makes, itertools.count()) if fits(base64url_decode(token.rpartition(".")[2])))


def as_der(raw, _):
    return utils.encode_dss_signature(int.from_bytes(raw[:32], "big"), int.from_bytes(raw[32:], "big"))


def main(folder):
    curves = {"ES256": ec.SECP256R1(), "ES384": ec.SECP384R1(), "ES512": ec.SECP521R1()}
    of = {kid: ec.generate_private_key(curves.get(kid, ec.SECP256R1())) for kid in ("ES256", "ES384", "third", "ES512", "fifth")}
    of["RSA"], of["weak"], of["long"] = (rsa.generate_private_key(65537, bits) for bits in (2048, 1024, 4104))
    new = ec.generate_private_key(ec.SECP256R1())
    off = entry("off", of["ES256"])
    off["y"] = off["x"]
    keys = [entry(kid, private) for kid, private in of.items()] + [entry("PS256", of["RSA"], alg="PS256"), off, entry("named", of["ES256"], crv="P-384")]
    bundles = {"example.org": {"keys": keys}}
    renewed = {"example.org": {"keys": [keys[0], entry("new", new)]}}

    es256 = signed(of["ES256"], "ES256", "ES256", "es256")
    ps256 = signed(of["RSA"], "PS256", "RSA", "ps256")
    sha256, rsa_key = hashes.SHA256(), of["RSA"]
    good, bad, no_key = "SVID_OK", "SVID_BAD_SIGNATURE", "SVID_NO_KEY"
    # A token, and the answers by the bundles and by the renewed ones, to a validator that has not seen it.
    cases = [("ES256", es256, good, good)]
    for alg in (it for it in ALGORITHMS if it != "ES256"):
        kid = alg if alg in curves else "RSA"
        cases.append((alg, signed(of[kid], alg, kid, alg), good, no_key))
    cases += [
        ("no-kid", signed(of["ES256"], "ES256", None, "no-kid"), good, good),
        # (of the keys of a token without a kid the first three are tried)
        ("no-kid-third", signed(of["third"], "ES256", None, "no-kid-third"), good, bad),
        ("no-kid-fifth", signed(of["fifth"], "ES256", None, "no-kid-fifth"), bad, bad),
        ("fifth", signed(of["fifth"], "ES256", "fifth", "fifth"), good, no_key),
        ("unknown-key", signed(new, "ES256", "new", "unknown-key"), no_key, good),
        ("stranger", signed(new, "ES256", "ES256", "stranger"), bad, bad),
        ("broken", resigned(es256, lambda raw, _: bytes([raw[0] ^ 1]) + raw[1:]), bad, bad),
        ("short", resigned(es256, lambda raw, _: raw[:-1]), bad, bad),
        ("one-more", resigned(es256, lambda raw, _: raw + b"\0"), bad, bad),
        ("one-between", resigned(es256, lambda raw, _: raw[:32] + b"\0" + raw[32:]), bad, bad),
        ("one-in-front", resigned(es256, lambda raw, _: b"\0" + raw), bad, bad),
        ("huge", resigned(es256, lambda raw, _: raw * 40), bad, bad),
        ("zero", resigned(es256, lambda raw, _: bytes(64)), bad, bad),
        ("der", resigned(es256, as_der), bad, bad),
        ("old-padding", resigned(ps256, lambda _, text: rsa_key.sign(text, padding.PKCS1v15(), sha256)), bad, no_key),
        ("long-salt", resigned(ps256, lambda _, text: rsa_key.sign(text, padding.PSS(padding.MGF1(sha256), 64), sha256)), bad, no_key),
        ("other-alg", signed(of["RSA"], "RS256", "PS256", "other-alg"), bad, no_key),
        ("its-alg", signed(of["RSA"], "PS256", "PS256", "its-alg"), good, no_key),
        ("weak", signed(of["weak"], "RS256", "weak", "weak"), bad, no_key),
        ("long", signed(of["long"], "RS256", "long", "long"), bad, no_key),
        ("off-curve", signed(of["ES256"], "ES256", "off", "off-curve"), bad, no_key),
        ("other-curve", signed(of["ES256"], "ES256", "named", "other-curve"), bad, no_key),
    ]
    # Other numbers and other spellings of good RSA signatures (RFC 8017, sections 5.2.2, 8.1.2 and 8.2.2).
    modulus = rsa_key.public_key().public_numbers().n
    more = lambda raw: int.from_bytes(raw, "big") + modulus
    for alg in ("RS256", "PS256"):
        fits = found(lambda at: signed(rsa_key, alg, "RSA", f"{alg} more {at}"), lambda raw: more(raw).bit_length() <= 2048)
        zero = found(lambda at: signed(rsa_key, alg, "RSA", f"{alg} zero {at}"), lambda raw: raw[0] == 0)
        cases += [(f"modulus-more-{alg}", resigned(fits, lambda raw, _: more(raw).to_bytes(256, "big")), bad, no_key)]
        cases += [(f"zero-in-front-{alg}", resigned(zero, lambda raw, _: b"\0" + raw), bad, no_key)]
        cases += [(f"zero-left-out-{alg}", resigned(zero, lambda raw, _: raw[1:]), bad, no_key)]
    due = []
    for name, _, first, later in cases:
        again = "SVID_REPLAYED" if first == good else first
        due += [f"a: {name}: {first}{f' {ID}' if first == good else ''}"] + [f"a: {name}: {again}"] * (THREADS - 1)
        due += [f"b, told by a: {name}: {again}", f"b, milliseconds: {name}: SVID_JUMP", f"a, closed: {name}: SVID_CLOSED"]
        due += [f"b, no bundles: {name}: SVID_UNKNOWN_DOMAIN"]
        due += [f"a, told by b: {name}: " + ("SVID_REPLAYED" if later == good else later)]
        due += [f"b, renewed: {name}: " + ("SVID_REPLAYED" if first == later == good else f"{later} {ID}" if later == good else later)]
    folder = pathlib.Path(folder)
    (folder / "bundles.json").write_text(json.dumps(bundles))
    (folder / "renewed.json").write_text(json.dumps(renewed))
    (folder / "tokens.txt").write_text("".join(f"{name} {token}\n" for name, token, *_ in cases))
    (folder / "due.txt").write_text("".join(f"{line}\n" for line in sorted(due)))


if __name__ == "__main__":
    main(sys.argv[1])
