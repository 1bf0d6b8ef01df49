"""Times one `Validator.check` beside `jwt.decode` of PyJWT with a set of used `jti`s.

    /usr/bin/python3 packages/python/bench.py [TOKENS [ROUNDS]]

LIBSVID names libsvid.so (tools/dist shared FILE makes it). Both sides get the same tokens, in
turns, and each has a round's least time of the processor. PyJWT is handed the right key at once,
so it looks for none. Without signatures, `check` is given a verifier that says yes, and PyJWT is
made not to verify.
"""

import base64
import sys
import time
import uuid

import jwt
from cryptography.hazmat.primitives.asymmetric import ec, rsa

import svid

AUDIENCE = "ledger"
ALGORITHMS = ("ES256", "RS256")


def member(number, size):
    return base64.urlsafe_b64encode(number.to_bytes(size, "big")).rstrip(b"=").decode()


def entry(kid, key):
    """The public key as an entry of a bundle."""
    numbers = key.public_key().public_numbers()
    if isinstance(key, rsa.RSAPrivateKey):
        kind = {"kty": "RSA", "n": member(numbers.n, 256), "e": "AQAB"}
    else:
        x, y = member(numbers.x, 32), member(numbers.y, 32)
        kind = {"kty": "EC", "crv": "P-256", "x": x, "y": y}
    return {"use": "jwt-svid", "kid": kid, **kind}


def token(alg, key):
    claims = {"sub": "spiffe://example.org/billing/api", "aud": [AUDIENCE]}
    claims |= {"exp": int(time.time()) + 3600, "jti": str(uuid.uuid4())}
    return jwt.encode(claims, key, alg, headers={"kid": alg})


def by_svid(tokens, bundles, verifies):
    """Seconds of the processor for checking all tokens by this package."""
    with svid.Validator(audiences=[AUDIENCE], bundles=bundles, verifies=verifies) as validator:
        begun = time.process_time()
        for it in tokens:
            validator.check(it)
        return time.process_time() - begun


def by_pyjwt(tokens, alg, key, verifies):
    """The same by PyJWT, with a set of the `jti`s that were used."""
    options = {"require": ["exp", "aud", "sub"]}
    if not verifies:
        options |= {"verify_signature": False, "verify_exp": True, "verify_aud": True}
    used = set()
    begun = time.process_time()
    for it in tokens:
        jti = jwt.decode(it, key, algorithms=[alg], audience=AUDIENCE, options=options)["jti"]
        if jti in used:
            raise ValueError("replayed")
        used.add(jti)
    return time.process_time() - begun


def main(count=2000, rounds=7):
    keys = {"ES256": ec.generate_private_key(ec.SECP256R1())}
    keys["RS256"] = rsa.generate_private_key(65537, 2048)
    bundles = {"example.org": {"keys": [entry(alg, key) for alg, key in keys.items()]}}
    print("| tokens | signatures | svid, a second | PyJWT, a second | time, svid by PyJWT |")
    print("|---|---|--:|--:|--:|")
    for alg, key in keys.items():
        tokens = [token(alg, key) for _ in range(count)]
        for verified in (False, True):
            ours, theirs = [], []
            for _ in range(rounds):
                ours.append(by_svid(tokens, bundles, None if verified else lambda *_: True))
                theirs.append(by_pyjwt(tokens, alg, key.public_key(), verified))
            row = (alg, "verified" if verified else "not verified")
            rates = (count / min(ours), count / min(theirs), min(ours) / min(theirs))
            print("| {} | {} | {:,.0f} | {:,.0f} | {:.2f} |".format(*row, *rates))


if __name__ == "__main__":
    main(*map(int, sys.argv[1:]))
