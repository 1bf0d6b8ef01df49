"""The same with PyJWT: an ASGI application that accepts each ES256 token once.

It keeps what it accepted in a set. BUNDLE and AUDIENCE come from the environment. One process
alone, since the set is shared with no other.
"""

import json
import os

import jwt

with open(os.environ["BUNDLE"], encoding="utf-8") as file:
    KEYS = {
        key["kid"]: jwt.PyJWK(key, algorithm="ES256").key
        for key in json.load(file)["keys"]
        if key.get("crv") == "P-256"
    }
AUDIENCE = os.environ["AUDIENCE"]
used = set()


def status(headers):
    """The HTTP status for a request with these headers."""
    token = dict(headers).get(b"authorization", b"").removeprefix(b"Bearer ").decode()
    try:
        key = KEYS[jwt.get_unverified_header(token)["kid"]]
        claims = jwt.decode(
            token,
            key,
            algorithms=["ES256"],
            audience=AUDIENCE,
            options={"require": ["exp", "sub", "jti"]},
        )
    except (jwt.InvalidTokenError, KeyError):
        return 401
    if claims["jti"] in used or not claims["sub"].startswith("spiffe://example.org/"):
        return 401
    used.add(claims["jti"])
    return 200


async def app(scope, receive, send):
    """The application."""
    if scope["type"] != "http":
        return
    await send({"type": "http.response.start", "status": status(scope["headers"]), "headers": []})
    await send({"type": "http.response.body", "body": b""})
