"""For the tests of a service: an issuer of tokens, a clock that a test sets, a store in memory.

::

    issuer, clock = svid.testing.Issuer(), svid.testing.Clock()
    validator = svid.Validator(audiences="ledger", bundles=issuer.bundles, clock=clock)
    assert validator.check(issuer.token(aud="ledger")).spiffe_id == issuer.spiffe_id
    with pytest.raises(svid.Expired):
        validator.check(issuer.wrong("expired", aud="ledger"))

Nothing of it belongs into a service that runs.
"""

from __future__ import annotations

import base64
import json
import threading
import time
import uuid
from collections.abc import Callable, Sequence
from typing import Any

from cryptography.hazmat.primitives import hashes
from cryptography.hazmat.primitives.asymmetric import ec, utils

from . import _library as lib
from .stores import WITHDRAWN, Claim, Found

__all__ = ["LIFE", "Clock", "Issuer", "MemoryStore"]

LIFE = 300
"""For how many seconds a token of `Issuer` lives."""


class Clock:
    """A clock that stands still until a test moves it. Call it for the time, as `time.time`."""

    def __init__(self, now: float | None = None) -> None:
        """now: its time in seconds since 1970, by default that of the system's clock."""
        self.now = time.time() if now is None else now

    def __call__(self) -> float:
        """The time, in seconds since 1970."""
        return self.now

    def advance(self, seconds: float) -> None:
        """Moves it ahead."""
        self.now += seconds


class Issuer:
    """Signs tokens of one trust domain, by ES256."""

    def __init__(
        self,
        trust_domain: str = "example.org",
        *,
        path: str = "/workload",
        clock: Callable[[], float] = time.time,
    ) -> None:
        """Makes a key. path: that of the SPIFFE ID in its tokens, unless `sub` is another one."""
        self.trust_domain = trust_domain
        self.spiffe_id = f"spiffe://{trust_domain}{path}"
        self._clock = clock
        self._keys: dict[str, ec.EllipticCurvePrivateKey] = {}
        self.rotate()

    @property
    def bundle(self) -> dict[str, Any]:
        """The bundle of its trust domain, with all its keys."""
        return {"keys": [_entry(key_id, key) for key_id, key in self._keys.items()]}

    @property
    def bundles(self) -> dict[str, dict[str, Any]]:
        """The same, as `Validator` takes it."""
        return {self.trust_domain: self.bundle}

    def rotate(self, *, keep: bool = True) -> None:
        """Makes a new key, which signs from now on. keep: the bundle has the old ones too."""
        if not keep:
            self._keys.clear()
        self._keys[uuid.uuid4().hex] = ec.generate_private_key(ec.SECP256R1())

    def token(self, **claims: Any) -> str:
        """A good token. Each claim that is given replaces one, and None takes it out.

        Without others it has `sub`, `aud` (as "test"), `exp`, `iat` and `jti`.
        """
        key_id, key = list(self._keys.items())[-1]
        return self._signed(key_id, key, claims)

    def wrong(self, how: str, **claims: Any) -> str:
        """A token that is wrong in one way.

        how: "expired", "not_yet", "wrong_audience", "bad_signature", "unknown_key" or "malformed".
        """
        now, other = int(self._clock()), ec.generate_private_key(ec.SECP256R1())
        if how == "expired":
            return self.token(**{**claims, "exp": now - 1})
        if how == "not_yet":
            return self.token(**{**claims, "nbf": now + LIFE // 2})
        if how == "wrong_audience":
            return self.token(**{**claims, "aud": f"not {claims.get('aud')}"})
        if how == "bad_signature":
            return self._signed(list(self._keys)[-1], other, claims)
        if how == "unknown_key":
            return self._signed(uuid.uuid4().hex, other, claims)
        if how == "malformed":
            return self.token(**claims).rpartition(".")[0]
        raise ValueError(f"there is no token that is wrong as {how!r}")

    def _signed(self, key_id: str, key: ec.EllipticCurvePrivateKey, claims: dict[str, Any]) -> str:
        now = int(self._clock())
        usual: dict[str, Any] = {
            "sub": self.spiffe_id,
            "aud": "test",
            "iat": now,
            "exp": now + LIFE,
        }
        given = {**usual, "jti": uuid.uuid4().hex, **claims}
        payload = {name: it for name, it in given.items() if it is not None}
        header = {"alg": "ES256", "kid": key_id, "typ": "JWT"}
        text = ".".join(_b64(json.dumps(it).encode()) for it in (header, payload))
        signature = key.sign(text.encode(), ec.ECDSA(hashes.SHA256()))
        r, s = utils.decode_dss_signature(signature)
        return f"{text}.{_b64(r.to_bytes(32, 'big') + s.to_bytes(32, 'big'))}"


def _entry(key_id: str, key: ec.EllipticCurvePrivateKey) -> dict[str, Any]:
    """The public key as an entry of a bundle."""
    numbers = key.public_key().public_numbers()
    x, y = (_b64(it.to_bytes(32, "big")) for it in (numbers.x, numbers.y))
    return {"use": "jwt-svid", "kid": key_id, "kty": "EC", "crv": "P-256", "x": x, "y": y}


def _b64(data: bytes) -> str:
    return base64.urlsafe_b64encode(data).rstrip(b"=").decode()


class MemoryStore:
    """A store in the memory of one process."""

    def __init__(
        self, *, now: Callable[[], float] = time.time, margin: int = 60, lasts: int = 3600
    ) -> None:
        """Makes an empty store.

        now: its clock, in seconds since 1970.
        margin: for how many seconds an entry stays after its token has expired.
        lasts: how many seconds a token may live that is claimed.
        """
        self._now = now
        self._margin = margin
        self._lasts = lasts
        self._lock = threading.Lock()
        self._entries: dict[bytes, tuple[bytes, int]] = {}
        self._withdrawals: list[tuple[bytes, int]] = []
        self._deaf = 0

    def put(self, claims: Sequence[Claim]) -> list[Found]:
        """As `Store.put`."""
        with self._lock:
            now = int(self._now())
            return [Found(self._put(it, now), now, self._deaf) for it in claims]

    def withdraw(self, key: bytes, expires: int) -> None:
        """As `Store.withdraw`."""
        with self._lock:
            _, earlier = self._entries.get(key, (WITHDRAWN, 0))
            self._entries[key] = WITHDRAWN, max(earlier, self._until(expires))
            self._withdrawals.append((key, expires))

    def withdrawals(self, after: str) -> tuple[list[tuple[bytes, int]], str]:
        """As `TellingStore.withdrawals`."""
        with self._lock:
            known = int(after or 0)
            if known > len(self._withdrawals):  # (they were lost)
                known = 0
            return self._withdrawals[known:], str(len(self._withdrawals) or "")

    def lose(self) -> None:
        """Loses all entries, as a server does that crashes."""
        with self._lock:
            self._entries.clear()
            self._withdrawals.clear()
            time = int(self._now())
            self._deaf = lib.quick.svid_claim_deaf(time, self._lasts, self._deaf)

    def _put(self, claim: Claim, now: int) -> bytes:
        owner, until = self._entries.get(claim.key, (b"", 0))
        if until <= now:
            owner = claim.owner
            self._entries[claim.key] = owner, self._until(claim.expires)
        return owner

    def _until(self, expires: int) -> int:
        until: int = lib.quick.svid_claim_until(expires, self._margin)
        return until
