"""The bearer token of a request (RFC 6750), and on what terms it lets a request in."""

from __future__ import annotations

import asyncio
import json
import time
from collections.abc import Callable, Iterable, Mapping, Sequence
from http import HTTPStatus
from typing import Any, NamedTuple

from . import _library as lib
from ._paths import Paths
from ._validator import Validator
from .errors import Jump, NotAllowed, Refused, TooLong, Unavailable
from .records import Accepted

Reuse = Iterable[str] | Callable[[Any], bool]
"""Paths, or a function of the scope or the environ that says whether a request is one of these."""
Caller = Callable[[Any], bytes] | None
"""A function of the scope or the environ that says who presents the token; `Validator.check`."""


class Admission(NamedTuple):
    """What becomes of a request."""

    accepted: Accepted | None
    """Its token; None where it is not let in."""
    status: HTTPStatus = HTTPStatus.OK
    """The status of the answer where it is not let in."""
    reason: str = ""
    """The word by which its client hears why."""
    error: str = ""
    """The error code of RFC 6750, section 3.1; "" where the client tried no bearer token."""

    def answer(self) -> tuple[list[tuple[str, str]], bytes]:
        """The headers and the body of the answer, as svidd gives them."""
        is_refused = self.status != HTTPStatus.SERVICE_UNAVAILABLE
        said = {"reason": self.reason, "result": "refused" if is_refused else "unavailable"}
        body = json.dumps(said, separators=(",", ":")).encode() + b"\n"
        headers = [
            ("Cache-Control", "no-store"),
            ("Content-Type", "application/json"),
            ("Content-Length", str(len(body))),
        ]
        if not is_refused:
            headers.append(("Retry-After", "1"))
        elif self.error:
            challenge = f'Bearer error="{self.error}", error_description="{self.reason}"'
            headers.append(("WWW-Authenticate", challenge))
        else:
            headers.append(("WWW-Authenticate", 'Bearer realm="svid"'))
        return headers, body


def _refused(reason: str, error: str = "") -> Admission:
    is_allowed = error != "insufficient_scope"
    status = HTTPStatus.UNAUTHORIZED if is_allowed else HTTPStatus.FORBIDDEN
    return Admission(None, status, reason, error)


def _unavailable(reason: str) -> Admission:
    return Admission(None, HTTPStatus.SERVICE_UNAVAILABLE, reason)


_NO_TOKENS = {
    lib.BEARER_SCHEME: _refused("NotBearer"),
    lib.BEARER_SEVERAL: _refused("NotBearer", "invalid_request"),
    lib.BEARER_SPELLING: _refused("NotBearer", "invalid_request"),
}


class Terms:
    """On what terms a middleware lets requests in."""

    def __init__(
        self,
        validator: Validator,
        reuse: Reuse,
        open_paths: Iterable[str],
        caller: Caller,
    ) -> None:
        """Raises ValueError for what is no path."""
        self._validator = validator
        self._reuse: Paths | Callable[[Any], bool]
        self._reuse = reuse if callable(reuse) else Paths(reuse)
        self._open = Paths(open_paths)
        self._caller = caller

    def is_open(self, readings: Sequence[str]) -> bool:
        """Whether a request needs no token, by the ways to read its path."""
        return self._open.has(readings)

    def reuses(self, request: Mapping[str, Any], readings: Sequence[str]) -> bool:
        """Whether a request leaves its token good."""
        if isinstance(self._reuse, Paths):
            return self._reuse.has(readings)
        answer = self._reuse(request)
        if not isinstance(answer, bool):  # (as the coroutine of an async function, which is true)
            kind = type(answer).__name__
            raise TypeError(f"a function for reuse returns True or False, and not a {kind}")
        return answer

    def caller(self, request: Mapping[str, Any]) -> bytes | None:
        """Who sends a request, where that counts."""
        return None if self._caller is None else self._caller(request)

    def admit(
        self,
        authorization: Sequence[bytes],
        reuses: bool,
        caller: bytes | None,
        come: float | None = None,
    ) -> Admission:
        """Checks the one token of a request, by the values of all its headers Authorization.

        come: since when it waits for a thread. Threads are few, and while the store or the disk
            hangs each is busy for as long as a request may wait: requests queue up, and clients
            leave. One that is late by now uses up no token.
        """
        try:
            if come is not None:
                self._validator._in_time(come)
            token = _token(authorization)
            if isinstance(token, Admission):
                return token
            if reuses:
                return Admission(self._validator.judge(token))
            if caller is None:
                return Admission(self._validator.check(token))
            return Admission(self._validator.check(token, caller=caller))
        except NotAllowed:
            return _refused("NotAllowed", "insufficient_scope")
        except Refused as why:
            return _refused(why.name, "invalid_token")
        except Unavailable as why:
            return _unavailable(why.reason)
        except Jump:
            return _unavailable("ClockJump")
        except MemoryError:
            return _unavailable("NoMemory")

    async def admit_soon(
        self, authorization: Sequence[bytes], reuses: bool, caller: bytes | None
    ) -> Admission:
        """Does the same, and lets the event loop go on while the check waits."""
        waits = self._validator.waits and not reuses
        if not waits and not self._validator._looks_first():
            return self.admit(authorization, reuses, caller)
        come = time.monotonic()
        return await asyncio.to_thread(self.admit, authorization, reuses, caller, come)


def _token(authorization: Sequence[bytes]) -> bytes | Admission:
    """The token, or the answer to a request that has not exactly one. Raises TooLong."""
    value = authorization[0] if authorization else b""
    found = lib.Bearer()
    lent = (len(authorization), value, len(value), lib.address(found))
    status = lib.library.svid_bearer_token(*lent)
    if status == lib.TOO_LONG:
        raise TooLong()
    if status != lib.OK:
        return _NO_TOKENS.get(status, _refused("NoToken"))
    return value[found.at : found.at + found.len]
