"""ASGI middleware: lets in requests with a good token, and says in the scope whose it was."""

from __future__ import annotations

from collections.abc import Awaitable, Callable, Iterable, MutableMapping
from http import HTTPStatus
from typing import Any

from ._bearer import Terms
from ._validator import Validator

Scope = MutableMapping[str, Any]
Message = MutableMapping[str, Any]
Receive = Callable[[], Awaitable[Message]]
Send = Callable[[Message], Awaitable[None]]
App = Callable[[Scope, Receive, Send], Awaitable[None]]

_OURS = ("spiffe_id", "svid.accepted")


class SvidMiddleware:
    """Checks the bearer token of each request and each websocket, and calls `app` if it is good.

    There `scope["spiffe_id"]` is the SPIFFE ID of the token's subject, a str, and
    `scope["svid.accepted"]` the `svid.Accepted`. Any other websocket is closed before it is
    accepted, and any other request is answered as svidd does (docs/SIDECAR-REFERENCE.md): with
    status 401 for a refusal, 403 for a good token of who may not call, and 503 without an answer
    about the token. A check runs on the event loop: it takes little more than to verify one
    signature. A check that waits for a disk or a store runs in a thread.

    `reuse` are paths where a token is checked, and stays good: it may come again, there and once
    elsewhere. It is refused there, too, once it was used elsewhere in this process. No store is
    asked there, and in mode "bound" a token is good there whoever sends it (`Validator.judge`). It
    may also be a function of the scope that returns True or False, as
    `lambda scope: scope.get("method") == "GET"`.

    `open_paths` are paths that need no token, as those of health checks. There the scope has no
    SPIFFE ID and no acceptance, whatever stood in it, and a token is not looked at.

    "/healthz" is that path alone, and "/static/*" is each path below "/static". What the server and
    the framework may read in two ways is on no list: escapes, empty segments, "." and "..". Under
    a `root_path` a path is listed both with it and without it, since frameworks differ in that.

    `caller` is a function of the scope that returns bytes which tell who presents the token, as
    the client's address. A validator in the mode "bound" needs it.

    Raises ValueError for what is no path.

    A `Validator` belongs to one process: in the mode "once" a server with several workers accepts a
    token once in each. Run one process with several threads, take the mode "strict", or put the
    sidecar svidd in front of the service: then all workers together accept a token once
    (docs/SIDECAR.md).
    """

    def __init__(
        self,
        app: App,
        validator: Validator,
        *,
        reuse: Iterable[str] | Callable[[Scope], bool] = (),
        open_paths: Iterable[str] = (),
        caller: Callable[[Scope], bytes] | None = None,
    ) -> None:
        self.app = app
        self.terms = Terms(validator, reuse, open_paths, caller)

    async def __call__(self, scope: Scope, receive: Receive, send: Send) -> None:
        if scope["type"] == "lifespan":
            return await self.app(scope, receive, send)
        theirs = {name: it for name, it in scope.items() if name not in _OURS}
        readings = _readings(scope)
        if self.terms.is_open(readings):
            return await self.app(theirs, receive, send)
        given = [value for name, value in scope["headers"] if name.lower() == b"authorization"]
        who, reuses = self.terms.caller(theirs), self.terms.reuses(theirs, readings)
        admission = await self.terms.admit_soon(given, reuses, who)
        if admission.accepted is not None:
            ours = (admission.accepted.spiffe_id, admission.accepted)
            await self.app({**theirs, **dict(zip(_OURS, ours))}, receive, send)
        elif scope["type"] == "websocket":
            code = 1013 if admission.status == HTTPStatus.SERVICE_UNAVAILABLE else 1008
            await send({"type": "websocket.close", "code": code})
        else:
            headers, body = admission.answer()
            start = {"type": "http.response.start", "status": int(admission.status)}
            sent = [(name.lower().encode(), value.encode()) for name, value in headers]
            await send({**start, "headers": sent})
            await send({"type": "http.response.body", "body": body})


def _readings(scope: Scope) -> tuple[str, ...]:
    """The path, in each way that a framework may read it; none where one may read it undecoded."""
    if b"%" in (scope.get("raw_path") or b"").partition(b"?")[0]:
        return ()
    path, root = scope.get("path", ""), scope.get("root_path", "").rstrip("/")
    if root and path.startswith(root):
        return path, path[len(root) :]
    return (path,)
