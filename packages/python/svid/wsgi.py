"""WSGI middleware: lets in requests with a good token, and says in the environ whose it was."""

from __future__ import annotations

from collections.abc import Callable, Iterable
from typing import Any

from ._bearer import Terms
from ._validator import Validator

Environ = dict[str, Any]
StartResponse = Callable[..., Any]
App = Callable[[Environ, StartResponse], Iterable[bytes]]

_OURS = ("svid.spiffe_id", "svid.accepted")


class SvidMiddleware:
    """Checks the bearer token of each request, and calls `app` if it is good.

    There `environ["svid.spiffe_id"]` is the SPIFFE ID of the token's subject, a str, and
    `environ["svid.accepted"]` the `svid.Accepted`. Servers with several threads may use it.

    `reuse`, `open_paths`, `caller` and its answers are those of `svid.asgi.SvidMiddleware`, by the
    environ. Paths are compared with `PATH_INFO`, by which frameworks choose what to call, and not
    with `SCRIPT_NAME`.

    A `Validator` belongs to one process: in the mode "once" a server with several workers accepts a
    token once in each. Run one process with several threads, take the mode "strict", or put the
    sidecar svidd in front of the service: then all workers together accept a token once
    (docs/SIDECAR.md).
    """

    def __init__(
        self,
        app: App,
        validator: Validator,
        *,
        reuse: Iterable[str] | Callable[[Environ], bool] = (),
        open_paths: Iterable[str] = (),
        caller: Callable[[Environ], bytes] | None = None,
    ) -> None:
        self.app = app
        self.terms = Terms(validator, reuse, open_paths, caller)

    def __call__(self, environ: Environ, start_response: StartResponse) -> Iterable[bytes]:
        theirs = {name: it for name, it in environ.items() if name not in _OURS}
        readings = (environ.get("PATH_INFO", ""),)
        if self.terms.is_open(readings):
            return self.app(theirs, start_response)
        given = environ.get("HTTP_AUTHORIZATION")
        values = [] if given is None else [given.encode("latin-1", "replace")]
        who, reuses = self.terms.caller(theirs), self.terms.reuses(theirs, readings)
        admission = self.terms.admit(values, reuses, who)
        if admission.accepted is not None:
            ours = (admission.accepted.spiffe_id, admission.accepted)
            return self.app({**theirs, **dict(zip(_OURS, ours))}, start_response)
        headers, body = admission.answer()
        start_response(f"{admission.status.value} {admission.status.phrase}", headers)
        # (gunicorn sends any body that it gets, and a client takes it for the next answer)
        return [] if environ.get("REQUEST_METHOD") == "HEAD" else [body]
