"""A web service by Starlette that knows who calls it: the SPIFFE ID of the bearer token.

    SVID_BUNDLES=bundles uvicorn starlette_app:app

Run one process: each would accept a token once. Where SVID_STATE names a folder, that keeps the
record over restarts.
"""

from __future__ import annotations

import os

from starlette.applications import Starlette
from starlette.middleware import Middleware
from starlette.requests import Request
from starlette.responses import PlainTextResponse
from starlette.routing import Route

import svid
from svid.asgi import SvidMiddleware

bundles, state = os.environ["SVID_BUNDLES"], os.environ.get("SVID_STATE")
validator = svid.Validator(audiences="ledger", bundles=bundles, longest=3600, state=state)


async def hello(request: Request) -> PlainTextResponse:
    return PlainTextResponse(f"hello {request.scope['spiffe_id']}")


async def health(_: Request) -> PlainTextResponse:
    """Whether this process answers. (Who asks that has no token.)"""
    return PlainTextResponse("ready")


async def ready(_: Request) -> PlainTextResponse:
    """Whether a load balancer is to send tokens to this process, and why not."""
    why = validator.unready()
    return PlainTextResponse(why or "ready", 503 if why else 200)


app = Starlette(
    routes=[Route("/", hello), Route("/healthz", health), Route("/readyz", ready)],
    middleware=[
        Middleware(SvidMiddleware, validator=validator, open_paths=["/healthz", "/readyz"])
    ],
)
