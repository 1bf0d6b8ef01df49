"""Who may call: patterns, and the middlewares of a validator that has some."""

import asyncio

from wsgiref.util import setup_testing_defaults

import pytest
import svid
import svid.testing
from making import SUBJECT, fresh, token, validator
from svid import asgi, wsgi
from vectors import name_of, read

OTHERS = ("spiffe://example.org/other", "spiffe://example.com")
OURS = ("spiffe://example.com", "spiffe://example.org/billing/*")


@pytest.mark.parametrize("vector", read("patterns")["vectors"], ids=name_of)
def test_vectors(vector):
    def answer():
        try:
            allowed = svid.allows(vector["pattern"], vector["id"])
        except ValueError as why:
            return "no pattern" if "no pattern" in str(why) else "no ID"
        return "allowed" if allowed else "not allowed"

    assert answer() == vector["answer"]


def of_wsgi(checks, **terms):
    """The status of a request, and its challenge, by a WSGI server."""
    said = []

    def app(environ, start_response):
        start_response("200 OK", [])
        return [environ["svid.spiffe_id"].encode()]

    service = wsgi.SvidMiddleware(app, checks, **terms)

    def ask(text, path="/"):
        environ = {"HTTP_AUTHORIZATION": f"Bearer {text}", "PATH_INFO": path, "REMOTE_ADDR": "a"}
        setup_testing_defaults(environ)
        body = b"".join(service(environ, lambda *given: said.append(given)))
        status, headers = said[-1]
        assert (body == SUBJECT.encode()) == status.startswith("200")
        return int(status.split()[0]), dict(headers).get("WWW-Authenticate", "")

    return ask


def of_asgi(checks, **terms):
    """The same by an ASGI server."""

    async def app(scope, receive, send):
        assert scope["spiffe_id"] == SUBJECT
        await send({"type": "http.response.start", "status": 200, "headers": []})

    service = asgi.SvidMiddleware(app, checks, **terms)

    def ask(text, path="/"):
        said = []

        async def send(message):
            said.append(message)

        headers = [(b"authorization", f"Bearer {text}".encode())]
        scope = {"type": "http", "headers": headers, "path": path, "client": ("a", 1)}
        asyncio.run(service(scope, None, send))
        return said[0]["status"], dict(said[0]["headers"]).get(b"www-authenticate", b"").decode()

    return ask


@pytest.mark.parametrize("server", [of_wsgi, of_asgi])
def test_a_caller_that_no_pattern_allows(server):
    with validator(callers=OTHERS) as others, validator(callers=OURS) as ours:
        closed, opened = server(others, reuse=["/again"]), server(ours)
        good = fresh(jti="good")
        not_allowed = 'Bearer error="insufficient_scope", error_description="NotAllowed"'
        assert closed(good) == closed(good) == closed(good, "/again") == (403, not_allowed)
        assert closed(good[:-6] + "AAAAAA")[0] == 401
        assert "NotThreeParts" in closed("a")[1]
        assert "Expired" in closed(token(exp=1))[1]
        many = fresh(jti="many", aud=["ledger", *map(str, range(20))])
        assert closed(many)[0] == 403 and opened(many)[0] == 200
        assert opened(good)[0] == 200
        assert "Replayed" in opened(good)[1]


@pytest.mark.parametrize(
    ("server", "caller"),
    [
        (of_wsgi, lambda environ: environ["REMOTE_ADDR"].encode()),
        (of_asgi, lambda scope: scope["client"][0].encode()),
    ],
)
def test_a_token_is_bound_to_who_sends_the_request(server, caller):
    text = fresh()
    with validator(mode="bound", store=svid.testing.MemoryStore()) as checks:
        for _ in range(2):
            assert server(checks, caller=caller)(text)[0] == 200
        assert "Replayed" in server(checks, caller=lambda _: b"b")(text)[1]


def test_a_websocket_of_a_caller_that_no_pattern_allows():
    said = []

    async def send(message):
        said.append(message)

    with validator(callers=OTHERS) as checks:
        service = asgi.SvidMiddleware(None, checks)
        headers = [(b"authorization", f"Bearer {fresh()}".encode())]
        asyncio.run(service({"type": "websocket", "headers": headers}, None, send))
    assert said == [{"type": "websocket.close", "code": 1008}]
