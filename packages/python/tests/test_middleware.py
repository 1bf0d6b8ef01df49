"""The middlewares, by the examples, each with a client of its own."""

import asyncio
import concurrent.futures
import errno
import functools
import http.client
import importlib.util
import json
import os
import pathlib
import socket
import subprocess
import sys
import threading

import pytest
from making import (
    NOW,
    PATIENCE,
    answering,
    bundle,
    entry,
    fresh,
    patient,
    private_key,
    token,
    until,
    validator,
)
from starlette.applications import Starlette
from starlette.responses import PlainTextResponse
from starlette.routing import Route, WebSocketRoute
from starlette.testclient import TestClient
from starlette.websockets import WebSocketDisconnect

import svid
import svid.testing
from svid.asgi import SvidMiddleware
from svid.wsgi import SvidMiddleware as WsgiMiddleware

EXAMPLES = pathlib.Path(__file__).parent.parent / "examples"
HELLO = "hello spiffe://example.org/billing/api"


@pytest.fixture
def bundles(tmp_path, monkeypatch):
    path = tmp_path / "bundles.json"
    path.write_text(json.dumps(bundle(entry(private_key("ES256"), "k1"))))
    monkeypatch.setenv("SVID_BUNDLES", str(path))


REFUSED = [
    ({}, "NoToken"),
    ({"Authorization": ""}, "NotBearer"),
    ({"Authorization": "Basic YTpi"}, "NotBearer"),
    ({"Authorization": "Bearer"}, "NotBearer"),
    ({"Authorization": "Bearer a,Bearer b"}, "NotBearer"),
    ({"Authorization": "Bearer a"}, "NotThreeParts"),
    ({"Authorization": "Bearer " + token(exp=1)}, "Expired"),
    ({"Authorization": "Bearer \x80.\xff.\xfe"}, "NotBearer"),
    ({"Authorization": "Bearer =.a.b"}, "NotBearer"),
    ({"Authorization": "Bearer ~.a.b"}, "HeaderSpelling"),
]


def challenge(name, tried=False):
    """What the header WWW-Authenticate says of a refusal, or of no bearer token."""
    if name in ("NoToken", "NotBearer") and not tried:
        return 'Bearer realm="svid"'
    error = "invalid_request" if name == "NotBearer" else "invalid_token"
    return f'Bearer error="{error}", error_description="{name}"'


def refusal(name):
    """The body of an answer that refuses."""
    return f'{{"reason":"{name}","result":"refused"}}\n'


UNAVAILABLE = [
    ("Cache-Control", "no-store"),
    ("Content-Type", "application/json"),
    ("Content-Length", "44"),
    ("Retry-After", "1"),
]


def load(name):
    """An example, as a module."""
    spec = importlib.util.spec_from_file_location(name, EXAMPLES / f"{name}.py")
    module = importlib.util.module_from_spec(spec)
    spec.loader.exec_module(module)
    return module


@pytest.mark.parametrize("keeps", [False, True])
def test_starlette(bundles, keeps, tmp_path, monkeypatch):
    if keeps:
        monkeypatch.setenv("SVID_STATE", str(tmp_path / "state"))
    monkeypatch.setattr(svid, "Validator", functools.partial(svid.Validator, wait=PATIENCE))
    with TestClient(load("starlette_app").app) as client:
        assert client.get("/healthz").text == client.get("/readyz").text == "ready"
        made = "bearer " + fresh(jti="1")
        answer = client.get("/", headers={"Authorization": made})
        assert (answer.status_code, answer.text) == (200, HELLO)
        answer = client.get("/", headers={"Authorization": made})
        assert answer.headers["WWW-Authenticate"] == challenge("Replayed")
        for headers, name in REFUSED:
            tried = headers.get("Authorization", "").startswith("Bearer")
            answer = client.get("/", headers={k: v.encode("latin-1") for k, v in headers.items()})
            assert (answer.status_code, answer.text) == (401, refusal(name))
            assert answer.headers["WWW-Authenticate"] == challenge(name, tried)


@pytest.fixture
def server(bundles, tmp_path):
    """The port of the example by wsgiref."""
    words = [sys.executable, EXAMPLES / "wsgiref_app.py", "0"]
    pipes = {"stdout": subprocess.PIPE, "stderr": subprocess.DEVNULL}
    with subprocess.Popen(words, env=patient(tmp_path), **pipes) as served:
        try:
            with answering(served, "the example"):
                port = int(served.stdout.readline().split()[-1])
            yield port
        finally:
            served.kill()


def test_wsgiref(server):
    def get(headers):
        connection = http.client.HTTPConnection("127.0.0.1", server, timeout=PATIENCE)
        connection.request("GET", "/", headers=headers)
        answer = connection.getresponse()
        return answer.status, answer.read().decode(), answer.getheader("WWW-Authenticate")

    made = {"Authorization": "Bearer " + fresh(jti="1")}
    assert get(made) == (200, HELLO, None)
    assert get(made) == (401, refusal("Replayed"), challenge("Replayed"))
    for headers, name in REFUSED:
        tried = headers.get("Authorization", "").startswith("Bearer")
        assert get(headers) == (401, refusal(name), challenge(name, tried))
    # A body would be read as the next answer of a connection, which may be that of another client.
    with socket.create_connection(("127.0.0.1", server), PATIENCE) as line, line.makefile() as said:
        line.sendall(b"HEAD / HTTP/1.0\r\n\r\n")
        fields, _, body = said.read().partition("\n\n")
        assert "Content-Length: 40" in fields and body == ""


def test_websockets():
    async def greet(websocket):
        await websocket.accept()
        await websocket.send_text("hello " + websocket.scope["spiffe_id"])
        await websocket.close()

    with validator() as checks:
        app = SvidMiddleware(Starlette(routes=[WebSocketRoute("/", greet)]), checks)
        client = TestClient(app)
        made = {"Authorization": "Bearer " + fresh()}
        with client.websocket_connect("/", headers=made) as websocket:
            assert websocket.receive_text() == HELLO
        with pytest.raises(WebSocketDisconnect), client.websocket_connect("/", headers=made):
            pass


def run(app, scope):
    """What an ASGI app sends."""
    sent = []

    async def send(message):
        sent.append(message)

    asyncio.run(app(scope, None, send))
    return sent


def test_two_tokens_in_one_request_are_none():
    made = [(b"Authorization", b"Bearer " + fresh(jti=it).encode()) for it in "12"]
    with validator() as checks:
        sent = run(SvidMiddleware(None, checks), {"type": "http", "headers": made})
        assert sent[0]["status"] == 401
        assert checks.report().uses == ()


@pytest.mark.parametrize("between", [",", ", ", ",Bearer ", ", Bearer ", " ", " Bearer "])
def test_two_tokens_in_one_header_are_none(between):
    """As a server joins two headers, and as a client may write them."""
    made = f"Bearer {fresh(jti='1')}{between}{fresh(jti='2')}"
    with validator() as checks:
        headers = [(b"authorization", made.encode())]
        sent = run(SvidMiddleware(None, checks), {"type": "http", "headers": headers})
        assert sent[0]["status"] == 401
        said = []
        WsgiMiddleware(None, checks)({"HTTP_AUTHORIZATION": made}, lambda *it: said.append(it))
        assert [status for status, _ in said] == ["401 Unauthorized"]
        assert checks.report().uses == ()


def test_an_id_that_was_there_before_is_replaced():
    """A server or another middleware may have put it there, by whatever the caller said."""
    seen, other = [], "spiffe://example.org/root"

    async def app(scope, receive, send):
        seen.append(scope["spiffe_id"])

    def wsgi(environ, start_response):
        seen.append(environ["svid.spiffe_id"])
        return []

    with validator() as checks:
        headers = [(b"authorization", b"Bearer " + fresh(jti="1").encode())]
        scope = {"type": "http", "headers": headers, "spiffe_id": other}
        assert run(SvidMiddleware(app, checks), scope) == []
        made = "Bearer " + fresh(jti="2")
        WsgiMiddleware(wsgi, checks)({"HTTP_AUTHORIZATION": made, "svid.spiffe_id": other}, None)
    assert seen == [HELLO[6:]] * 2


@pytest.mark.parametrize("token", [b"\x80.\xff.\xfe", b"\xc3\xa9", "\u00e9.\u20ac.a".encode()])
def test_a_header_of_any_bytes_is_answered(token):
    """It is no UTF-8, or is, and has no good token either way."""
    with validator() as checks:
        headers = [(b"authorization", b"Bearer " + token)]
        sent = run(SvidMiddleware(None, checks), {"type": "http", "headers": headers})
        assert sent[0]["status"] == 401
        said, given = [], {"HTTP_AUTHORIZATION": "Bearer " + token.decode("latin-1")}
        WsgiMiddleware(None, checks)(given, lambda *it: said.append(it[0]))
        assert said == ["401 Unauthorized"]


@pytest.mark.parametrize(
    "made, name",
    [
        ("Bearer " + 65_537 * "a", "TooLong"),
        ("Bearer " + 65_536 * "a", "NotThreeParts"),
        ("Bearer " + 65_537 * "a" + ",", "NotBearer"),
        ("\tBearer  a.b.c \t", "HeaderSpelling"),
        ("Bearer\ta.b.c", "NotBearer"),
    ],
)
def test_a_header_is_read_as_the_standards_say(made, name):
    with validator() as checks:
        headers = [(b"authorization", made.encode())]
        sent = run(SvidMiddleware(None, checks), {"type": "http", "headers": headers})
        assert (b"www-authenticate", challenge(name, True).encode()) in sent[0]["headers"]
        said = []
        WsgiMiddleware(None, checks)({"HTTP_AUTHORIZATION": made}, lambda *it: said.append(it[1]))
        assert ("WWW-Authenticate", challenge(name, True)) in said[0]


def test_a_name_of_a_header_has_any_case():
    seen = []

    async def app(scope, receive, send):
        seen.append(scope["spiffe_id"])

    with validator() as checks:
        for name in b"authorization", b"Authorization", b"AUTHORIZATION":
            headers = [(name, b"Bearer " + fresh(jti=name.decode()).encode())]
            run(SvidMiddleware(app, checks), {"type": "http", "headers": headers})
    assert seen == [HELLO[6:]] * 3


def test_the_server_starts_and_stops_without_a_token():
    seen = []

    async def app(scope, receive, send):
        seen.append(scope)

    with validator() as checks:
        run(SvidMiddleware(app, checks), {"type": "lifespan"})
    assert seen == [{"type": "lifespan"}]


def test_an_error_of_the_application_is_its_own():
    """A token that the application refuses is no refusal of the middleware."""

    def fails(*_):
        raise svid.Expired

    async def fails_later(*_):
        raise svid.Expired

    with validator() as checks:
        made = "Bearer " + fresh(jti="1")
        with pytest.raises(svid.Expired):
            WsgiMiddleware(fails, checks)({"HTTP_AUTHORIZATION": made}, None)
        headers = [(b"authorization", ("Bearer " + fresh(jti="2")).encode())]
        with pytest.raises(svid.Expired):
            run(SvidMiddleware(fails_later, checks), {"type": "http", "headers": headers})


def test_the_caller_of_a_request_sees_no_change():
    with validator() as checks:
        environ = {"HTTP_AUTHORIZATION": "Bearer " + fresh()}
        seen = []
        WsgiMiddleware(lambda it, _: seen.append(it) or [], checks)(environ, None)
        assert list(environ) == ["HTTP_AUTHORIZATION"]
        assert seen[0]["svid.spiffe_id"] == HELLO[6:]


def test_a_closed_validator_lets_nobody_in():
    checks = validator()
    checks.close()
    app = Starlette(routes=[Route("/", lambda _: PlainTextResponse("in"))])
    client = TestClient(SvidMiddleware(app, checks), raise_server_exceptions=False)
    answer = client.get("/", headers={"Authorization": "Bearer " + fresh()})
    assert (answer.status_code, answer.text) == (500, "")


def test_a_check_that_is_unavailable_is_answered_503(tmp_path, monkeypatch):
    def fails(_):
        raise OSError(errno.EIO, "no disk")

    with validator(state=tmp_path) as checks:
        monkeypatch.setattr(os, "fdatasync", fails)

        def header():
            return "Bearer " + fresh(jti=os.urandom(8).hex())

        scope = {"type": "http", "headers": [(b"authorization", header().encode())]}
        start, body = run(SvidMiddleware(None, checks), scope)
        headers = [(name.lower().encode(), value.encode()) for name, value in UNAVAILABLE]
        assert (start["status"], start["headers"]) == (503, headers)
        assert body["body"] == b'{"reason":"NotKept","result":"unavailable"}\n'
        scope = {"type": "websocket", "headers": [(b"authorization", header().encode())]}
        assert run(SvidMiddleware(None, checks), scope) == [
            {"type": "websocket.close", "code": 1013}
        ]
        said = []
        WsgiMiddleware(None, checks)({"HTTP_AUTHORIZATION": header()}, lambda *it: said.append(it))
        assert said == [("503 Service Unavailable", UNAVAILABLE)]


def test_each_answer_says_what_svidd_says():
    """And no cache keeps it."""
    with validator(clock=lambda: NOW, step=10, callers=["spiffe://example.org/admin"]) as checks:
        later = validator(clock=lambda: NOW, mode="strict", store=Away(), wait=1)
        for it, made, status, reason, error in (
            (checks, token(exp=NOW), 401, "Expired", "invalid_token"),
            (checks, token(), 403, "NotAllowed", "insufficient_scope"),
            (checks, "a b", 401, "NotBearer", "invalid_request"),
            (later, token(), 503, "NotReady", ""),
        ):
            start, body = ask(it, made)
            headers = dict(start["headers"])
            said = f'Bearer error="{error}", error_description="{reason}"'.encode()
            assert headers.get(b"www-authenticate", b"") == (said if error else b"")
            assert (start["status"], headers[b"cache-control"]) == (status, b"no-store")
            assert headers.get(b"retry-after") == (b"1" if status == 503 else None)
            assert json.loads(body["body"])["reason"] == reason
        checks.tick(NOW)
        checks._seconds = lambda _: NOW + 11
        assert json.loads(ask(checks, token())[1]["body"])["reason"] == "ClockJump"
        later.close()


class Away:
    """A store that was never reached."""

    def put(self, _claims):
        raise ConnectionError("the store is away")


def ask(checks, made):
    """What the middleware sends to who has this token and may not come in."""
    headers = [(b"authorization", f"Bearer {made}".encode())]
    return run(SvidMiddleware(None, checks), {"type": "http", "headers": headers})


def test_want_of_memory_is_an_answer(monkeypatch):
    def want(*_, **__):
        raise MemoryError

    with validator() as checks:
        monkeypatch.setattr(checks, "check", want)
        start, body = ask(checks, fresh())
        assert start["status"] == 503 and json.loads(body["body"])["reason"] == "NoMemory"


def test_a_request_that_waits_too_long_for_a_thread_uses_up_no_token():
    go, short, store, sent = threading.Event(), 0.05, Remembers(), []

    async def send(message):
        sent.append(message)

    async def main(checks):
        loop = asyncio.get_running_loop()
        loop.set_default_executor(concurrent.futures.ThreadPoolExecutor(1))
        busy = loop.run_in_executor(None, go.wait, PATIENCE)
        scope = {"type": "http", "headers": [(b"authorization", b"Bearer " + fresh().encode())]}
        late = asyncio.create_task(SvidMiddleware(None, checks)(scope, None, send))
        await asyncio.sleep(2 * short)
        go.set()
        await busy
        await late

    with validator(mode="strict", store=store, wait=short) as checks:
        asyncio.run(main(checks))
    start, body = sent
    assert start["status"] == 503 and json.loads(body["body"])["reason"] == "NotClaimed"
    assert store.claims == []


class Remembers(svid.testing.MemoryStore):
    """A store that knows what was claimed."""

    def __init__(self):
        super().__init__()
        self.claims = []

    def put(self, claims):
        self.claims += claims
        return super().put(claims)


@pytest.mark.parametrize("reuse", [(), ["/"]], ids=str)
def test_a_look_after_a_suspension_does_not_hold_up_the_event_loop(reuse):
    """It comes before a check, and before a token is judged that may come again."""
    go, clock, given, sent = threading.Event(), svid.testing.Clock(), fresh(), []

    class Hangs(svid.testing.MemoryStore):
        def withdrawals(self, after):
            return go.wait(PATIENCE) and super().withdrawals(after)

    async def send(message):
        sent.append(message)

    async def main(checks):
        headers = [(b"authorization", b"Bearer " + given.encode())]
        app = SvidMiddleware(None, checks, reuse=reuse)
        scope = {"type": "http", "path": "/", "headers": headers}
        request = asyncio.create_task(app(scope, None, send))
        await asyncio.sleep(0)
        go.set()  # (this comes after the request, which would wait on the event loop)
        await request

    go.set()
    store = Hangs()
    with validator(mode="reuse", store=store, wait=PATIENCE, clock=clock) as checks:
        until(lambda: checks.ready)
        go.clear()
        store.withdraw(checks.judge(given).use.key, int(clock()) + 3000)
        clock.advance(100)
        asyncio.run(main(checks))
    assert sent[0]["status"] == 401


def test_a_check_that_waits_does_not_hold_up_the_event_loop(tmp_path, monkeypatch):
    seen, go, real = [], threading.Event(), os.fdatasync

    def fdatasync(file):
        go.wait(PATIENCE)
        real(file)

    async def app(scope, receive, send):
        seen.append(scope["spiffe_id"])

    async def main(checks):
        scope = {"type": "http", "headers": [(b"authorization", b"Bearer " + fresh().encode())]}
        request = asyncio.create_task(SvidMiddleware(app, checks)(scope, None, None))
        await asyncio.sleep(0)
        go.set()  # (this comes behind the request, which would wait for ever on the event loop)
        await request

    with validator(state=tmp_path, wait=PATIENCE) as checks:
        monkeypatch.setattr(os, "fdatasync", fdatasync)
        asyncio.run(main(checks))
    assert seen == [HELLO[6:]]
