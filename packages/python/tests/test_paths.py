"""Requests that need no token, and those that leave it good: by what their paths are."""

import asyncio
import json
import posixpath
import random
import socket
import urllib.parse

import pytest
import svid
from making import PATIENCE, SUBJECT, fresh, validator
from services import SERVERS, Service
from svid import asgi, wsgi
from svid._paths import Paths

LISTED = ["/", "/healthz", "/django/", "/static/*"]
ON = ["/", "/healthz", "/django/", "/static/a", "/static/a/b.css", "/static/a/", "/static/..."]
ON += ["/static/.well-known", "/static/~a_b-c"]
OFF = [
    "",
    "*",
    "healthz",
    "//healthz",
    "/healthz/",
    "/healthzx",
    "/health",
    "/healthz/x",
    "/Healthz",
]
OFF += ["/HEALTHZ", "/healthz?", "/healthz#", "/healthz;x", "/healthz%", "/healthz ", "/healthz\n"]
OFF += ["/healthz\0", "/healthz/.", "/healthz/..", "/./healthz", "/x/../healthz", "//", "/.", "/.."]
OFF += ["/django", "/django//", "/django/x", "/static", "/static/", "/staticx", "/Static/a", "/*"]
OFF += ["/static//", "/static//a", "/static/a//", "/static/.", "/static/..", "/static/../x"]
OFF += ["/static/a/../../x", "/static/./a", "/static/a/.", "/static/%2e%2e/x", "/static/a%2fb"]
OFF += ["/static/a\\..\\x", "/static/..;/x", "/static/\u00e9", "/static/a b", "/static/a\n"]
OFF += ["/static/\u2025/x", "/static/\uff0e\uff0e/x", "http://127.0.0.1/healthz"]
LETTERS = "/..%25eEfFcCaA~_-\\\\;?# \0\n\u00e9\u2025\u212a"
ALL = [(it, True) for it in ON] + [(it, False) for it in OFF]


def of_wsgi(checks, seen, **terms):
    """What a service answers: the status, by the environ and a token."""

    def app(environ, start_response):
        seen.append(environ)
        start_response("200 OK", [])
        return []

    service = wsgi.SvidMiddleware(app, checks, **terms)

    def ask(token=None, path="/", **more):
        environ, said = {"PATH_INFO": path, "REQUEST_METHOD": "GET", **more}, []
        if token is not None:
            environ["HTTP_AUTHORIZATION"] = "Bearer " + token
        service(environ, lambda *it: said.append(it))
        return int(said[0][0].split()[0])

    return ask


def of_asgi(checks, seen, **terms):
    """The same by the scope."""

    async def app(scope, receive, send):
        seen.append(scope)
        await send({"type": "http.response.start", "status": 200, "headers": []})

    service = asgi.SvidMiddleware(app, checks, **terms)

    def ask(token=None, path="/", **more):
        said, headers = [], []
        if token is not None:
            headers.append((b"authorization", b"Bearer " + token.encode()))

        async def send(message):
            said.append(message)

        scope = {"type": "http", "method": "GET", "path": path, "headers": headers, **more}
        asyncio.run(service(scope, None, send))
        return said[0]["status"]

    return ask


KINDS = pytest.mark.parametrize("kind", [of_wsgi, of_asgi])
ID = {of_wsgi: "svid.spiffe_id", of_asgi: "spiffe_id"}


@KINDS
def test_what_is_on_the_list(kind):
    with validator() as checks:
        ask = kind(checks, [], open_paths=LISTED)
        assert [(path, ask(path=path) == 200) for path, _ in ALL] == ALL
        assert ask(path="/x") == 401


def test_a_path_on_the_list_is_read_in_one_way():
    """Of 5,000 texts, others each time. (Hypothesis takes ten times as long for each of them.)"""
    listed, count = Paths(["/a", "/a/*"]), 0
    for _ in range(5000):
        text = "".join(random.choices(LETTERS, k=random.randint(0, 12)))
        for path in text, "/" + text, "/a" + text, "/a/" + text:
            if listed.has([path]):
                count += 1
                assert path == urllib.parse.unquote(path) == urllib.parse.quote(path)
                assert path == urllib.parse.urlparse(path).path == path.encode("ascii").decode()
                assert posixpath.normpath(path) == path.rstrip("/")
                assert path.split("/")[1] == "a"
    assert count > 100


@KINDS
def test_nothing_is_open_without_a_list(kind):
    with validator() as checks:
        assert {kind(checks, [])(path=path) for path, _ in ALL} == {401}


@KINDS
@pytest.mark.parametrize("name", ["open_paths", "reuse"])
@pytest.mark.parametrize(
    "path",
    ["", "*", "a", "a/*", "/a*", "/*/a", "//", "//*", "/a//b", "/a/../b", "/./*", "/..", "/a b"]
    + ["/a%20b", "/a?b", "/\u00e9", "/a\n", "/a/**", "http://example.org/a"],
)
def test_what_is_no_path(kind, name, path):
    with validator() as checks, pytest.raises(ValueError, match="is no path: write /PATH"):
        kind(checks, [], **{name: ["/good", path]})


@KINDS
def test_a_lone_path(kind):
    with validator() as checks:
        ask = kind(checks, [], open_paths="/healthz", reuse="/again")
        assert [ask(path=it) for it in ("/healthz", "/", "/h", "h")] == [200, 401, 401, 401]
        made = fresh()
        assert [ask(made, it) for it in ("/again", "/again", "/", "/again")] == [200, 200, 200, 401]


@pytest.mark.parametrize(
    "raw", [b"/%68ealthz", b"/healthz%2f", b"/%2Fhealthz", b"/x/%2e%2e/healthz"]
)
def test_a_path_that_was_escaped_is_on_no_list(raw):
    """A framework may choose by the path as it was sent."""
    with validator() as checks:
        ask = of_asgi(checks, [], open_paths=["/healthz"])
        assert ask(path="/healthz", raw_path=raw) == 401
        for plain in b"/healthz", b"/healthz?x=%20", None:
            assert ask(path="/healthz", raw_path=plain) == 200


@pytest.mark.parametrize(
    "root, path, listed, status",
    [
        ("/api", "/healthz", ["/healthz"], 200),
        ("/api", "/api/healthz", ["/healthz"], 401),
        ("/api", "/api/healthz", ["/api/healthz"], 401),
        ("/api", "/api/healthz", ["/healthz", "/api/healthz"], 200),
        ("/api/", "/api/healthz", ["/healthz", "/api/healthz"], 200),
        ("/", "/healthz", ["/healthz"], 200),
        ("/heal", "/healthz", ["/healthz"], 401),
        ("/static", "/static/admin", ["/static/*"], 401),
        ("/static", "/static", ["/static", "/static/*"], 401),
    ],
)
def test_a_service_below_a_root_path(root, path, listed, status):
    """A framework may choose by the path with it, or without it."""
    with validator() as checks:
        assert of_asgi(checks, [], open_paths=listed)(path=path, root_path=root) == status


@pytest.mark.parametrize("script, path, status", [("/api", "/healthz", 200), ("/healthz", "", 401)])
def test_a_service_below_a_script_name(script, path, status):
    with validator() as checks:
        ask = of_wsgi(checks, [], open_paths=["/healthz"])
        assert ask(path=path, SCRIPT_NAME=script) == status
        assert ask(path="/admin", SCRIPT_NAME="/healthz") == 401


def test_a_request_without_a_path_is_on_no_list():
    with validator() as checks:
        terms = {"open_paths": LISTED}
        said = []
        wsgi.SvidMiddleware(None, checks, **terms)({}, lambda *it: said.append(it[0]))
        assert said == ["401 Unauthorized"]


@KINDS
def test_what_was_accepted_is_handed_over(kind):
    seen = []
    with validator() as checks:
        ask = kind(checks, seen, open_paths=["/open"], reuse=["/again"])
        made, left = fresh(jti="1"), fresh(jti="2")
        assert [ask(made, "/again"), ask(made), ask(left, "/open"), ask(path="/open")] == [200] * 4
        [use] = checks.report().uses
    judged, accepted = (it["svid.accepted"] for it in seen[:2])
    assert accepted == svid.Accepted(SUBJECT, use)
    assert (judged.spiffe_id, judged.use.key) == (accepted.spiffe_id, use.key)
    assert [it[ID[kind]] for it in seen[:2]] == [SUBJECT] * 2
    assert not any({"svid.accepted", ID[kind]} & it.keys() for it in seen[2:])


@KINDS
def test_what_stood_there_before_is_gone(kind):
    """Another middleware may have put it there, by whatever the caller said."""
    seen, was = [], []

    def again(request):
        was.append(request)
        return False

    with validator() as checks:
        ask = kind(checks, seen, open_paths=["/open"], reuse=again)
        theirs = {"svid.accepted": "theirs", ID[kind]: "theirs", "other": "stays"}
        assert ask(path="/open", **theirs) == ask(fresh(), **theirs) == 200
    assert "theirs" not in [*seen[0].values(), *seen[1].values(), *was[0].values()]
    assert [it["other"] for it in seen + was] == ["stays"] * 3


@KINDS
def test_a_token_that_is_used_again(kind):
    with validator() as checks:
        ask = kind(checks, [], reuse=["/status", "/report/*"])
        made, withdrawn = fresh(jti="1"), fresh(jti="2")
        assert [ask(made, it) for it in ("/status", "/report/a", "/status")] == [200] * 3
        assert checks.report().uses == ()
        assert [ask(made, "/status/"), ask(made, "/status"), ask(made, "/report/a")] == [
            200,
            401,
            401,
        ]
        checks.withdraw(withdrawn)
        assert (
            ask(withdrawn, "/status") == ask(fresh(exp=1), "/status") == ask("a", "/status") == 401
        )
        assert ask(path="/status") == 401


@KINDS
def test_a_function_says_what_leaves_a_token_good(kind):
    method = "REQUEST_METHOD" if kind is of_wsgi else "method"
    with validator() as checks:
        ask = kind(checks, [], reuse=lambda request: request[method] == "GET")
        made = fresh()
        assert [ask(made), ask(made), ask(made, **{method: "POST"}), ask(made)] == [
            200,
            200,
            200,
            401,
        ]


@KINDS
@pytest.mark.parametrize("answer", [None, 1, "", "no", [], object()])
def test_a_function_that_says_neither_lets_nobody_in(kind, answer):
    seen = []
    with validator() as checks:
        with pytest.raises(TypeError, match="returns True or False"):
            kind(checks, seen, reuse=lambda _: answer)(fresh())
        assert checks.report().uses == () and not seen


def test_a_function_that_is_asynchronous_lets_nobody_in():
    async def never():
        return False

    answer = never()
    with validator() as checks, pytest.raises(TypeError, match="and not a coroutine"):
        of_asgi(checks, [], reuse=lambda _: answer)(fresh())
    answer.close()


@KINDS
def test_a_caller_that_no_pattern_allows_may_not_come_again(kind):
    with validator(callers="spiffe://example.com") as checks:
        ask = kind(checks, [], reuse=["/again"], open_paths=["/open"])
        assert [ask(fresh(), it) for it in ("/again", "/", "/open")] == [403, 403, 200]


@pytest.mark.parametrize("path, sent", [("/open", "in"), ("/x", "websocket.close")])
def test_a_websocket(path, sent):
    said = []

    async def app(scope, receive, send):
        await send({"type": "in"})

    async def send(message):
        said.append(message["type"])

    with validator() as checks:
        service = asgi.SvidMiddleware(app, checks, open_paths=["/open"])
        asyncio.run(service({"type": "websocket", "path": path, "headers": []}, None, send))
    assert said == [sent]


BEGIN = """
import json, os, svid
terms = {"audiences": "ledger", "bundles": os.environ["SVID_BUNDLES"], "longest": 3600}
validator = svid.Validator(state="state", wait=float(os.environ["SVID_WAIT"]), **terms)
listed = {"reuse": ["/again"], "open_paths": ["/healthz", "/static/*"]}
def says(path, spiffe_id, accepted):
    said = {"path": path, "id": spiffe_id, "expires": accepted and accepted.expires}
    return json.dumps(said).encode()
"""
OF = {
    "wsgi": """
from svid.wsgi import SvidMiddleware
def app(environ, start_response):
    given = (environ["PATH_INFO"], environ.get("svid.spiffe_id"), environ.get("svid.accepted"))
    text = says(*given)
    start_response("200 OK", [("Content-Length", str(len(text)))])
    return [text]
app = SvidMiddleware(app, validator, **listed)
""",
    "asgi": """
from svid.asgi import SvidMiddleware
async def app(scope, receive, send):
    assert scope["type"] == "http"
    text = says(scope["path"], scope.get("spiffe_id"), scope.get("svid.accepted"))
    headers = [(b"content-length", str(len(text)).encode())]
    await send({"type": "http.response.start", "status": 200, "headers": headers})
    await send({"type": "http.response.body", "body": text})
app = SvidMiddleware(app, validator, **listed)
""",
}
FORGED = [f"{name}: {SUBJECT}" for name in ("Svid.Accepted", "Svid.Spiffe-Id", "Spiffe_Id")]
ODD = [
    "//healthz",
    "/healthz/",
    "/healthzx",
    "/HEALTHZ",
    "/healthz/../x",
    "/x/../healthz",
    "/./healthz",
]
ODD += [
    "/%68ealthz",
    "/healthz%2f..%2fx",
    "/healthz%00",
    "/healthz%0a",
    "/healthz%20",
    "/healthz;x",
]
ODD += ["/static", "/static/", "/static//x", "/static/../x", "/static/%2e%2e/x", "/static/..%2fx"]
ODD += [
    "/static/%252e%252e/x",
    "/static/..\\x",
    "/static/%5c..%5cx",
    "/static%2fa",
    "/static/..;/x",
]
ODD += ["/static/%c0%ae%c0%ae/x", "/static/%ef%bc%8e/x", "/x?/healthz", "/x#/healthz", "/healthz#x"]
ODD += ["http://127.0.0.1/healthz", "http://127.0.0.1//healthz", "//127.0.0.1/healthz", "*"]


def asked(service, target, token=None, *headers):
    """What a server answers to a request with this very target."""
    lines = [f"GET {target} HTTP/1.1", "Host: ledger", "Connection: close", *headers]
    if token is not None:
        lines.append(f"Authorization: Bearer {token}")
    with socket.create_connection(("127.0.0.1", service.port), PATIENCE) as sent:
        sent.sendall("".join(it + "\r\n" for it in [*lines, ""]).encode())
        answer = b"".join(iter(lambda: sent.recv(65_536), b""))
    head, _, body = answer.partition(b"\r\n\r\n")
    status = int(head.split()[1])
    return status, json.loads(body) if status == 200 else {}


@pytest.mark.parametrize("kind", SERVERS)
def test_a_service_behind_a_server(kind, tmp_path):
    """Paths as clients send them, and a token that comes again, through real servers."""
    with Service(tmp_path, kind, BEGIN + OF[kind]) as service:
        for target in "/healthz", "/healthz?x=%2e%2e/", "/static/a.css", "/static/a/b":
            status, said = asked(service, target, "a", *FORGED)
            assert (status, said["path"]) == (200, target.partition("?")[0])
            assert said["id"] is None and said["expires"] is None
        for target in ODD:
            status, said = asked(service, target)
            # (a server may decode a path for the service, which then is this one for all)
            decoded = kind == "wsgi" and said.get("path") in ("/healthz", "/static/a")
            assert status in (400, 401) or decoded, target
        for prefix in ["/healthz"] if kind == "asgi" else ["/healthz", "/static"]:
            assert asked(service, prefix + "/admin", None, f"SCRIPT_NAME: {prefix}")[0] == 401
        made = fresh(jti="made")
        for _ in range(2):
            status, said = asked(service, "/again", made)
            assert (status, said["id"]) == (200, SUBJECT)
        status, said = asked(service, "/", made)
        assert (status, said["id"]) == (200, SUBJECT) and said["expires"] > 0
        assert asked(service, "/", made)[0] == asked(service, "/again", made)[0] == 401
