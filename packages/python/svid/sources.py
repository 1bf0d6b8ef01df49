"""Where trust bundles come from over a socket: a bundle endpoint, and a SPIFFE Workload API.

Give them to `Validator` as `bundles`. It asks them by threads of its own, until it is closed.
"""

from __future__ import annotations

import base64
import contextlib
import functools
import http.client
import importlib
import ipaddress
import json
import os
import re
import socket
import ssl
import threading
import urllib.error
import urllib.request
from collections.abc import Callable, Iterator
from dataclasses import dataclass
from typing import Any
from urllib.parse import urlsplit

from cryptography import x509
from cryptography.x509.oid import ExtensionOID

from . import _library as lib

__all__ = ["Endpoint", "WorkloadApi"]

LIMIT = 15.0
"""How many seconds one answer of an endpoint may take, and the first one of a Workload API."""
MOST = 1 << 20
"""How many bytes one bundle may have that comes over a socket. Its brackets are bounded too, since
each takes memory to read."""
_MOST_BRACKETS = 1 << 15
_REDIRECTS = 5
_BEGIN = "-----BEGIN "
_SHORTEST, _USUAL, _LONGEST = 10, 300, 86_400
"""For how many seconds a bundle is good, at the least, without a hint, and at the most."""


@dataclass(frozen=True)
class Endpoint:
    """A bundle endpoint (SPIFFE Federation, section 5), for the bundle of one trust domain.

    ::

        svid.Endpoint("https://partner.example/bundle.json")
        svid.Endpoint(
            "https://10.0.0.7:8443",
            spiffe_id="spiffe://partner.example/spire/server",
            authorities="/etc/svid/partner.example.json",
        )

    Its bundle is asked for again when its `spiffe_refresh_hint` says so, between 10 seconds and a
    day, and every five minutes without a hint. An answer has at most 1 MiB, and 15 seconds. A proxy
    that the environment names (https_proxy) is used.
    """

    url: str
    """As https://HOST/PATH."""
    spiffe_id: str | None = None
    """The server's SPIFFE ID (profile https_spiffe). None where the server has a certificate for
    its name (https_web)."""
    authorities: str | os.PathLike[str] | None = None
    """The file of those that vouch for the server. With https_web: certificates as PEM; None are
    the system's. With https_spiffe: a bundle of the ID's trust domain. It counts until the first
    bundle came, if the endpoint gives the bundle of that domain. None is the last good bundle of
    the ID's trust domain, if the validator has that from another source."""

    def check(self, domain: str) -> None:
        """Raises ValueError where it can't be meant for the bundle of this trust domain."""
        parts = urlsplit(self.url)
        if parts.username is not None:  # (an error with the address would have the password)
            raise ValueError("the url of an endpoint has no name of a user, and no password")
        if parts.scheme != "https" or not parts.hostname:
            raise ValueError(f"{self.url!r} is no address as https://HOST/PATH")
        if self.spiffe_id is not None:
            if not (of := self.domain()):
                raise ValueError(f"{self.spiffe_id!r} is no SPIFFE ID of a server")
            if of == domain and self.authorities is None:
                raise ValueError(
                    f"the server of {self.url} is known by its own bundle: give the first one as "
                    "authorities"
                )

    def domain(self) -> str:
        """The trust domain of the server's ID; "" where that is no SPIFFE ID with a path."""
        text, cut = (self.spiffe_id or "").encode(errors="surrogatepass"), lib.Id()
        status = lib.quick.svid_id_parse(text, len(text), lib.address(cut))
        if status != lib.OK or not cut.path_len:
            return ""
        end = len(text) - cut.path_len
        return text[end - cut.domain_len : end].decode()


@dataclass(frozen=True)
class WorkloadApi:
    """A SPIFFE Workload API, as SPIRE's agent serves it: it gives the bundles of all trust domains.

    It needs the packages grpcio and protobuf (Debian: python3-grpcio).
    """

    address: str = ""
    """As unix:///run/spire/agent.sock or tcp://127.0.0.1:8081. "" takes it from the variable
    SPIFFE_ENDPOINT_SOCKET."""

    def check(self) -> None:
        """Raises ValueError for another address, and ImportError without the packages."""
        self.target()
        _grpc(), _response()

    def target(self) -> str:
        """The address as gRPC wants it (SPIFFE Workload Endpoint, section 4)."""
        address = self.address or os.environ.get("SPIFFE_ENDPOINT_SOCKET", "")
        if path := re.fullmatch(r"unix:(?://)?(/[^?#]*)", address):
            return f"unix:{path[1]}"
        with contextlib.suppress(ValueError):
            parts = urlsplit(address)
            host, port = ipaddress.ip_address(parts.hostname or ""), parts.port
            if port and parts.username is None and address == f"tcp://{parts.netloc}":
                return f"[{host}]:{port}" if host.version == 6 else f"{host}:{port}"
        raise ValueError(
            f"{address!r} is not like unix:///run/spire/agent.sock or tcp://127.0.0.1:8081"
        )


class ForGood(Exception):
    """A server refuses the call itself, so that it is not made again."""


class Ends:
    """Connections that are open: each has a function that ends it, from whatever thread."""

    def __init__(self) -> None:
        self._lock = threading.RLock()  # (a collector may end all, in a thread that holds it)
        self._open: set[Callable[[], object]] = set()
        self._are_over = False

    @contextlib.contextmanager
    def within(self, end: Callable[[], object], seconds: float) -> Iterator[threading.Timer]:
        """Ends one after so many seconds, unless the timer is cancelled, and by `end_all`."""
        timer = threading.Timer(seconds, end)
        timer.daemon = True
        with self._lock:
            self._open.add(end)
        try:
            if self._are_over:
                raise TimeoutError("the validator is closed")
            timer.start()
            yield timer
        finally:
            timer.cancel()
            with self._lock:
                self._open.discard(end)

    def end_all(self) -> None:
        """Ends all that are open, and each that begins later."""
        with self._lock:
            self._are_over, these = True, list(self._open)
        for end in these:
            end()


class _Line:
    """The socket of one request."""

    def __init__(self) -> None:
        self._lock = threading.RLock()  # (as that of all)
        self._socket: socket.socket | None = None
        self._is_over = False

    def has(self, it: socket.socket) -> None:
        with self._lock:
            self._socket = it
        self.stand()

    def end(self) -> None:
        """Ends what a thread does by the socket."""
        with self._lock:
            self._is_over, it = True, self._socket
        if it is not None:
            with contextlib.suppress(OSError):
                # (SSLSocket.shutdown would let go of TLS, which the other thread uses)
                socket.socket.shutdown(it, socket.SHUT_RDWR)

    def why(self, error: Exception) -> Exception:
        """What to say of a request that failed so."""
        return TimeoutError(f"it took longer than {LIMIT:.0f} seconds") if self._is_over else error

    def stand(self) -> None:
        """Raises TimeoutError once it has ended."""
        if self._is_over:
            raise TimeoutError


def fetch(
    endpoint: Endpoint, authorities: Callable[[], bytes | None], ends: Ends
) -> tuple[bytes, int]:
    """Asks an endpoint for its bundle, and says for how many seconds that is good.

    authorities: gives what the server is known by, if there is such: certificates as PEM, and for a
        server with a SPIFFE ID a bundle.
    Raises OSError, HTTPException and ValueError.
    """
    context, line = _context(endpoint, authorities), _Line()
    opener = urllib.request.build_opener(_Https(endpoint, context, line), _Redirects(endpoint))
    with ends.within(line.end, LIMIT):
        try:
            with opener.open(endpoint.url, timeout=LIMIT) as answer:
                text: bytes = answer.read(MOST + 1)
            line.stand()
        except urllib.error.HTTPError as error:
            error.close()
            raise OSError(f"it answers status {error.code}") from None
        except (OSError, ValueError, http.client.HTTPException) as error:
            why = getattr(error, "reason", error)  # (the error below that of urllib)
            raise line.why(why if isinstance(why, Exception) else error) from None
    bearable(text)
    return text, _good_for(text)


def bearable(text: bytes) -> None:
    """Raises ValueError for a bundle that is too long, or takes too much memory to read."""
    if len(text) > MOST:
        raise ValueError(f"it has more than {MOST:,} bytes")
    if text.count(b"{") + text.count(b"[") > _MOST_BRACKETS:
        raise ValueError(f"it has more than {_MOST_BRACKETS:,} of the brackets {{ and [")


def _good_for(text: bytes) -> int:
    """For how many seconds a bundle is good. A hint that is no number is as good as none."""
    with contextlib.suppress(ValueError, RecursionError):
        members = json.loads(text)
        hint = members.get("spiffe_refresh_hint") if isinstance(members, dict) else None
        if isinstance(hint, int) and hint > 0:
            return min(max(hint, _SHORTEST), _LONGEST)
    return _USUAL


class _Https(urllib.request.HTTPSHandler):
    """Connects by TLS, and by nothing else."""

    def __init__(self, endpoint: Endpoint, context: ssl.SSLContext, line: _Line) -> None:
        super().__init__(context=context)
        self._made = functools.partial(_Connection, endpoint, context, line)

    def https_open(self, req: urllib.request.Request) -> Any:
        return self.do_open(self._made, req)


class _Connection(http.client.HTTPSConnection):
    """A connection that knows its server, and whose socket can be ended."""

    def __init__(
        self, endpoint: Endpoint, context: ssl.SSLContext, line: _Line, host: str, timeout: float
    ) -> None:
        super().__init__(host, context=context, timeout=timeout)
        self._endpoint, self._tls, self._line = endpoint, context, line

    def _tunnel(self) -> None:
        self._line.has(self.sock)  # (a proxy may take its time, too)
        super()._tunnel()  # type: ignore[misc]

    def connect(self) -> None:
        http.client.HTTPConnection.connect(self)  # (and through a proxy, where there is one)
        named = getattr(self, "_tunnel_host", None) or self.host
        secured = self._tls.wrap_socket(
            self.sock, server_hostname=named, do_handshake_on_connect=False
        )
        self.sock = secured
        self._line.has(secured)
        secured.do_handshake()
        if self._endpoint.spiffe_id is not None:
            _check_server(secured.getpeercert(True) or b"", self._endpoint.spiffe_id)


class _Redirects(urllib.request.HTTPRedirectHandler):
    """Follows some redirects to https, and none where only this server is known."""

    max_redirections = _REDIRECTS

    def __init__(self, endpoint: Endpoint) -> None:
        self._endpoint = endpoint

    def redirect_request(self, *given: Any) -> Any:
        _, answer, *_, url = given
        answer.close()  # (urllib would read all of it, and it may have no end)
        if self._endpoint.spiffe_id is not None or not url.lower().startswith("https://"):
            raise OSError(f"it leads elsewhere: {ascii(url[:256])}")
        return super().redirect_request(*given)


def _context(endpoint: Endpoint, authorities: Callable[[], bytes | None]) -> ssl.SSLContext:
    """How the server of an endpoint is known."""
    bundle = authorities()
    if endpoint.spiffe_id is None:
        # (comments of a file may have any letters)
        text = None if bundle is None else bundle.decode("ascii", "ignore")
        if text is not None and _BEGIN not in text:  # (without any, ssl takes the system's)
            raise ValueError(f"{endpoint.authorities} has no certificate as PEM")
        return ssl.create_default_context(cadata=text)
    if bundle is None:
        raise ValueError(f"the bundle of {endpoint.domain()} was not read yet")
    context = ssl.SSLContext(ssl.PROTOCOL_TLS_CLIENT)
    context.check_hostname = False  # (the server's ID is looked at instead)
    context.verify_flags |= ssl.VERIFY_X509_PARTIAL_CHAIN
    if not sum(_trusts(context, der) for der in _certificates(bundle)):
        raise ValueError(f'no entry of the bundle of {endpoint.domain()} has the use "x509-svid"')
    return context


def _certificates(bundle: bytes) -> Iterator[bytes]:
    """Those that sign X.509-SVIDs (SPIFFE Trust Domain and Bundle, section 4.2.2)."""
    members = json.loads(bundle)
    for it in (members.get("keys") if isinstance(members, dict) else None) or []:
        chain = it.get("x5c") if isinstance(it, dict) and it.get("use") == "x509-svid" else None
        if isinstance(chain, list) and len(chain) == 1 and isinstance(chain[0], str):
            with contextlib.suppress(ValueError):
                yield base64.b64decode(chain[0], validate=True)


def _trusts(context: ssl.SSLContext, der: bytes) -> bool:
    try:
        context.load_verify_locations(cadata=der)
    except (ssl.SSLError, ValueError):
        return False
    return True


def _check_server(der: bytes, spiffe_id: str) -> None:
    """Raises OSError where a certificate, whose chain is good, is not that of the server.

    X.509-SVID, section 5.
    """
    try:
        extensions = x509.load_der_x509_certificate(der).extensions
        names = extensions.get_extension_for_class(x509.SubjectAlternativeName).value
        uris = names.get_values_for_type(x509.UniformResourceIdentifier)
    except (ValueError, x509.ExtensionNotFound, x509.DuplicateExtension) as error:
        raise OSError("its certificate has not exactly one URI, so it is no X.509-SVID") from error
    if uris != [spiffe_id]:
        raise OSError(f"its certificate is not that of {spiffe_id}, but has {ascii(uris)[:256]}")
    for it in extensions:
        signs = it.oid == ExtensionOID.BASIC_CONSTRAINTS and it.value.ca
        if it.oid == ExtensionOID.KEY_USAGE:
            signs = it.value.key_cert_sign or it.value.crl_sign
        if signs:
            raise OSError("its certificate may sign others, so it is none of a server")


def watch(api: WorkloadApi, ends: Ends) -> Iterator[dict[str, bytes]]:
    """The bundles that a Workload API gives, by what it calls their trust domains, again and again.

    Each time they are all that are valid from then on. It never ends well: raises ConnectionError,
    and ForGood where the server does not want this call again.
    """
    grpc, response = _grpc(), _response()
    options = [
        ("grpc.enable_http_proxy", 0),
        ("grpc.keepalive_time_ms", 360_000),  # (a server hangs up on who asks more often)
        ("grpc.keepalive_timeout_ms", int(LIMIT * 1000)),
    ]
    with grpc.insecure_channel(api.target(), options) as channel:
        call = channel.unary_stream("/SpiffeWorkloadAPI/FetchJWTBundles")(
            b"", metadata=[("workload.spiffe.io", "true")]
        )
        try:
            with ends.within(call.cancel, LIMIT) as late:
                for message in call:
                    late.cancel()
                    yield dict(response.FromString(message).bundles)
        except grpc.RpcError as error:
            code, why = call.code(), f"{call.code().name}: {ascii((call.details() or '')[:256])}"
            if code == grpc.StatusCode.INVALID_ARGUMENT:
                raise ForGood(f"it refuses the call itself ({why})") from error
            if code == grpc.StatusCode.CANCELLED:
                why = f"it sent no bundles within {LIMIT:.0f} seconds"
            raise ConnectionError(why) from None
    raise ConnectionError("it has ended the stream")


def _grpc() -> Any:
    return importlib.import_module("grpc")  # (only who asks a Workload API needs it)


@functools.cache
def _response() -> Any:
    """The class of JWTBundlesResponse: map<string, bytes> bundles = 1.

    SPIFFE Workload API, section 6.2.2.
    """
    descriptor = importlib.import_module("google.protobuf.descriptor_pb2")
    factory = importlib.import_module("google.protobuf.message_factory")
    pool = importlib.import_module("google.protobuf.descriptor_pool").DescriptorPool()
    kind = descriptor.FieldDescriptorProto
    file = descriptor.FileDescriptorProto(name="svid/workload.proto", syntax="proto3")
    message = file.message_type.add(name="JWTBundlesResponse")
    entry = message.nested_type.add(name="BundlesEntry")
    entry.options.map_entry = True
    one, many = kind.LABEL_OPTIONAL, kind.LABEL_REPEATED
    entry.field.add(name="key", number=1, type=kind.TYPE_STRING, label=one)
    entry.field.add(name="value", number=2, type=kind.TYPE_BYTES, label=one)
    of = ".JWTBundlesResponse.BundlesEntry"
    message.field.add(name="bundles", number=1, type=kind.TYPE_MESSAGE, type_name=of, label=many)
    pool.Add(file)
    found = pool.FindMessageTypeByName("JWTBundlesResponse")
    if hasattr(factory, "GetMessageClass"):
        return factory.GetMessageClass(found)
    return factory.MessageFactory(pool).GetPrototype(found)
