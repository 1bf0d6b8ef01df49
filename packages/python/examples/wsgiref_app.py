"""A web service by the standard library that knows who calls it: the SPIFFE ID of the bearer token.

    SVID_BUNDLES=bundles python3 wsgiref_app.py 8000
"""

from __future__ import annotations

import os
import sys
from collections.abc import Iterable
from wsgiref.simple_server import make_server

import svid
from svid.wsgi import Environ, StartResponse, SvidMiddleware


def hello(environ: Environ, start_response: StartResponse) -> Iterable[bytes]:
    start_response("200 OK", [("Content-Type", "text/plain")])
    return [f"hello {environ['svid.spiffe_id']}".encode()]


def main(port: int) -> None:
    bundles = os.environ["SVID_BUNDLES"]
    with svid.Validator(audiences="ledger", bundles=bundles, longest=3600) as validator:
        with make_server("127.0.0.1", port, SvidMiddleware(hello, validator)) as server:
            print(f"listening on port {server.server_port}", flush=True)
            server.serve_forever()


if __name__ == "__main__":
    main(int(sys.argv[1]))
