"""Trust bundles: their forms, and the one JSON text of them that the C library reads."""

from __future__ import annotations

import json
import os
from collections.abc import Mapping, Sequence
from typing import Any, NamedTuple

from . import _library as lib
from ._folder import Path, regular
from ._words import no_memory, said
from .errors import BadBundles
from .sources import Endpoint, WorkloadApi

Bundle = Mapping[str, Any] | bytes | Path | Endpoint
"""The bundle of one trust domain, a JWK set: a dict, JSON text (bytes), a file, or an endpoint."""
Bundles = Mapping[str, Bundle] | bytes | Path | WorkloadApi
"""The bundles of all trust domains.

- A dict from trust domain names to bundles.
- JSON text (bytes) of an object from trust domain names to JWK sets.
- A path of a file: either such an object, or one bundle as SPIRE writes it, and then the file has
  the name of its trust domain, as `example.org.json`.
- A path of a folder: the bundle of each trust domain is a file in it, as `example.org.json`.
- A Workload API.
"""


def from_workload_api(bundles: Mapping[str, bytes]) -> bytes:
    """The bundles of a JWTBundlesResponse of the SPIFFE Workload API, as `Validator` takes them.

    It is for a client of your own; `svid.WorkloadApi` is one that follows. A trust domain is named
    by its SPIFFE ID ("spiffe://example.org"), and SPIRE writes its keys without `use`, since all of
    them are for JWT-SVIDs. Raises BadBundles where a value is no JWK set.
    """
    return joined([Document(name, name, text) for name, text in bundles.items()], keys=True)


class Document(NamedTuple):
    """JSON text of trust bundles."""

    what: str
    """What a fault calls it."""
    name: str | None
    """Its trust domain; None where the text names each of its trust domains."""
    text: bytes


class Edition(NamedTuple):
    """Whose keys a validator has, and whose are to come."""

    is_there: bool = True
    """There is a bundle, or none is to come."""
    awaited: frozenset[str | None] = frozenset()
    """The trust domains whose bundle is to come, and did not yet."""

    def awaits(self, domain: str) -> bool:
        """Whether a token of this trust domain may be good all the same."""
        return not self.is_there or domain in self.awaited


NO_BUNDLE = b"{}"
"""The text of no bundle, as `joined` writes it."""


class Unnamed(BadBundles):
    """The text is the bundle of one trust domain, and was not named."""


def joined(documents: Sequence[Document], keys: bool = False) -> bytes:
    """The one text of documents, which may be keys for JWT-SVIDs alone. Raises BadBundles."""
    rows, pieces = (lib.Document * len(documents))(), []
    for row, (_what, name, text) in zip(rows, documents):
        # (to the library, a document with an empty name has none)
        domain = b"" if name is None else (name or "spiffe://").encode(errors="surrogatepass")
        row.name_len, row.text_len, row.keys = len(domain), len(text), keys
        pieces += [domain, text]
    given, told = b"".join(pieces), lib.Told()
    at = lib.address(rows) if documents else None
    lent, room = (given, len(given), at, len(documents)), bytearray(2 * len(given) + 64)
    join, told_at = lib.library.svid_bundles_join, lib.address(told)
    status: int = join(*lent, lib.address(room), len(room), told_at)
    if status == lib.TOO_SHORT:
        room = bytearray(told.len)
        status = join(*lent, lib.address(room), len(room), told_at)
    if status == lib.NO_MEMORY:
        raise no_memory()
    if status != lib.OK:
        fault = Unnamed if status == lib.BUNDLES_UNNAMED else BadBundles
        raise fault(f"{documents[told.input - 1].what}: {bundle_words(status, told.offset)}")
    return bytes(room[: told.len])


def bundle_words(status: int, offset: int) -> str:
    """What a status says of bundles, and which of their names it is about."""
    if status not in (lib.BUNDLES_DOMAIN, lib.BUNDLES_KEYS, lib.BUNDLES_TWICE):
        return said(status)
    return said(status, f"It is number {offset} of the names in rising order, counted from 0.")


def bundle_text(name: str, bundle: Mapping[str, Any] | bytes) -> bytes:
    """The JSON text of one bundle. Raises BadBundles for a dict that JSON does not have."""
    if isinstance(bundle, bytes):
        return bundle
    try:
        return json.dumps(dict(bundle), allow_nan=False).encode()
    except (TypeError, ValueError, RecursionError) as error:
        raise BadBundles(f"the bundle of {name} is no JSON: {error}") from error


def contents(path: Path) -> bytes:
    """What a regular file has."""
    with open(regular(path, os.O_RDONLY), "rb") as file:
        text = file.read(lib.INPUT_MOST + 1)
    if len(text) > lib.INPUT_MOST:
        raise BadBundles(f"{path}: {said(lib.TOO_MUCH)}")
    return text
