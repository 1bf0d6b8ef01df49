"""Who may call: patterns of SPIFFE IDs."""

from __future__ import annotations

from collections.abc import Iterable

from . import _library as lib
from ._words import no_memory, said

_ANYBODY = "spiffe://example.org"


def allows(pattern: str, spiffe_id: str) -> bool:
    """Whether a pattern allows a SPIFFE ID (docs/FORMATS.md, "Patterns of IDs").

    "spiffe://example.org/billing/api" allows that ID. "spiffe://example.org/billing/*" allows all
    IDs below the path, by whole segments, and "spiffe://example.org" all of the trust domain.
    Raises ValueError for another pattern, and for what is no SPIFFE ID.
    """
    out, texts = lib.Id(), (pattern.encode(), spiffe_id.encode())
    lent = [it for text in texts for it in (text, len(text))]
    status = lib.quick.svid_id_allows(*lent, lib.address(out))
    if status == lib.NO_MEMORY:
        raise no_memory()
    if status in (lib.OK, lib.NOT_ALLOWED):
        return bool(status == lib.OK)
    if status > lib.NOT_ALLOWED:
        raise ValueError(
            f"{pattern!r} is no pattern of SPIFFE IDs (byte {out.offset}): {said(status)}"
        )
    raise ValueError(f"{spiffe_id!r} is no SPIFFE ID (byte {out.offset}): {said(status)}")


def patterns(callers: str | Iterable[str] | None) -> tuple[str, ...] | None:
    """The patterns, once each of them is one. None for all callers, which an empty list is not."""
    if callers is None:
        return None
    kept = (callers,) if isinstance(callers, str) else tuple(callers)
    if not kept:
        raise ValueError("callers is empty: name who may call, or leave it out to let all call")
    for pattern in kept:
        allows(pattern, _ANYBODY)
    return kept
