"""The store of a group: it keeps one claim for each token, the first one that is put."""

from __future__ import annotations

from collections.abc import Sequence
from typing import NamedTuple, Protocol

WITHDRAWN = bytes(32)
"""The owner that a key has whose token was withdrawn."""


class Claim(NamedTuple):
    """What is put under a key that has no owner yet."""

    key: bytes
    """32 bytes by which all uses of the token are known."""
    owner: bytes
    """32 bytes that say whose claim it is."""
    expires: int
    """When the token expires, in seconds since 1970."""


class Found(NamedTuple):
    """What a store answers to a claim."""

    owner: bytes
    """32 bytes: the owner that the key has after the put. It may be that of an earlier claim."""
    time: int
    """The store's time in seconds since 1970, read at the put or after it."""
    deaf: int = 0
    """Tokens that expire by then may have been claimed before the store lost entries: no validator
    accepts them. 0 if the store never lost one."""


class Store(Protocol):
    """The store of a group, which validators in the modes "strict" and "bound" share.

    It keeps the first claim of each token key:

    - Two puts of one key never overlap, whoever makes them.
    - An entry stays until its token has expired by the store's own clock, and for a margin after
      that: at least the validators' `ahead`, and what the clock of the store may step back.
    - Before it answers again after it may have lost entries, it increases `Found.deaf`: to its time
      at the loss plus the validators' `longest` plus twice their `ahead`.

    Several threads call it at once. A call that fails raises any Exception: then nobody knows what
    the store has, and the validator puts the same claims again. A call ends within some seconds,
    even if the server does not answer.

    A store whose claims are on several servers may have `put_each` too, which validators then call:
    it is put, but has an Exception in the place of each answer that is not there.
    """

    def put(self, claims: Sequence[Claim]) -> Sequence[Found]:
        """Puts each claim if its key has no owner yet, and says what each key has afterwards.

        Answers in the order of the claims, which are a tuple. Without claims it answers none: so a
        validator learns that the store is there.
        """

    def withdraw(self, key: bytes, expires: int) -> None:
        """From now on each put of this key finds the owner WITHDRAWN, whoever claimed it before.

        The entry stays as one with this expiry does.
        """


class TellingStore(Store, Protocol):
    """A store that tells its withdrawals, which validators in every mode but "strict" then hear.

    In the mode "strict" the claim of a token finds the withdrawal.
    """

    def withdrawals(self, after: str) -> tuple[Sequence[tuple[bytes, int]], str]:
        """The withdrawals after a position, as key and expiry, and the position after those.

        The first position is "". The validator asks again until the position stays. A position that
        the store does not know reads all again.
        """
