"""What a validator raises.

`Refused` and its subclasses say why a token is refused. The others say why a call did nothing::

    Error
    ├── Refused          the token is refused: one subclass for each reason
    ├── Closed           the validator is closed
    ├── Forked           the validator was made before a fork, by the parent process
    ├── Jump             `now` is further past the record's moment than `step` allows
    ├── Gone             the token to withdraw has expired
    ├── TooFar           a message's moment is further past `now` than `ahead` allows
    ├── BadBundles       the trust bundles can't be read
    ├── BadMessages      bytes of another validator are no messages
    ├── NotAllowed       the token is good, and its subject may not call: answer status 403
    ├── Unavailable      it is not known whether the token counts as used: answer status 503
    ├── Held             another process has the state folder
    ├── Damaged          a file of the state folder is damaged
    └── OtherFormat      a file of the state folder has another format

A call that has no memory raises `MemoryError`. It accepted no token, and you can make it again.
"""

from __future__ import annotations

from . import _library as lib
from ._words import message_words, said


class Error(Exception):
    """The base of all errors of this package."""


class Closed(Error):
    """The validator is closed. Make a new one."""

    def __str__(self) -> str:
        return said(lib.CLOSED)


class Forked(Error):
    """The validator was made before a fork. Make one in each process, after the fork.

    Two processes with one validator would accept each token twice.
    """

    def __str__(self) -> str:
        return "the validator was made by another process, before a fork: make one in each process"


class Jump(Error, ValueError):
    """`now` is more than `step` seconds past the record's moment. Nothing happened.

    If the clock is right, the validator was idle for longer than `step`: save its record, make a
    new validator, and load the record into it.
    """

    def __str__(self) -> str:
        return said(lib.JUMP)


class Gone(Error, ValueError):
    """The token has expired, so there is nothing to withdraw."""

    def __str__(self) -> str:
        return said(lib.GONE)


class TooFar(Error, ValueError):
    """The messages tell of a time more than `ahead` seconds past `now`. None of them was taken."""

    def __str__(self) -> str:
        return said(lib.TOO_FAR)


class BadBundles(Error, ValueError):
    """The trust bundles can't be read. A validator that has bundles keeps the ones that it has."""


class BadMessages(Error, ValueError):
    """The bytes are no messages of a validator. None of them was taken.

    `reason` is a name of docs/FORMATS.md, as "Truncated"; or "TooMuch" for more than 67,108,864
    bytes, or "NotSummary". `message` is which of the messages is bad, counted from 1, and `offset`
    the number of the bad byte in it, counted from 0; both are 0 for "TooMuch" and "NotSummary".
    """

    def __init__(self, reason: str, message: int, offset: int) -> None:
        super().__init__(reason, message, offset)
        self.reason = reason
        self.message = message
        self.offset = offset

    def __str__(self) -> str:
        where = f" in message {self.message} at byte {self.offset}" if self.message else ""
        return f"{self.reason}{where}: {message_words(self.reason)}"


class NotAllowed(Error):
    """The token is good, and none of the `callers` of the validator allows its subject.

    Answer with status 403. The token is not used up.
    """

    def __str__(self) -> str:
        return "the token is good, and its subject is none of the callers that may call"


class Unavailable(Error):
    """Nobody accepts the token: the disk or the store failed, or did not answer in time.

    Answer with status 503. The token may be used up all the same, and its client needs a new one.
    `reason` is the word by which its client hears why, as "NotKept" (docs/SIDECAR-REFERENCE.md).
    """

    def __init__(self, text: str, reason: str = "NotJudged") -> None:
        super().__init__(text)
        self.reason = reason


class Held(Error):
    """Another process has the state folder. Stop it, or give this one a folder of its own."""

    def __init__(self, folder: str, holder: str) -> None:
        super().__init__(folder, holder)
        self.folder = folder
        self.holder = holder

    def __str__(self) -> str:
        return (
            f"the state folder {self.folder} is held by {self.holder}: stop it, or give this one a "
            "folder of its own"
        )


class Damaged(Error):
    """A file of the state folder is damaged at this byte (`offset`). No crash leaves such a file.

    Look for a failing disk, and put back a copy of the file of the same day. Without one,
    docs/SIDECAR-OPERATION.md says what to do ("A damaged state folder").
    """

    def __init__(self, file: str, offset: int) -> None:
        super().__init__(file, offset)
        self.file = file
        self.offset = offset

    def __str__(self) -> str:
        return (
            f"{self.file} is damaged at byte {self.offset}: look for a failing disk, and put back "
            "a copy of the file of the same day"
        )


class OtherFormat(Error):
    """A file of the state folder has another format than 2, which this version reads.

    Only builds of 0.2 before its release wrote format 1. Of a greater one, run the version that
    wrote it, or a later one.
    """

    def __init__(self, file: str, format: int) -> None:
        super().__init__(file, format)
        self.file = file
        self.format = format

    def __str__(self) -> str:
        if self.format == 1:
            return (
                f"{self.file} has format 1, which only builds of 0.2 before its release wrote: let "
                "such a build write the folder's messages (svidd check-state --messages)"
            )
        return (
            f"{self.file} has format {self.format}: run the version that wrote it, or a later one"
        )


class Refused(Error):
    """The token is refused, and the record has gained no use. The subclass says why.

    A token has the first reason that holds, in the order of the subclasses below.
    `name` is the name that the program `svid` prints, as "Replayed". Nothing of the token is in the
    error, so you can log it.
    """

    @property
    def name(self) -> str:
        """The name of the reason."""
        return type(self).__name__

    def __str__(self) -> str:
        number = next((it for it, kind in REFUSALS.items() if isinstance(self, kind)), None)
        return self.name if number is None else f"{self.name}: {said(number)}"


# lists:begin refusals (written by tools/lists from lists/refusals.toml)
class TooLong(Refused):
    """The token has more than 65,536 bytes."""


class NotThreeParts(Refused):
    """The token has not exactly two periods."""


class HeaderSpelling(Refused):
    """The header is not base64url."""


class HeaderNotObject(Refused):
    """The header is no JSON object."""


class Crit(Refused):
    """The header has a member `crit`."""


class Alg(Refused):
    """`alg` is none of the nine algorithms RS256 to RS512, ES256 to ES512 and PS256 to PS512."""


class Typ(Refused):
    """`typ` is there, and is neither "JWT" nor "JOSE"."""


class Kid(Refused):
    """`kid` is there, and is no string."""


class PayloadSpelling(Refused):
    """The payload is not base64url."""


class PayloadNotObject(Refused):
    """The payload is no JSON object."""


class SignatureSpelling(Refused):
    """The signature is empty, or not base64url."""


class Sub(Refused):
    """`sub` is no SPIFFE ID."""


class Aud(Refused):
    """`aud` is neither a string nor a list of one or more strings."""


class Exp(Refused):
    """`exp` is no whole number from 0 to 2^64-1, written with digits alone."""


class Nbf(Refused):
    """`nbf` is there, and is no whole number from 0 to 2^64-1."""


class Jti(Refused):
    """`jti` is there, and is no string."""


class NotAudience(Refused):
    """No value of `aud` is one of the validator's audiences."""


class Expired(Refused):
    """The token has expired: `exp` is not greater than the record's moment."""


class NotYet(Refused):
    """The token is not valid yet: `nbf` is greater than the record's moment."""


class TooLongLived(Refused):
    """The token expires more than `longest` seconds past the record's moment."""


class UnknownDomain(Refused):
    """The bundles have no trust domain of this name."""


class NoKey(Refused):
    """The trust domain has no key that fits `alg` and `kid`."""


class BadSignature(Refused):
    """No key among the first 3 that fit made the signature."""


class Withdrawn(Refused):
    """The token was withdrawn."""


class Replayed(Refused):
    """The token was accepted before, here or by a validator whose messages were taken."""


REFUSALS: dict[int, type[Refused]] = {
    101: TooLong,
    102: NotThreeParts,
    103: HeaderSpelling,
    104: HeaderNotObject,
    105: Crit,
    106: Alg,
    107: Typ,
    108: Kid,
    109: PayloadSpelling,
    110: PayloadNotObject,
    111: SignatureSpelling,
    112: Sub,
    113: Aud,
    114: Exp,
    115: Nbf,
    116: Jti,
    117: NotAudience,
    118: Expired,
    119: NotYet,
    120: TooLongLived,
    121: UnknownDomain,
    122: NoKey,
    123: BadSignature,
    124: Withdrawn,
    125: Replayed,
}
"""Each reason for which a token is refused, by the number that the C library has for it."""
# lists:end
