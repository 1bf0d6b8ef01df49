"""The validator."""

from __future__ import annotations

import contextlib
import functools
import hashlib
import logging
import os
import pathlib
import tempfile
import threading
import time
import weakref
from collections.abc import Callable, Iterable, Iterator
from typing import Any, TypeVar

from . import _library as lib
from ._allow import allows, patterns
from ._bundles import Bundles
from ._folder import Path
from ._follow import Followed
from ._journal import Journal
from ._local import LocalStore
from ._member import Member
from ._signatures import Verifier, Verifies
from ._token import says
from .errors import BadMessages, NotAllowed, Refused
from .records import Accepted, Report, Use
from .stores import Store

_LOG = logging.getLogger("svid")
_YEAR_5138 = 100_000_000_000
_PIECE = 2**22
"""How many bytes of messages are written, or read of a file, at a time."""
_NOBODY = bytes(32)
_CLAIMS = ("strict", "bound")
"""The modes in which tokens are claimed in a store."""
_LEAST_WAIT = 0.001  # (the library counts milliseconds)
_LEAST_REFRESH = 0.01

Token = str | bytes


class Unlimited:
    """What `UNLIMITED` is."""

    def __repr__(self) -> str:
        return "svid.UNLIMITED"


UNLIMITED = Unlimited()
"""As `longest`: a token may live for as long as it wants."""
Seconds = int | Unlimited
Self = TypeVar("Self", bound="Validator")


class Validator:
    """Checks JWT-SVIDs, and remembers which were used.

    ::

        with svid.Validator(audiences=["ledger"], bundles="/etc/svid/bundles") as validator:
            accepted = validator.check(token)
            print(accepted.spiffe_id)

    Make one for each process, after the process was forked. Any number of threads may use it: one
    lock orders the calls of the C library. `check` holds it for some microseconds, and `take`,
    `answer` and `summary` for longer, the larger the record is. Signatures are verified, and files
    are read, without the lock. A signal handler may not use it, since it may interrupt a call.

    Every `now` is the time of the call in seconds since 1970, by default that of `clock`. One of
    100,000,000,000 or more, as milliseconds are, raises ValueError.
    Tokens are judged at the record's moment, the greatest time that it has seen.

    Each method raises Closed after `close`, Forked in a process that was forked from the one that
    made the validator, and MemoryError where there is no memory; each with `now` may raise Jump.
    """

    def __init__(
        self,
        *,
        audiences: str | Iterable[str],
        bundles: Bundles,
        mode: str = "once",
        callers: str | Iterable[str] | None = None,
        store: Store | None = None,
        longest: Seconds = 3600,
        ahead: int = 30,
        step: int | None = None,
        validator_id: bytes | None = None,
        refresh: float | None = 1.0,
        verifies: Verifies | None = None,
        rsa_bits: int = lib.USUAL_RSA_BITS,
        state: Path | None = None,
        wait: float = 2.0,
        clock: Callable[[], float] = time.time,
        on_refusal: Callable[[Refused | NotAllowed], object] | None = None,
        on_twice: Callable[[bytes], object] | None = None,
    ) -> None:
        """Makes a validator whose record is empty, or is that of `state`.

        audiences: this service's own names. A token is for it where one of them is in `aud`.
        bundles: the keys of each trust domain; see `svid.Bundles`. Files and addresses are followed
            until the validator is closed. What can't be read leaves the last good bundles as they
            are, and the logger "svid" has a warning.
        mode: how often a token is accepted. "once": once by this validator. "strict": once by all
            validators that share the `store`. "bound": again and again, but from one caller alone,
            by all that share the `store`. "reuse": again and again.
        callers: patterns of the SPIFFE IDs that may call (`svid.allows`). A good token of another
            caller raises NotAllowed, and is not used up. None lets all call.
        store: the store of the group, for "strict" and "bound". None in "bound" with `state` keeps
            the claims in its folder "claims", for this validator alone. In each mode but "strict"
            the validator hears the withdrawals of a `svid.TellingStore`, once a second. In "once"
            and "reuse" that is all that a store is for.
        longest: how many seconds a token may still live; a token that expires later is refused as
            TooLongLived. `svid.UNLIMITED` is no limit. It bounds how long a use stays in the
            record, and for how long a store that has lost entries lets nobody in.
        ahead: how many seconds a message's moment, or the store's time, may lie past `now`: a
            little more than clocks differ.
        step: a `now` more than so many seconds past the record's moment raises Jump, so that a
            wrong clock does not expire the record. None is no limit. After a longer pause you need
            a new validator, so set it to more than the longest time without a call.
        validator_id: 16 bytes that name this validator among all that share its record; by default
            random ones. Two validators of one ID accept a token twice.
        refresh: how many seconds pass between two looks at files of bundles, at least 0.01. None
            looks once.
        verifies: verifies signatures instead of the package `cryptography`; see `svid.Verifies`.
        rsa_bits: how many bits an RSA key may have, 2,048 to 16,384. A longer one verifies nothing,
            so that a token of a stranger costs little. It is not for `verifies`.
        state: a folder that keeps the record, so that no token that `check` returned is accepted
            again after a crash, a restart or a loss of power. The validator has the ID that is
            in it. In mode "once" `check` returns once the disk has the use, and so does `withdraw`
            in each mode. What `take` got is kept from the next snapshot on. See `svid.Journal`.
        wait: how many seconds `check` and `withdraw` may take, until they raise Unavailable. It is
            at least 0.001.
        clock: gives the time in seconds since 1970 (`svid.testing.Clock`).
        on_refusal: is called with each refusal of `check` and `judge` before they raise it. By
            default the logger "svid" has its name, at the level INFO. It has what a hook raises,
            too, which changes no answer.
        on_twice: is called with the key (`Use.key`) of a token that several validators accepted,
            when `take` learns that. By default the logger "svid" has a warning.

        Raises BadBundles, OSError for a file of bundles, and ValueError and TypeError for arguments
        that can't be. It does not wait for addresses: until bundles come from there, `unready` says
        so, and tokens are Unavailable. With `state` it raises what `svid.Journal` does, and TooFar
        where the clock is behind the record that was kept.
        """
        if validator_id is not None and (len(validator_id) != 16 or state is not None):
            raise ValueError("validator_id has 16 bytes, and a folder of state has its own")
        if refresh is not None and not refresh >= _LEAST_REFRESH:
            raise ValueError(f"refresh is None, or at least {_LEAST_REFRESH} seconds")
        if not wait >= _LEAST_WAIT:
            raise ValueError(f"wait is a number of seconds, and at least {_LEAST_WAIT}")
        if mode not in lib.MODES:
            raise ValueError(f"mode is one of {', '.join(lib.MODES)}, and not {mode!r}")
        if store is None and mode in _CLAIMS and (mode == "strict" or state is None):
            other = " or a state" if mode == "bound" else ""
            raise ValueError(f"give a store{other} in the mode {mode}")
        if store is not None and mode not in _CLAIMS and not hasattr(store, "withdrawals"):
            raise ValueError(f"in the mode {mode} a store tells its withdrawals, and this can't")
        self._verifies = verifies or Verifier(rsa_bits)
        self._seconds = functools.partial(_seconds, clock)
        self._on_refusal = on_refusal or _log_refusal
        self._on_twice = on_twice or _log_twice
        self._refresh = refresh
        self._renewing = threading.Lock()
        self._mode = mode
        self._callers = patterns(callers)
        terms = {
            "longest": lib.NO_LIMIT if longest is UNLIMITED else _limit("longest", longest),
            "ahead": _limit("ahead", ahead),
            "step": lib.NO_LIMIT if step is None else _limit("step", step),
        }
        own = _names(audiences)
        self._own = tuple(it.decode() for it in own)
        self._followed = Followed(bundles)
        if callers is not None and any(b"\n" in it for it in own):
            raise ValueError("with callers, no audience has a line feed")
        self._journal = None if state is None else Journal(state)
        self._local: LocalStore | None = None
        if self._journal is not None:
            validator_id = self._journal.validator_id
        elif validator_id is None:
            validator_id = os.urandom(16)
        try:
            text, edition = self._followed.now()
            if mode == "bound" and store is None and state is not None:
                claims = pathlib.Path(os.fsdecode(state)) / "claims"
                now = functools.partial(self._seconds, None)
                self._local = LocalStore(claims, terms["longest"], terms["ahead"], now)
                store = self._local
            self._handle = Member(
                **terms,
                validator_id=validator_id,
                own=own,
                bundles=text,
                edition=edition,
                clock=self._seconds,
                mode=mode,
                wait=wait,
                callers=self._callers,
                journal=self._journal,
                store=store,
            )
            self._start()
            self._follow(self._followed)
            self._drop_later()
        except BaseException:
            self._followed.drop()
            self._end_folders()
            raise

    def __enter__(self: Self) -> Self:
        return self

    def __exit__(self, *_: object) -> None:
        self.close()

    @property
    def waits(self) -> bool:
        """Whether `check` waits for a disk or a store: an event loop needs a thread for it."""
        return self._journal is not None or self._mode in _CLAIMS

    def _looks_first(self) -> bool:
        """Whether `check` and `judge` wait until the store's withdrawals are read."""
        return self._handle.looks_first()

    def _in_time(self, come: float) -> None:
        """Raises Unavailable if a request that came at this moment is late."""
        self._handle.in_time(come)

    @property
    def ready(self) -> bool:
        """Whether tokens are to be sent to this validator: `unready` says None."""
        return self.unready() is None

    def unready(self, now: float | None = None) -> str | None:
        """Says the first reason why no tokens are to be sent to this validator, as a sentence.

        None if it is ready. Ask it where a load balancer asks, as at the path /readyz: it also
        tries the disk and the store again, and advances the record to `now`.
        """
        return self._handle.unready(self._seconds(now))

    def close(self) -> None:
        """Frees the record and the bundles, and ends all threads. Closing twice does nothing."""
        self._followed.close()
        self._end_folders()
        self._handle.close()

    def _end_folders(self) -> None:
        for it in self._journal, self._local:
            if it is not None:
                it.close()

    def check(
        self, token: Token, now: float | None = None, *, caller: bytes | None = None
    ) -> Accepted:
        """Accepts a token, as `mode` says. Raises the subclass of Refused that says why not.

        Raises NotAllowed for a good token of who may not call. Raises Unavailable if the disk or
        the store fails, or if that takes longer than `wait`.

        caller: bytes that tell who presents the token, as its address or certificate, in mode
            "bound" alone.
        """
        if (caller is not None) != (self._mode == "bound"):
            raise ValueError("give a caller in the mode bound, and in no other one")
        who = _NOBODY if caller is None else hashlib.sha256(_lent(caller)).digest()
        clock, text = functools.partial(self._seconds, now), _bytes(token)
        try:
            accepted = self._handle.check(text, clock, who, self._verifies)
        except (Refused, NotAllowed) as why:
            _hear(self._on_refusal, why)
            raise
        self._tidy()
        return self._told(accepted, text)

    def judge(self, token: Token, now: float | None = None) -> Accepted:
        """Answers what `check` would, but the record gains no use: `check` may still accept it.

        It asks no store and knows no caller: a token that another validator accepted, or, in mode
        "bound", another caller's, may seem good to it.
        """
        moment, text = self._seconds(now), _bytes(token)
        try:
            read = self._handle.read(text, moment)
            try:
                accepted = self._handle.judge(read, moment, self._verifies)
            finally:
                read.close()
            if self._callers and not any(allows(it, accepted.spiffe_id) for it in self._callers):
                raise NotAllowed
        except (Refused, NotAllowed) as why:
            _hear(self._on_refusal, why)
            raise
        return self._told(accepted, text)

    def withdraw(self, token: Token, now: float | None = None) -> Use:
        """Withdraws a token until it expires: from now on it is refused as Withdrawn.

        Send the `message` of its result to the other validators. It verifies no signature: the
        token is withdrawn that has this trust domain and `jti`, or this text where it has no `jti`.
        Raises Gone for an expired token, and Refused for what is no JWT-SVID (TooLong to Jti).
        """
        said = says(_bytes(token))
        return self.withdraw_key(said.key, said.expires, now)

    def withdraw_key(self, key: bytes, expires: int, now: float | None = None) -> Use:
        """Withdraws the token with this key of 32 bytes (`Use.key`), which expires at `expires`.

        Raises Gone if it has expired.
        """
        if len(key) != 32:
            raise ValueError("a key has 32 bytes")
        use = self._handle.withdraw(self._seconds(now), _lent(key), _limit("expires", expires))
        self._tidy()
        return use

    def tick(self, now: float | None = None) -> None:
        """Advances the record to `now`, and drops what has expired by then."""
        self._handle.tick(self._seconds(now))

    def take(self, messages: bytes, now: float | None = None) -> None:
        """Takes messages of other validators: `Use.message`, `parts` and `answer` make them.

        Taking a message twice, or in another order, makes no difference. Raises TooFar and
        BadMessages, and then takes none of them. At most 67,108,864 bytes.
        """
        for key in self._handle.take_and_tell(self._seconds(now), _lent(messages)):
            _hear(self._on_twice, key)

    def parts(self, size: int = _PIECE) -> Iterator[bytes]:
        """The record as messages, each of at most so many bytes, which are 82 or more.

        You may make other calls in between. Together they have each use that the record had at the
        first of them, and that is still live at the last.
        """
        if size < lib.BATCH_OF_LEN:
            raise ValueError(f"size is {lib.BATCH_OF_LEN} bytes or more")
        return self._handle.parts(size)

    def summary(self) -> bytes:
        """A message of 8,205 bytes, for a validator that is to `answer` what is missing here."""
        return self._handle.summary()

    def answer(self, summary: bytes, now: float | None = None) -> bytes:
        """Answers the summary of another validator: messages with the uses that it may lack.

        Raises TooFar, and BadMessages where it is no summary.
        """
        return self._handle.answer(self._seconds(now), _lent(summary))

    def report(self) -> Report:
        """What the record holds, and which tokens were accepted more than once.

        It is for people and for tests: it makes an object for each use. Raises BadMessages
        ("TooMuch") for a record of more than 1,032,439 uses.
        """
        return Report.of(b"".join(self.parts()))

    def save(self, path: Path) -> None:
        """Writes the record to a file, which has the old record or the new one, whole, at any time.

        Raises OSError.
        """
        target = pathlib.Path(path)
        made, name = tempfile.mkstemp(prefix=target.name + ".", dir=target.parent)
        try:
            with open(made, "wb") as file:
                for part in self.parts():
                    file.write(part)
                file.flush()
                os.fsync(file.fileno())
            os.replace(name, target)
        except BaseException:
            os.unlink(name)
            raise

    def load(self, path: Path, now: float | None = None) -> None:
        """Takes the record of a file that `save` wrote. Raises OSError, TooFar and BadMessages."""
        messages = b""
        with open(path, "rb") as file:
            while more := file.read(_PIECE):
                messages += more
                messages = messages[self._take_whole(messages, now) :]
        if messages:
            self._join(messages, now)

    def _take_whole(self, messages: bytes, now: float | None) -> int:
        """Takes those that are whole, and gives how many bytes they are."""
        try:
            self._join(messages, now)
            return len(messages)
        except BadMessages as fault:
            # Of one that is cut off, the offset says how many of its bytes are there.
            if fault.reason != "Truncated":
                raise
            whole = len(messages) - fault.offset
        if whole:
            self._join(messages[:whole], now)
        return whole

    def _join(self, messages: bytes, now: float | None = None) -> None:
        """Takes messages of its own record."""
        self._handle.take(self._seconds(now), messages)

    def renew(self, bundles: Bundles | None = None) -> None:
        """Replaces the bundles, by default by what their sources have now. The record stays.

        From now on it follows the new sources. Files are read at once, and addresses are asked at
        once, but not waited for: the last good bundle of an address that had one stays until then.
        Raises what the constructor does for bundles; then the old ones stay.
        """
        self._handle.stand()  # (before the lock: a thread of the parent process may have held it)
        with self._renewing:
            before = self._followed
            now = Followed(before.given if bundles is None else bundles, before)
            try:
                self._follow(now)
                self._use(now)
            except BaseException:
                now.drop()
                raise
            self._dropping.detach()
            before.drop()
            self._followed = now
            self._drop_later()
        before.close()

    def _follow(self, followed: Followed) -> None:
        """Begins to follow the sources of bundles."""
        # (its threads must not keep the validator)
        followed.begin(weakref.WeakMethod(self._take), self._refresh)

    def _drop_later(self) -> None:
        """Lets the threads that follow the bundles end with the validator."""
        self._dropping = weakref.finalize(self, self._followed.drop)
        self._dropping.atexit = False

    def _take(self, followed: Followed) -> None:
        """Takes bundles that have changed, unless others are followed by now."""
        with self._renewing:
            if followed is self._followed:
                self._use(followed)

    def _use(self, followed: Followed) -> None:
        self._handle.renew(*followed.now())
        if isinstance(self._verifies, Verifier):
            self._verifies.forget()

    def _told(self, accepted: Accepted, token: bytes) -> Accepted:
        """An acceptance, with what the token says."""
        accepted._token, accepted._own = token, self._own
        return accepted

    def _start(self) -> None:
        """Takes the record that the state folder has."""
        if self._journal is not None:
            with contextlib.suppress(Exception):  # (who is warned must not end a start)
                for it in self._journal.torn:
                    _LOG.warning(
                        "a crash cut off a write at the end of %s: nobody had an answer", it
                    )
            self._journal.load(self._join)
            if self._journal.wants_snapshot:
                self._journal.snapshot(self.parts)
        self._handle.begin()

    def _tidy(self) -> None:
        """Writes a snapshot in the background, if one is due."""
        if self._journal is not None and self._journal.wants_snapshot:
            self._journal.snapshot_soon(self.parts)


def _bytes(token: Token) -> bytes:
    """A token's bytes; text that is not ASCII gives such that no token has."""
    if isinstance(token, str):
        return token.encode("utf-8", "surrogatepass")
    if isinstance(token, bytes):
        return token
    raise TypeError(f"a token is str or bytes, and not {type(token).__name__}")


def _lent(data: bytes) -> bytes:
    """Bytes as the library takes them."""
    if isinstance(data, (bytes, bytearray, memoryview)):
        return bytes(data)
    raise TypeError(f"messages and keys are bytes, and not {type(data).__name__}")


def _seconds(clock: Callable[[], float], now: float | None) -> int:
    if now is None:
        now = clock()
    if not isinstance(now, (int, float)):
        raise TypeError(f"now is a number of seconds, and not {type(now).__name__}")
    if not 0 <= now < _YEAR_5138:
        raise ValueError(f"now is in seconds since 1970, below {_YEAR_5138:,}: {now} is not")
    return int(now)


def _limit(name: str, seconds: Seconds) -> int:
    if not isinstance(seconds, (int, float)):
        raise TypeError(f"{name} is a number of seconds, and not {seconds!r}")
    if not 0 <= seconds <= lib.NO_LIMIT:
        raise ValueError(f"{name} is a number of seconds from 0 to 2^64-1")
    return int(seconds)


def _names(audiences: str | Iterable[str]) -> list[bytes]:
    """The audiences as the library takes them."""
    names = [audiences] if isinstance(audiences, str) else list(audiences)
    if not all(isinstance(name, str) for name in names):
        raise TypeError("audiences are a str, or several")
    if not names or not all(names):
        raise ValueError("audiences are one or more names, and none of them is empty")
    return [name.encode() for name in names]


def _hear(hook: Callable[[Any], object], what: object) -> None:
    """Tells a hook, whatever that does."""
    try:
        hook(what)
    except Exception:
        with contextlib.suppress(Exception):
            _LOG.warning("a hook of the service failed", exc_info=True)


def _log_refusal(why: Refused | NotAllowed) -> None:
    with contextlib.suppress(Exception):  # (a logger that fails changes no answer)
        _LOG.info("%s", type(why).__name__)


def _log_twice(key: bytes) -> None:
    with contextlib.suppress(Exception):
        _LOG.warning("a token was accepted more than once: %s", key.hex())
