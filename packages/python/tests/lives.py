"""Opens and closes many validators in a process of its own, and prints twice what is still held.

    lives.py FOLDER LIVES       once after twenty lives, and once more at the end of all

test_leaks.py runs it. In each life every public call is made: a validator opens, accepts, refuses,
hears of withdrawals, is renewed, reads its files again, writes a snapshot, fails, and closes.
"""

import contextlib
import ctypes
import gc
import json
import os
import pathlib
import sys

import svid
import svid.asgi
import svid.testing
from making import PATIENCE, until

AUDIENCE = "ledger"
# So much has each token, and each key: what one of them left would be more than all else of a life.
PAD = "p" * 10_000
WARM = 20  # lives that fill what keeps the last few keys


class Mallinfo(ctypes.Structure):
    """`struct mallinfo2` of the C library's malloc, from which OpenSSL and libsvid have theirs."""

    _fields_ = [
        (name, ctypes.c_size_t)
        for name in ("arena", "ordblks", "smblks", "hblks", "hblkhd", "usmblks", "fsmblks")
        + ("uordblks", "fordblks", "keepcost")
    ]


def held():
    """What this process holds."""
    mallinfo = ctypes.CDLL(None).mallinfo2
    mallinfo.restype = Mallinfo
    gc.collect()
    now = mallinfo()
    return {
        "descriptors": len(os.listdir("/proc/self/fd")),
        "threads": len(os.listdir("/proc/self/task")),
        "objects": len(gc.get_objects()),
        "bytes": now.uordblks + now.hblkhd,
    }


class Lives:
    """Validators that come and go, in a folder."""

    def __init__(self, folder):
        self.folder = pathlib.Path(folder)
        self.bundles = self.folder / "bundles"
        self.bundles.mkdir()
        self.issuer = svid.testing.Issuer()
        self.told = 0
        self.write()

    def write(self):
        """The file of bundles has the issuer's newest key alone."""
        made = self.bundles / "made"
        keys = [it | {"pad": PAD} for it in self.issuer.bundle["keys"]]
        made.write_text(json.dumps({"keys": keys}))
        made.rename(self.bundles / "example.org.json")

    def validator(self, **terms):
        usual = {"audiences": AUDIENCE, "bundles": self.bundles, "wait": PATIENCE}
        return svid.Validator(**usual | {"on_refusal": self.tell, "on_twice": self.tell} | terms)

    def token(self):
        return self.issuer.token(aud=AUDIENCE, pad=PAD)

    def tell(self, _):
        self.told += 1

    def fails(self, error, call, *given, **named):
        """The call raises this error, or one of its kind."""
        try:
            call(*given, **named)
        except error:
            return
        raise AssertionError(f"{call} does not raise {error}")

    def live(self):
        """One life of each kind."""
        self.once()
        self.claims()
        self.faults()

    def once(self):
        """Mode once, over a state folder, with a store that tells of withdrawals."""
        store, state = svid.testing.MemoryStore(), self.folder / "state"
        with self.validator(state=state, store=store, refresh=0.01) as checks:
            one, two = (self.token() for _ in range(2))
            accepted = checks.check(one)
            assert accepted.audience == AUDIENCE and accepted.claims and accepted.key_id
            assert accepted.path and accepted.trust_domain and accepted.expires
            for how in "expired", "wrong_audience", "bad_signature", "unknown_key", "malformed":
                wrong = self.issuer.wrong(how, aud=AUDIENCE, pad=PAD)
                for call in checks.check, checks.judge:
                    self.fails(svid.Refused, call, wrong)
            self.fails(svid.Replayed, checks.check, one)
            self.fails(svid.Replayed, checks.judge, one)
            checks.withdraw(two)
            self.fails(svid.Withdrawn, checks.check, two)
            self.exchange(checks)
            self.reload(checks)
            checks.renew()
            checks._journal.snapshot(checks.parts)
            self.fails(ZeroDivisionError, checks._journal.snapshot, lambda: 1 / 0)
            assert checks.unready() is None
            self.fails(svid.Held, self.validator, state=state)
        self.fails(svid.Closed, checks.check, one)

    def exchange(self, checks):
        """Two validators tell each other."""
        with self.validator() as other:
            one = self.token()
            other.check(one)
            checks.check(one)
            before = self.told
            checks.take(other.check(self.token()).use.message)
            checks.take(b"".join(other.parts()))
            assert self.told == before + 1
            other.take(checks.answer(other.summary()))
            self.fails(svid.BadMessages, checks.take, b"no messages")
            checks.save(self.folder / "saved")
            other.load(self.folder / "saved")
            assert other.report().uses

    def reload(self, checks):
        """A file changes, and the validator follows."""
        self.issuer.rotate(keep=False)
        self.write()
        one = self.token()

        def is_read():
            with contextlib.suppress(svid.NoKey):
                return checks.judge(one)

        until(is_read)

    def claims(self):
        """Modes strict and bound, and a store that fails."""
        store = svid.testing.MemoryStore()
        with self.validator(mode="strict", store=store) as checks:
            one = self.token()
            checks.check(one)
            self.fails(svid.Replayed, checks.check, one)
            checks.withdraw(one)
        with self.validator(mode="bound", state=self.folder / "bound") as checks:
            one = self.token()
            for _ in range(2):
                checks.check(one, caller=b"owner")
            self.fails(svid.Replayed, checks.check, one, caller=b"thief")

    def faults(self):
        """What does not open, and what does not answer."""
        self.fails(svid.BadBundles, self.validator, bundles=b"[]")
        self.fails(FileNotFoundError, self.validator, bundles=self.folder / "none.json")
        self.fails(ValueError, self.validator, callers=[])
        with self.validator(mode="strict", store=Away(), wait=0.001) as checks:
            self.fails(svid.Unavailable, checks.check, self.token())
            assert checks.unready()


class Away:
    """A store that does not answer."""

    def put(self, claims):
        raise ConnectionError("the store is away")

    def withdraw(self, key, expires):
        raise ConnectionError("the store is away")


def main(folder, lives):
    made, found = Lives(folder), []
    threads = len(os.listdir("/proc/self/task"))
    for count in WARM, lives - WARM:
        for _ in range(count):
            made.live()
        # (a thread that puts claims ends by itself, and nobody waits for it)
        until(lambda: len(os.listdir("/proc/self/task")) == threads)
        found.append(held())
    print(json.dumps(found))


if __name__ == "__main__":
    main(sys.argv[1], int(sys.argv[2]))
