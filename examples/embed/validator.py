"""A validator of libsvid for Python, by ctypes: live.py uses it."""
import ctypes as c
import os
import struct
import threading
from svid import MOST_CANDIDATES, Key, Part, Refused, Terms, Told, Use, lib

BIG = 2**64 - 1


class Validator:
    """A validator that this process keeps, for any number of threads: a lock orders their calls. Use it by `with`, which closes it."""

    def __init__(self, own, bundles, longest=BIG, ahead=10, step=86_400, validator_id=None):
        self.handle = (c.c_uint64 * 2)()
        self.lock = threading.Lock()
        terms = Terms(longest, ahead, step, (c.c_uint8 * 16)(*(validator_id or os.urandom(16))))
        names = [name.encode() for name in own]
        lens = (c.c_size_t * len(names))(*map(len, names))
        self._call("open_by_lengths", c.byref(terms), *self._lent(b"".join(names)), lens, c.c_size_t(len(names)), *self._lent(bundles))

    def __enter__(self):
        return self

    def __exit__(self, *_):
        with self.lock:
            lib.svid_validator_close(self.handle)

    @staticmethod
    def _lent(text):
        return text, c.c_size_t(len(text))

    def _call(self, name, *args):
        told = Told()
        with self.lock:
            status = getattr(lib, "svid_validator_" + name)(self.handle, *args, c.byref(told))
        if status != 0:
            raise Refused(status, str(told), told.len)
        return told.len

    def _text(self, name, *args, room=65_536):
        out = c.create_string_buffer(room)
        try:
            size = self._call(name, *args, out, c.c_size_t(room))
            return out.raw[:size]
        except Refused as refused:
            if refused.args[0] != 1:
                raise
            return self._text(name, *args, room=refused.args[2])

    def ask(self, read):
        """What a verifier needs of a token that was read: over how many of its bytes the signature is made, the signature, and the first MOST_CANDIDATES
        keys that may have made it, each with the algorithm's name before it, as JSON."""
        text = self._text("ask_token", read, c.c_size_t(MOST_CANDIDATES))
        fields, rest = [], text[4:]
        while rest:
            end = 4 + struct.unpack(">I", rest[:4])[0]
            fields, rest = [*fields, rest[4:end]], rest[end:]
        return struct.unpack(">I", text[:4])[0], fields[0], list(zip(fields[1::2], fields[2::2]))

    def check(self, now, token, verifies):
        """The subject's ID and the use of an accepted token. `verifies` says whether a key, as JSON, made its signature; it is called
        without the lock."""
        read, told = (c.c_uint64 * 2)(), Told()
        status = lib.svid_token_open(read, *self._lent(token), c.byref(told))
        try:
            if status != 0:
                self._call("tick", c.c_uint64(now))  # One that can't be read shows the validator the time, too.
                raise Refused(status, str(told), told.len)
            return self._check(now, token, read, verifies)
        finally:
            lib.svid_token_close(read)

    def _check(self, now, token, read, verifies):
        try:
            length, signature, keys = self.ask(read)
        except Refused as refused:
            if refused.args[0] <= 100:
                raise
            # Where no key may have signed the token, the check answers the first refusal that holds, which may be another.
            length, signature, keys = 0, b"", []
        key = next((key for alg, key in keys if verifies(alg, key, token)), b"")
        shown = [*self._lent(key), *self._lent(token[:length]), *self._lent(signature)]
        out, used = c.create_string_buffer(2048), Use()
        size = self._call("check_token", c.c_uint64(now), *shown, read, out, c.c_size_t(2048), c.byref(used))
        return out.raw[:size].decode(), used

    def take(self, now, messages):
        self._call("take", c.c_uint64(now), *self._lent(messages))

    def tell(self):
        return self._text("tell")

    def save(self, room=65_536):
        """The record, a batch a call."""
        part = Part()
        while not part.done:
            yield self._text("parts", c.byref(part), room=room)

    def withdraw(self, now, key, exp):
        self._call("withdraw", c.c_uint64(now), c.byref(Key(key)), c.c_uint64(exp), c.byref(Use()))

    def bundles(self, text):
        self._call("bundles", *self._lent(text))
