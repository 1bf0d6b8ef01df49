"""libsvid for Python, by ctypes. Run as a program, it takes the arguments of use.c."""
import ctypes as c
import os
import sys

OK, TOO_SHORT = 0, 1
MOST_CANDIDATES = 3  # how many keys are tried for a token: SVID_MOST_CANDIDATES of the header
SPKI_ROOM, USUAL_RSA_BITS = 2100, 4096  # enough room for any key, and how many bits an RSA key may have


class Id(c.Structure):
    _fields_ = [("offset", c.c_size_t), ("domain_len", c.c_size_t), ("path_len", c.c_size_t)]


class Bearer(c.Structure):
    _fields_ = [("at", c.c_size_t), ("len", c.c_size_t)]


class Said(c.Structure):
    _fields_ = [("key", c.c_uint8 * 32), ("exp", c.c_uint64), ("texts", c.c_size_t)]


class Signed(c.Structure):
    _fields_ = [("len", c.c_size_t)]


class Size(c.Structure):
    _fields_ = [("moment", c.c_uint64), ("uses", c.c_size_t)]


class Told(c.Structure):
    _fields_ = [("len", c.c_size_t), ("input", c.c_size_t), ("message", c.c_size_t), ("offset", c.c_size_t), ("more", c.c_size_t)]

    def __str__(self):
        return f"input {self.input} message {self.message} offset {self.offset}"


class Setting(c.Structure):
    _fields_ = [("moment", c.c_uint64), ("longest", c.c_uint64), ("validator_id", c.c_uint8 * 16)]


class Use(c.Structure):
    _fields_ = [("exp", c.c_uint64), ("at", c.c_uint64), ("key", c.c_uint8 * 32), ("validator_id", c.c_uint8 * 16)]


class Entry(c.Structure):
    _fields_ = [("withdrawn", c.c_uint64), ("exp", c.c_uint64), ("at", c.c_uint64), ("key", c.c_uint8 * 32), ("validator_id", c.c_uint8 * 16)]


class Terms(c.Structure):
    _fields_ = [("longest", c.c_uint64), ("ahead", c.c_uint64), ("step", c.c_uint64), ("validator_id", c.c_uint8 * 16)]


class Key(c.Structure):
    _fields_ = [("bytes", c.c_uint8 * 32)]


class Part(c.Structure):
    _fields_ = [("begun", c.c_uint64), ("done", c.c_uint64), ("withdrawn", c.c_uint64), ("exp", c.c_uint64), ("at", c.c_uint64), ("key", c.c_uint8 * 32), ("validator_id", c.c_uint8 * 16)]


class Mark(c.Structure):
    _fields_ = [("passed", c.c_uint64), ("begun", c.c_size_t), ("deaf", c.c_uint64)]


class Fate(c.Structure):
    _fields_ = [("used", Use), ("fate", c.c_uint64)]


class Reading(c.Structure):
    _fields_ = [("order", c.c_uint64), ("from", c.c_size_t), ("count", c.c_size_t)]


class Folder(c.Structure):
    _fields_ = [("step", c.c_uint64), ("oldest", c.c_uint64), ("newest", c.c_uint64), ("ended", c.c_uint64), ("count", c.c_uint64), ("end", c.c_uint64), ("flying", c.c_uint64), ("pieces", c.c_uint64)]


class FolderId(c.Structure):
    _fields_ = [("bytes", c.c_uint8 * 16)]


class Due(c.Structure):
    _fields_ = [("call", c.c_uint64), ("journal", c.c_uint64)]


class Reader(c.Structure):
    _fields_ = [("count", c.c_uint64), ("at", c.c_uint64), ("marked", c.c_uint64)]


class Frame(c.Structure):
    _fields_ = [("payload", c.c_size_t), ("len", c.c_size_t), ("format", c.c_uint64)]


class Bears(c.Structure):
    _fields_ = [("mark", Mark), ("marked", c.c_size_t), ("messages", c.c_size_t)]


class Document(c.Structure):
    _fields_ = [("name_len", c.c_size_t), ("text_len", c.c_size_t), ("keys", c.c_uint64)]


class Digests(c.Structure):
    _fields_ = [("moment", c.c_uint64), ("digests", c.c_uint8 * 32 * 256)]


class MemberTerms(c.Structure):
    _fields_ = [("mode", c.c_uint64), ("disk", c.c_uint64), ("store", c.c_uint64), ("log", c.c_uint64), ("wait", c.c_uint64), ("ahead", c.c_uint64), ("lasts", c.c_uint64), ("life", c.c_uint8 * 16)]


class Known(c.Structure):
    _fields_ = [("bundled", c.c_uint64), ("loaded", c.c_uint64), ("opened", c.c_uint64), ("heard", c.c_uint64), ("joined", c.c_uint64), ("caught_up", c.c_uint64), ("draining", c.c_uint64), ("jumped", c.c_uint64), ("full", c.c_uint64), ("away", c.c_uint64), ("deaf", c.c_uint64), ("ended", c.c_uint64)]


class Deed(c.Structure):
    _fields_ = [("what", c.c_uint64), ("number", c.c_uint64), ("status", c.c_uint64), ("next", c.c_uint64), ("used", Use)]


class Found(c.Structure):
    _fields_ = [("time", c.c_uint64), ("deaf", c.c_uint64), ("owner", c.c_uint8 * 32)]


class KnownClaim(c.Structure):
    _fields_ = [("exp", c.c_uint64), ("key", c.c_uint8 * 32), ("found", Found)]


class Deadline(c.Structure):
    _fields_ = [("at", c.c_uint64)]


class Withdrawal(c.Structure):
    _fields_ = [("number", c.c_uint64), ("disk", c.c_uint64), ("store", c.c_uint64), ("log", c.c_uint64)]


class Pacing(c.Structure):
    _fields_ = [("calls", c.c_uint64), ("at", c.c_uint64), ("pause", c.c_uint64)]


class Refused(Exception):
    """Why a call gave up: its status, and what it told."""


lib = c.CDLL(os.environ.get("LIBSVID", "libsvid.so"))


def parse(text):
    """The trust domain name and the path of a SPIFFE ID."""
    out = Id()
    status = lib.svid_id_parse(text, c.c_size_t(len(text)), c.byref(out))
    if status != OK:
        raise Refused(f"{status} at {out.offset}")
    return text[9 : 9 + out.domain_len], text[9 + out.domain_len :]


def lent(inputs):
    """The arguments that inputs are: where each stands, and how long it is."""
    return [it for text in inputs for it in (text, c.c_size_t(len(text)))]


def call(name, inputs, now=None):
    """What svid_NAME writes of the inputs, at a moment where it takes one."""
    args = lent(inputs) + ([] if now is None else [c.c_uint64(now)])
    told, room = Told(), 0
    while True:
        out = c.create_string_buffer(room + 1)
        status = getattr(lib, "svid_" + name)(*args, out, c.c_size_t(room), c.byref(told))
        if status == OK:
            return out.raw[: told.len]
        if status != TOO_SHORT:
            raise Refused(f"{status} {told}")
        room = told.len


def key_spki(key, alg):
    """A key, which is JSON, as SubjectPublicKeyInfo for the algorithm of this name."""
    out, told = c.create_string_buffer(SPKI_ROOM), Told()
    status = lib.svid_key_spki(*lent([key, alg]), c.c_size_t(USUAL_RSA_BITS), out, c.c_size_t(SPKI_ROOM), c.byref(told))
    if status != OK:
        raise Refused(f"{status} {told}")
    return out.raw[: told.len]


def main(what, rest):
    if what == "id":
        return b"domain %s\npath %s\n" % parse(rest[0].encode())
    return call(what, [open(it, "rb").read() for it in rest[1:]], int(rest[0]))


if __name__ == "__main__":
    try:
        sys.stdout.buffer.write(main(sys.argv[1], sys.argv[2:]))
    except Refused as why:
        sys.exit(f"refused: {why}")
