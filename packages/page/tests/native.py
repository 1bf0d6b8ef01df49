"""native.py LIBSVID.so: makes the calls that it reads on standard input by the library for Linux, and writes what each answers.

A call is its kind (a byte), a time (8 bytes, the least first) and its inputs: how many there are (a byte), and each after its length in
4 bytes. The kind 0 asks for nothing but that all answers so far be written. An answer stands after its length in 4 bytes; what stands in
it is what differ.test.mjs takes from the module."""

import ctypes as c
import struct
import sys

ROOM = 1 << 22
MOST_CANDIDATES = 3
ANY = 2**64 - 1


class Told(c.Structure):
    _fields_ = [(name, c.c_size_t) for name in ("len", "input", "message", "offset", "more")]


class Use(c.Structure):
    _fields_ = [("exp", c.c_uint64), ("at", c.c_uint64), ("key", c.c_uint8 * 32), ("validator_id", c.c_uint8 * 16)]


class Terms(c.Structure):
    _fields_ = [("longest", c.c_uint64), ("ahead", c.c_uint64), ("step", c.c_uint64), ("validator_id", c.c_uint8 * 16)]


lib = c.CDLL(sys.argv[1])
out = c.create_string_buffer(ROOM)


def lent(*inputs):
    return [it for text in inputs for it in (text, c.c_size_t(len(text)))]


def words(*numbers):
    return struct.pack(f"<{len(numbers)}Q", *numbers)


def told_text(status, told):
    """A status, the fields of svid_told, and the text, as the glue tells them."""
    return words(status, told.len, told.input, told.message, told.offset) + (out[: told.len] if status == 0 else b"")


def id_parse(_, text):
    found = (c.c_size_t * 3)()
    return words(lib.svid_id_parse(*lent(text), found), *found)


def join(now, a, b):
    told = Told()
    return told_text(lib.svid_join(*lent(a, b), c.c_uint64(now), out, c.c_size_t(ROOM), c.byref(told)), told)


def report(now, messages):
    told = Told()
    return told_text(lib.svid_report(*lent(messages), c.c_uint64(now), out, c.c_size_t(ROOM), c.byref(told)), told)


def ticked(handle, now, status):
    return lib.svid_validator_tick(handle, c.c_uint64(now), c.byref(Told())) or status


def signature_of(token):
    over, told = c.c_size_t(), Told()
    lib.svid_token_signature(*lent(token), c.byref(over), out, c.c_size_t(ROOM), c.byref(told))
    return over.value, out[: told.len]


def asked(handle, token):
    read, told = (c.c_uint64 * 2)(), Told()
    status = lib.svid_token_open(read, *lent(token), c.byref(told))
    if status == 0:
        status = lib.svid_validator_ask_token(handle, read, c.c_size_t(MOST_CANDIDATES), out, c.c_size_t(ROOM), c.byref(told))
    lib.svid_token_close(read)
    return told_text(status, told)


def verdict(call, handle, now, by, token):
    read, used, told = (c.c_uint64 * 2)(), Use(), Told()
    status = lib.svid_token_open(read, *lent(token), c.byref(told))
    if status:
        return words(ticked(handle, now, status))
    over, signature = signature_of(token)
    shown = lent(by, token[:over], signature) if by else lent(b"", b"", b"")
    status = call(handle, c.c_uint64(now), *shown, read, out, c.c_size_t(2048), c.byref(used), c.byref(told))
    lib.svid_token_close(read)
    return words(status) + (words(used.exp, used.at) + bytes(used.key) + out[: told.len] if status == 0 else b"")


def session(now, longest, validator_id, own, bundles, messages, token, by, key_exp):
    """A validator from its opening to its end: each call that the page makes, in turn."""
    handle, told = (c.c_uint64 * 2)(), Told()
    terms = Terms(int.from_bytes(longest, "little"), ANY, ANY, (c.c_uint8 * 16)(*validator_id))
    status = lib.svid_validator_open(handle, c.byref(terms), *lent(own, bundles), c.byref(told))
    if status:
        return words(status, told.offset)
    status = lib.svid_validator_take(handle, c.c_uint64(0), *lent(messages), c.byref(told))
    said = words(status, told.input, told.message, told.offset)
    said += asked(handle, token)
    said += verdict(lib.svid_validator_judge_token, handle, now, by, token)
    said += verdict(lib.svid_validator_check_token, handle, now, by, token)
    used, key = Use(), (c.c_uint8 * 32)(*key_exp[:32])
    exp = int.from_bytes(key_exp[32:], "little")
    said += words(lib.svid_validator_withdraw(handle, c.c_uint64(now), key, c.c_uint64(exp), c.byref(used), c.byref(told)))
    said += verdict(lib.svid_validator_check_token, handle, now, by, token)
    told = Told()
    said += told_text(lib.svid_validator_tell(handle, out, c.c_size_t(ROOM), c.byref(told)), told)
    lib.svid_validator_close(handle)
    return said


CALLS = {1: id_parse, 2: join, 3: report, 4: session}


def main():
    read, write = sys.stdin.buffer.read, sys.stdout.buffer.write
    while head := read(1):
        if head == b"\0":
            sys.stdout.buffer.flush()
            continue
        now, count = struct.unpack("<QB", read(9))
        inputs = [read(struct.unpack("<I", read(4))[0]) for _ in range(count)]
        answer = CALLS[head[0]](now, *inputs)
        write(struct.pack("<I", len(answer)) + answer)


if __name__ == "__main__":
    main()
