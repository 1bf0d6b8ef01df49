"""The formats of docs/FORMATS.md, written from that page alone."""

import hashlib
import json

MAGIC = b"JSR\x02"
OLD_MAGIC = b"JSR\x01"
EMPTY = hashlib.sha256().digest()


def word(value, size=8):
    return value.to_bytes(size, "big")


# Uses and messages ("Uses", "Messages", "Records")


def use(exp, key, validator_id, at, withdrawn=False):
    """The 65 bytes of a use. A key or a validator ID of one number has that byte all over."""
    key = bytes([key]) * 32 if isinstance(key, int) else key
    validator_id = bytes([validator_id]) * 16 if isinstance(validator_id, int) else validator_id
    return word(exp) + key + validator_id + word(at) + bytes([withdrawn])


def batch(moment, *uses, count=None, magic=MAGIC):
    return magic + b"\1" + word(moment) + word(len(uses) if count is None else count, 4) + b"".join(uses)


def old_batch(moment, *uses, **how):
    return batch(moment, *(it[:64] for it in uses), magic=OLD_MAGIC, **how)


def claim(of):
    """The batch of one use, of its own time."""
    return batch(int.from_bytes(of[56:64], "big"), of)


def live(uses, moment):
    return sorted({it for it in uses if int.from_bytes(it[:8], "big") > moment})


def record(moment, *uses):
    """The text of a record of no more than 65,536 uses."""
    return batch(moment, *live(uses, moment))


def summary(moment, *uses):
    buckets = [hashlib.sha256() for _ in range(256)]
    for it in live(uses, moment):
        buckets[it[8]].update(it)
    return MAGIC + b"\2" + word(moment) + b"".join(it.digest() for it in buckets)


def report(moment, *uses):
    uses = live(uses, moment)
    lines = [f"moment {moment}", f"uses {len(uses)}"]
    times = {}
    for it in uses:
        key = it[8:40].hex()
        gone = it[64] == 1
        lines.append(f"{number(it[:8])} {key} {it[40:56].hex()} {number(it[56:64])}" + " withdrawn" * gone)
        times[key] = times.get(key, 0) + (not gone)
    twice = sorted((key, count) for key, count in times.items() if count > 1)
    return "".join(f"{line}\n" for line in [*lines, f"twice {len(twice)}", *(f"{key} {count}" for key, count in twice)])


def number(data):
    return int.from_bytes(data, "big")


# Questions and keys of tokens ("Question", "Key of a token")


def compact(value):
    return json.dumps(value, ensure_ascii=False, separators=(",", ":"), sort_keys=True)


def question(domain, key_text, alg, token):
    """Whether the key of this JSON text made the token's signature."""
    from .crypto import unb64

    signed, _, signature = token.rpartition(".")
    fields = [domain.encode(), compact(json.loads(key_text)).encode(), alg.encode(), signed.encode(), unb64(signature)]
    return hashlib.sha256(b"".join(word(len(field), 4) + field for field in fields)).hexdigest()


def key_of(domain, jti, token):
    if jti:
        text = b"\1" + word(len(domain), 4) + domain.encode() + jti.encode()
    else:
        text = b"\0" + token.rpartition(".")[0].encode()
    return hashlib.sha256(text).digest()


# State folders ("State folder")

CELL = 8  # a frame begins at a multiple of so many bytes, and is filled up to one
FORMAT = 2
JOURNAL, SNAPSHOT = b"svidjnl", b"svidsnp"


def frame(folder_id, journal, number_, payload, format_=FORMAT):
    """A frame of the journal of a number, or of the snapshot if that is 0."""
    cell = word(number_) + bytes([format_]) + word(len(payload), 3)
    kind = SNAPSHOT if journal == 0 else JOURNAL
    sealed = bytes([format_]) + kind + word(journal) + folder_id + cell + payload
    text = hashlib.sha256(sealed).digest()[:20] + cell + payload
    return text + b"\xff" * (-len(text) % CELL)


def file(folder_id, journal, *payloads):
    return b"".join(frame(folder_id, journal, n, it) for n, it in enumerate(payloads, start=1))
