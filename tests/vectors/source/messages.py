"""messages.json: rows of messages, what they tell, and what is wrong with bytes that are none."""

from . import formats
from .formats import OLD_MAGIC, batch, old_batch, report, summary, use

BATCH = 'docs/FORMATS.md, "Messages"'
OLD = 'docs/FORMATS.md, "Batches of version 1"'
FAULT = 'docs/FORMATS.md, "What is wrong with bytes that are no messages"'
RECORDS = 'docs/FORMATS.md, "Records"'

ONE = use(200, 0x11, 0x22, 99)
TWO = use(200, 0x11, 0x33, 100)
GONE = use(250, 0x11, 0x22, 90, True)
THREE = use(300, 0x44, 0x22, 50)
FOUR = use(150, 0xFF, 0x22, 100)


def told(name, source, messages, moment, *uses, now=0):
    """Messages, and the record that they tell, advanced to a time."""
    return {
        "name": name,
        "from": source,
        "messages": messages.hex(),
        "now": now,
        "record": formats.record(moment, *uses).hex(),
        "report": report(moment, *uses),
    }


def bad(name, messages, reason, message, offset, source=FAULT):
    return {
        "name": name,
        "from": source,
        "messages": messages.hex(),
        "now": 0,
        "fault": {"reason": reason, "message": message, "offset": offset},
    }


def vectors():
    yield from records()
    yield from faults()


def records():
    yield told("no message", RECORDS, b"", 0)
    yield told("a batch without uses", BATCH, batch(100), 100)
    yield told("a batch of moment 0", BATCH, batch(0), 0)
    yield told("a batch of two uses", BATCH, batch(100, ONE, TWO), 100, ONE, TWO)
    example = batch(100, use(101, 0x11, 0x22, 99), use(101, 0x11, 0x33, 100))
    yield told("the example of 147 bytes", BATCH, example, 100, use(101, 0x11, 0x22, 99), use(101, 0x11, 0x33, 100))
    yield told("a withdrawal", BATCH, batch(100, GONE), 100, GONE)
    yield told(
        "a use and a withdrawal of the same bytes",
        BATCH,
        batch(100, ONE, use(200, 0x11, 0x22, 99, True)),
        100,
        ONE,
        use(200, 0x11, 0x22, 99, True),
    )
    yield told("two batches", RECORDS, batch(100, ONE, TWO) + batch(90, THREE), 100, ONE, TWO, THREE)
    yield told("two batches in the other order", RECORDS, batch(90, THREE) + batch(100, ONE, TWO), 100, ONE, TWO, THREE)
    yield told("a batch twice", RECORDS, batch(100, ONE) * 2, 100, ONE)
    yield told("batches that share a use", RECORDS, batch(100, ONE, TWO) + batch(100, TWO, THREE), 100, ONE, TWO, THREE)
    yield told("a later batch, at which a use has expired", RECORDS, batch(100, FOUR, ONE) + batch(150), 150, ONE)
    yield told("a later batch in front", RECORDS, batch(150) + batch(100, FOUR, ONE), 150, ONE)
    yield told("a later batch, at which all has expired", RECORDS, batch(100, FOUR, ONE) + batch(2**64 - 1), 2**64 - 1)
    yield told(
        "a use that never expires",
        BATCH,
        batch(2**64 - 2, use(2**64 - 1, 0, 0, 2**64 - 2)),
        2**64 - 2,
        use(2**64 - 1, 0, 0, 2**64 - 2),
    )
    yield told("advanced to a time", RECORDS, batch(100, FOUR, ONE), 150, ONE, now=150)
    yield told("advanced to the moment of a use's end", RECORDS, batch(100, FOUR, ONE), 200, now=200)
    yield told("advanced to an earlier time", RECORDS, batch(100, FOUR, ONE), 100, ONE, FOUR, now=99)
    yield told("a batch of version 1", OLD, old_batch(100, ONE, TWO), 100, ONE, TWO)
    yield told("batches of both versions", OLD, old_batch(100, ONE) + batch(90, THREE) + old_batch(80), 100, ONE, THREE)
    yield told("a summary alone", RECORDS, summary(500, ONE), 0)
    yield told("a summary between batches", RECORDS, batch(100, ONE) + summary(500, THREE) + batch(90, THREE), 100, ONE, THREE)
    yield told(
        "a key with three uses, and one that is used once",
        'docs/FORMATS.md, "Texts of the program": twice',
        batch(100, ONE, TWO, use(300, 0x11, 0x55, 1), THREE),
        100,
        ONE,
        TWO,
        use(300, 0x11, 0x55, 1),
        THREE,
    )
    yield told(
        "a key with a use and a withdrawal",
        'docs/FORMATS.md, "Texts of the program": withdrawals aside',
        batch(100, ONE, GONE),
        100,
        ONE,
        GONE,
    )


def faults():
    good = batch(100, ONE, TWO)
    for what, text in {
        "no magic": b"XXXX",
        "another version": b"JSR\x03\1" + bytes(12),
        "version 0": b"JSR\x00\1",
        "another spelling": b"jsr\2\1",
        "a line end": b"\n",
    }.items():
        yield bad(what, text + bytes(9), "Magic", 1, 0)
    for kind in (0, 3, 255):
        yield bad(f"the kind {kind}", b"JSR\2" + bytes([kind]) + bytes(12), "Kind", 1, 4)
    yield bad("a summary of version 1", OLD_MAGIC + b"\2" + bytes(8200), "Kind", 1, 4, OLD)
    yield bad("65,537 uses", batch(100, count=65_537), "Count", 1, 13)
    yield bad("2^32-1 uses", batch(100, count=2**32 - 1), "Count", 1, 13)
    yield bad("4,097 uses of version 1", old_batch(100, count=4097), "Count", 1, 13, OLD)
    yield bad("65,536 uses, and none of them", batch(100, count=65_536), "Truncated", 1, 17)
    yield bad("a use of the kind 2", batch(100, ONE[:64] + b"\2"), "UseKind", 1, 17)
    yield bad("a second use of the kind 255", batch(100, ONE, TWO[:64] + b"\xff"), "UseKind", 1, 82)
    yield bad("a use that expires at the moment", batch(200, ONE), "UseExpired", 1, 17)
    yield bad("a use that expires in front of it", batch(201, ONE), "UseExpired", 1, 17)
    yield bad("a use of later", batch(98, ONE), "UseFuture", 1, 17)
    yield bad("a second use of later", batch(99, ONE, TWO), "UseFuture", 1, 82)
    yield bad("uses in another order", batch(100, TWO, ONE), "UseOrder", 1, 82)
    yield bad("a use twice", batch(100, ONE, ONE), "UseOrder", 1, 82)
    yield bad("a use behind its withdrawal", batch(100, use(200, 0x11, 0x22, 99, True), ONE), "UseOrder", 1, 82)
    yield bad(
        "a use that is bad in four ways", batch(100, TWO, use(50, 0, 0, 200)[:64] + b"\7"), "UseKind", 1, 82, f"{FAULT}: the first of these"
    )
    yield bad("a use that is bad in three ways", batch(100, TWO, use(50, 0, 0, 200)), "UseExpired", 1, 82, f"{FAULT}: the first of these")
    yield bad("a use that is bad in two ways", batch(100, TWO, use(150, 0, 0, 200)), "UseFuture", 1, 82, f"{FAULT}: the first of these")
    yield bad("a second use of version 1 that is bad", old_batch(100, TWO, ONE), "UseOrder", 1, 81, OLD)
    for size in (1, 3, 4, 5, 12, 13, 16, 17, 18, 81, 82, 83, 146):
        yield bad(f"cut behind {size} bytes", good[:size], "Truncated", 1, size)
    yield bad("a bad magic that is cut", b"XX", "Truncated", 1, 2, f"{FAULT}: no whole field is bad")
    yield bad("a summary that is cut", summary(5)[:8204], "Truncated", 1, 8204)
    yield bad(
        "a count that is cut behind a good moment",
        batch(100, count=65_537)[:16],
        "Truncated",
        1,
        16,
        f"{FAULT}: moment and n are one field",
    )
    yield bad("a second message that is cut", good + batch(100, ONE)[:40], "Truncated", 2, 40)
    yield bad("a third message of no magic", good + summary(1) + b"GET / HTTP/1.1\r\n", "Magic", 3, 0)
    yield bad("a byte behind a message", good + b"J", "Truncated", 2, 1)
    yield bad(
        "a batch that tells of a use more than it has, and a batch behind it", batch(100, ONE, count=2) + batch(100, TWO), "UseKind", 1, 82
    )


def summaries():
    """Summaries of records, and the answers to them."""
    source = 'docs/FORMATS.md, "Messages"'
    for name, moment, uses in (
        ("no uses", 100, ()),
        ("two uses of one key", 100, (ONE, TWO)),
        ("uses of three buckets", 100, (ONE, TWO, THREE, FOUR)),
        ("a withdrawal", 100, (GONE,)),
    ):
        yield {
            "name": f"the summary of a record of {name}",
            "from": source,
            "call": "summary",
            "messages": batch(moment, *sorted(uses)).hex(),
            "summary": summary(moment, *uses).hex(),
        }
    answers = 'docs/FORMATS.md, "Records"'

    whole = batch(100, *sorted((ONE, TWO, THREE)))
    for name, asked, answer in (
        ("of the same record", summary(100, ONE, TWO, THREE), batch(100)),
        ("of an empty record", summary(0), whole),
        ("of a record that lacks a use", summary(100, ONE, THREE), batch(100, ONE, TWO)),
        ("of a record that lacks a bucket", summary(100, ONE, TWO), batch(100, THREE)),
        ("of a record with more", summary(100, ONE, TWO, THREE, FOUR), batch(100)),
        ("of a record with more in one bucket", summary(100, ONE, TWO, GONE, THREE), batch(100, ONE, TWO)),
        ("of a later record", summary(200, THREE), batch(200)),
        ("of a later and empty record", summary(200), batch(200, THREE)),
    ):
        yield {
            "name": f"the answer to a summary {name}",
            "from": answers,
            "call": "answer",
            "messages": whole.hex(),
            "summary": asked.hex(),
            "answer": answer.hex(),
        }
    for name, asked in (
        ("a batch", batch(100)),
        ("no bytes", b""),
        ("two summaries", summary(1) * 2),
        ("a summary and a batch", summary(1) + batch(1)),
    ):
        yield {
            "name": f"the answer to {name}",
            "from": 'docs/FORMATS.md, "Lines on standard error": not one summary',
            "call": "answer",
            "messages": whole.hex(),
            "summary": asked.hex(),
            "fault": "NotSummary",
        }
