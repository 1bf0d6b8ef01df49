"""folders.json: files of a state folder, whole and damaged, and what they say."""

from .checks import NOW
from .formats import CELL, FORMAT, batch, file, frame, record, use

READING = 'docs/FORMATS.md, "Where reading ends"'
FRAME = 'docs/FORMATS.md, "Frame"'
FILES = 'docs/FORMATS.md, "Files of a state folder"'
FOLDER_ID = bytes([7]) * 16
LIFE = NOW + 10**9  # so that no clock of a test comes behind it
FIRST, SECOND, THIRD = (batch(NOW, use(LIFE, n, 0x22, NOW)) for n in (1, 2, 3))


def padded(size):
    return size + -size % CELL


def row(name, content, *payloads, at=None, end="end", journal=3, source=READING, **more):
    """A file, the payloads that it says, and what stands behind them."""
    made = {"name": name, "from": source, "folder_id": FOLDER_ID.hex(), "journal": journal, "content": content.hex()}
    return made | {"payloads": [it.hex() for it in payloads], "end": end, "at": len(content) if at is None else at, **more}


def flipped(data, offset, bit=1):
    return data[:offset] + bytes([data[offset] ^ bit]) + data[offset + 1 :]


def files():
    one, two, three = (frame(FOLDER_ID, 3, n, it) for n, it in enumerate((FIRST, SECOND, THIRD), start=1))
    mark = frame(FOLDER_ID, 3, 2, b"")
    yield row("no bytes", b"")
    yield row("zeros alone", bytes(96), at=0)
    yield row("the example: the payload hi", frame(FOLDER_ID, 3, 1, b"hi"), b"hi", source=FRAME)
    for size in (1, 8, 30, 31, 32, 33, 64):
        payload = bytes(range(size))
        yield row(f"a payload of {size} bytes", frame(FOLDER_ID, 3, 1, payload), payload, source=FRAME)
    yield row("three frames", one + two + three, FIRST, SECOND, THIRD)
    yield row("a mark", frame(FOLDER_ID, 3, 1, b""), b"", source=FRAME)
    yield row("a frame and a mark", one + mark, FIRST, b"")
    yield row("a frame, and zeros behind it", one + bytes(100), FIRST, at=len(one))
    for cut in (1, 19, 20, CELL - 1, CELL, len(one) - 1):
        yield row(f"a second frame that is cut behind {cut} bytes", one + two[:cut], FIRST, at=len(one), end="tear")
    yield row("a first frame that is cut", one[:40], at=0, end="tear")
    yield row("a second frame that is cut, and zeros behind it", one + two[:50] + bytes(200), FIRST, at=len(one), end="tear")
    yield row("a byte behind a frame", one + b"\1", FIRST, at=len(one), end="tear")
    yield row("bytes FF behind a frame", one + b"\xff" * 64, FIRST, at=len(one), end="tear")
    for what, offset in {
        "the tag": 0,
        "the number": 27,
        "the format": 28,
        "the length": 31,
        "the payload": 40,
        "the payload's last byte": 31 + len(FIRST),
    }.items():
        yield row(f"a bit of {what} has changed in the last frame", one + flipped(two, offset), FIRST, at=len(one), end="tear")
        yield row(f"a bit of {what} has changed, and a frame stands behind it", flipped(one, offset) + two, at=0, end="damage")
    if len(one) > 32 + len(FIRST):
        yield row("a bit of the filling has changed", flipped(one, len(one) - 1) + two, at=0, end="damage")
    yield row("a bit of the last frame has changed, and a mark stands behind it", flipped(one, 40) + mark, at=0, end="damage")
    yield row("a bit of the second frame of three", one + flipped(two, 40) + three, FIRST, at=len(one), end="damage")
    # (a greater number may be at most the next one and the count of cells between)
    yield row("a second frame that is missing, and nothing in its place", one + three, FIRST, at=len(one), end="tear")
    yield row("the first frame is missing", two + three, at=0, end="damage")
    yield row("zeros for the second frame of three", one + bytes(len(two)) + three, FIRST, at=len(one), end="damage")
    yield row("a frame twice", one + one, FIRST, at=len(one), end="tear")
    yield row("frames in another order", two + one, at=0, end="tear")
    yield row("a frame of another journal", frame(FOLDER_ID, 4, 1, FIRST), at=0, end="tear", source=FRAME)
    yield row("a frame of the snapshot", frame(FOLDER_ID, 0, 1, FIRST), at=0, end="tear", source=FRAME)
    yield row("a frame of another folder", frame(bytes(16), 3, 1, FIRST), at=0, end="tear", source=FRAME)
    yield row("a second frame of another folder", one + frame(bytes(16), 3, 2, SECOND), FIRST, at=len(one), end="tear", source=FRAME)
    newer = frame(FOLDER_ID, 3, 2, SECOND, FORMAT + 1)
    yield row("a frame of another format", one + newer, FIRST, at=len(one), end="format", format=FORMAT + 1)
    yield row("a first frame of the format 254", frame(FOLDER_ID, 3, 1, FIRST, 254), at=0, end="format", format=254)
    yield row(
        "a frame of another format, and whole ones behind it", one + newer + three, FIRST, at=len(one), end="format", format=FORMAT + 1
    )
    beyond = frame(FOLDER_ID, 3, 3, THIRD, FORMAT + 1)
    yield row(
        "a frame that has changed, and one of another format behind it", one + flipped(two, 40) + beyond, FIRST, at=len(one), end="damage"
    )
    cells = (len(two) - len(two) % CELL) // CELL
    far = frame(FOLDER_ID, 3, 2 + cells + 1, THIRD)
    yield row("a frame of a number that is too great to follow", one + bytes(len(two)) + far, FIRST, at=len(one), end="tear")
    yield row("old messages", FIRST + SECOND, at=0, end="tear", source='docs/FORMATS.md, "Frame": these are no frames')

    snapshot = [frame(FOLDER_ID, 0, n, it) for n, it in enumerate((FIRST, SECOND, b""), start=1)]
    whole = b"".join(snapshot)
    yield row("a snapshot", whole, FIRST, SECOND, b"", journal=0)
    yield row("a snapshot of a mark alone", frame(FOLDER_ID, 0, 1, b""), b"", journal=0)
    yield row("a snapshot without a mark", snapshot[0] + snapshot[1], FIRST, SECOND, end="damage", journal=0)
    yield row("a snapshot that is cut", whole[:-1], FIRST, SECOND, at=len(whole) - len(snapshot[2]), end="damage", journal=0)
    yield row("a snapshot of no bytes", b"", end="damage", journal=0, at=0)
    yield row("a snapshot with zeros behind it", whole + bytes(32), FIRST, SECOND, b"", at=len(whole), end="damage", journal=0)
    yield row("a snapshot of which a bit has changed", flipped(whole, 40), at=0, end="damage", journal=0)
    yield row("a frame of a journal as a snapshot", one, at=0, end="damage", journal=0)
    newer = frame(FOLDER_ID, 0, 1, FIRST, FORMAT + 1)
    yield row("a snapshot of another format", newer, at=0, end="format", journal=0, format=FORMAT + 1)


def folder(name, contents, source=FILES, **answer):
    """A whole folder: its record, or the file that is damaged and where."""
    known = {"place": FOLDER_ID.hex().encode() + b"\n", **contents}
    return {"name": name, "from": source, "files": {it: text.hex() for it, text in known.items()}, **answer}


def all_of(*numbers):
    return {"record": record(NOW, *(use(LIFE, n, 0x22, NOW) for n in numbers)).hex()}


def folders():
    snapshot = file(FOLDER_ID, 0, FIRST, SECOND, b"")

    def journal(number, *payloads):
        return file(FOLDER_ID, number, *payloads)

    yield folder("a journal", {"journal.1": journal(1, FIRST, SECOND)}, **all_of(1, 2))
    yield folder("a snapshot and a journal", {"snapshot": snapshot, "journal.2": journal(2, THIRD)}, **all_of(1, 2, 3))
    yield folder("a snapshot alone", {"snapshot": snapshot}, **all_of(1, 2))
    yield folder("two journals", {"journal.9": journal(9, FIRST, b""), "journal.10": journal(10, SECOND)}, **all_of(1, 2))
    yield folder("a journal that tells what the snapshot has", {"snapshot": snapshot, "journal.1": journal(1, FIRST)}, **all_of(1, 2))
    yield folder("several messages in a payload", {"journal.1": journal(1, FIRST + SECOND, THIRD)}, **all_of(1, 2, 3))
    yield folder("a journal that is torn", {"journal.1": journal(1, FIRST, SECOND)[:-40]}, READING, **all_of(1))
    yield folder("a journal with zeros behind", {"journal.1": journal(1, FIRST) + bytes(4096)}, **all_of(1))
    yield folder("an empty journal behind another", {"journal.1": journal(1, FIRST), "journal.2": b""}, **all_of(1))
    yield folder(
        "a snapshot that is not finished",
        {"snapshot": snapshot, "snapshot.new": b"\1\2\3", "journal.1": journal(1, THIRD)},
        **all_of(1, 2, 3),
    )
    damaged = flipped(journal(1, FIRST, SECOND), 40)
    yield folder("a journal that is damaged", {"journal.1": damaged}, READING, damaged="journal.1", at=0)
    at = len(frame(FOLDER_ID, 1, 1, FIRST))
    yield folder(
        "a journal that is damaged behind its first frame",
        {"journal.1": flipped(journal(1, FIRST, SECOND, THIRD), at + 40)},
        READING,
        damaged="journal.1",
        at=at,
    )
    yield folder(
        "a snapshot that is damaged", {"snapshot": flipped(snapshot, 40), "journal.1": journal(1, THIRD)}, READING, damaged="snapshot", at=0
    )
    yield folder(
        "a snapshot that is cut", {"snapshot": snapshot[: 2 * at], "journal.1": journal(1, THIRD)}, READING, damaged="snapshot", at=2 * at
    )
    yield folder(
        "a journal of another format",
        {"journal.1": journal(1, FIRST) + frame(FOLDER_ID, 1, 2, SECOND, FORMAT + 1)},
        READING,
        of_format="journal.1",
        format=FORMAT + 1,
    )
