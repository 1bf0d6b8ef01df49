"""logs.json: values of a group's log, and what becomes of each use."""

from .checks import NOW, VALIDATOR_ID
from .formats import batch, claim, use

RULES = 'include/svid.h, "A validator that reads a group\'s log"'
AHEAD, LASTS, ROOM = 10, 3620, 9
END = NOW + 300
OWN, OTHER = VALIDATOR_ID, bytes([0x22]) * 16
START = {"passed": 0, "begun": 0, "deaf": 0, "ready": 0, "lasts": LASTS, "beside": ""}


def own(key, at=NOW, exp=END):
    return use(exp, key, OWN, at)


def other(key, at=NOW, exp=END):
    return use(exp, key, OTHER, at)


def gone(key, at=NOW, exp=END):
    return use(exp, key, OTHER, at, True)


def value(*uses):
    """A value of these claims in this order, each a batch of its own."""
    return b"".join(claim(it) for it in uses)


def read(position, text, *fates, order="Next", now=NOW, room=ROOM, begun=0, rest="Nothing", fault=None):
    """A value, and the fates of its uses from the one with the number `begun` on."""
    made = {"call": "read", "now": now, "position": position, "value": text.hex(), "room": room}
    made |= {"order": order, "from": begun, "fates": list(fates), "rest": rest}
    return made | ({"fault": fault} if fault else {})


def mark(passed, deaf=0, accepts=True, begun=0):
    return {"call": "mark", "passed": passed, "begun": begun, "deaf": deaf, "accepts": accepts}


def beside(*uses):
    """The claims beside the record, in rising order."""
    return {"call": "beside", "messages": b"".join(claim(it) for it in sorted(uses)).hex()}


def row(name, *calls, **log):
    made = {"name": name, "from": RULES, "log": {**START, **log}, "calls": list(calls)}
    # (the crate for Rust always has room for all uses, and checks no token where it reads a log)
    is_part = any(it.get("room", ROOM) < ROOM or it["call"] == "check" for it in calls)
    return made | ({"readers": ["c", "go"]} if is_part else {})


def vectors():
    yield row(
        "own claims are accepted", read(1, value(own(1)), "Accepted"), read(2, value(own(2), own(3)), "Accepted", "Accepted"), mark(2)
    )
    yield row("a claim of another one", read(1, value(other(1)), "First"), mark(1))
    yield row("a token that another one claimed", read(1, value(other(1)), "First"), read(2, value(own(1)), "Replayed"), beside(own(1)))
    yield row("a token that is claimed twice in a value", read(1, value(own(1), own(1, NOW - 1)), "Accepted", "Replayed"), mark(1))
    yield row("a value that stands twice", read(1, value(own(1)), "Accepted"), read(2, value(own(1)), "Replayed"))
    yield row("a value that is read twice", read(1, value(own(1)), "Accepted"), read(1, value(own(1)), order="Again"), mark(1))
    yield row("a withdrawal", read(1, value(gone(1)), "Withdrawal"), read(2, value(own(1)), "Withdrawn"), beside(own(1)))
    yield row(
        "a withdrawal of a token that was accepted",
        read(1, value(own(1)), "Accepted"),
        read(2, value(gone(1)), "Withdrawal"),
        read(3, value(own(1, NOW - 1)), "Withdrawn"),
    )
    yield row("a withdrawal by the validator itself", read(1, value(use(END, 1, OWN, NOW, True)), "Withdrawal"), mark(1))
    yield row("claims that have expired", read(1, value(own(1, NOW - 9, NOW), own(2, NOW - 9, NOW + 1)), "Expired", "Accepted"), beside())
    yield row(
        "the moment of a batch counts for nothing",
        read(1, batch(NOW + 250, own(1)), "Accepted"),
        read(2, value(own(2, NOW, NOW + 1)), "Accepted"),
        mark(2),
    )
    yield row("a claim from as far ahead as may be", read(1, value(own(1, NOW + AHEAD)), "Accepted"), read(2, value(own(2)), "Accepted"))
    yield row(
        "a claim from too far ahead",
        read(1, value(own(1, NOW + AHEAD + 1)), "TooFarAhead"),
        read(2, value(own(1)), "Replayed"),
        beside(own(1), own(1, NOW + AHEAD + 1)),
    )
    yield row(
        "a withdrawal from too far ahead", read(1, value(gone(1, NOW + AHEAD + 1)), "TooFarAhead"), read(2, value(own(1)), "Replayed")
    )
    yield row(
        "a claim of another one from too far ahead",
        read(1, value(other(1, NOW + AHEAD + 1)), "TooFarAhead"),
        read(2, value(own(1)), "Replayed"),
    )
    yield row(
        "a claim advances the moment to its time",
        read(1, value(own(1, NOW + 5)), "Accepted"),
        read(2, value(own(2, NOW, NOW + 5)), "Expired"),
    )
    yield row(
        "a jti is free again once its claim has expired",
        read(1, value(own(1)), "Accepted"),
        read(2, value(own(1, END, END + 9)), "Accepted", now=END),
        beside(),
    )
    yield row(
        "what stands beside the record expires too",
        read(1, value(other(1)), "First"),
        read(2, value(own(1)), "Replayed"),
        read(3, value(own(2, END, END + 9)), "Accepted", now=END),
        beside(),
    )
    yield row("a time of 0 advances nothing", read(1, value(own(1)), "Accepted"), read(2, value(own(2)), "Accepted", now=0), mark(2))
    yield row("an empty value", read(1, b""), read(2, batch(NOW)), mark(2))
    # (the validator ID of OTHER is greater than that of OWN, so its claim of 2 stands behind)
    yield row(
        "a batch of many uses",
        read(1, batch(NOW, own(1), own(2), other(2), gone(3)), "Accepted", "Accepted", "Replayed", "Withdrawal"),
        mark(1),
    )
    yield row(
        "values that are no messages",
        read(1, b"garbage", fault="Magic 0"),
        read(2, claim(own(1))[:81], fault="Truncated 81"),
        read(3, claim(own(1))[:81] + b"\7", fault="UseKind 17"),
        read(4, value(own(1)) + b"J", fault="Truncated 1"),
        read(5, batch(NOW, own(1), own(1)), fault="UseOrder 82"),
        read(6, value(own(1)), "Accepted"),
        mark(6),
    )
    yield row(
        "a room that is too small",
        read(1, value(own(1), other(2), own(3)), room=0, rest="NoRoom"),
        mark(0),
        read(1, value(own(1), other(2), own(3)), "Accepted", "First", room=2, rest="NoRoom"),
        mark(0, begun=2),
        read(1, value(own(1), other(2), own(3)), "Accepted", room=1, begun=2),
        mark(1),
    )
    yield row(
        "a gap",
        read(1, value(own(1)), "Accepted"),
        read(3, value(own(2)), "First", order="Gap"),
        mark(3, NOW + LASTS, False),
        read(4, value(own(3)), "First"),
        {"call": "go_on"},
        mark(4),
        read(5, value(own(4)), "Accepted"),
    )
    yield row(
        "a gap that ends by itself",
        read(2, value(own(1)), "First", order="Gap"),
        mark(2, NOW + LASTS, False),
        read(3, value(own(2, NOW + LASTS, NOW + 9999)), "Accepted", now=NOW + LASTS),
        mark(3, NOW + LASTS),
    )
    yield row("a gap keeps what it read", read(1, value(other(1)), "First"), read(3, value(own(1)), "Replayed", order="Gap"))
    yield row(
        "a second gap",
        read(2, value(own(1)), "First", order="Gap"),
        read(4, value(own(2)), "First", order="Gap", now=NOW + 7),
        mark(4, NOW + 7 + LASTS, False),
    )
    yield row("a log that begins behind others", read(8, value(own(1)), "Accepted"), mark(8), passed=7)
    yield row(
        "a log whose front is missing",
        mark(7, END, False),
        read(8, value(own(1)), "First"),
        read(9, value(own(2, END, END + 9)), "Accepted", now=END),
        passed=7,
        deaf=END,
    )
    yield row(
        "what an earlier life may have read",
        mark(0, accepts=False),
        read(1, value(own(1)), "First"),
        mark(1, accepts=False),
        read(2, value(own(2)), "First"),
        mark(2),
        read(3, value(own(3)), "Accepted"),
        ready=2,
    )
    yield row("going on forgets no earlier life", {"call": "go_on"}, mark(0, accepts=False), read(1, value(own(1)), "First"), ready=1)
    yield row(
        "a restart with claims beside",
        read(2, value(own(1)), "Replayed"),
        beside(own(1), own(1, NOW - 1)),
        passed=1,
        beside=claim(own(1, NOW - 1)).hex(),
    )
    yield row("a restart within a value", mark(0, begun=1), read(1, value(own(1), own(2)), "Accepted", begun=1), begun=1)
    yield row("tokens are accepted by the log alone", {"call": "check", "answer": "HasLog"})
