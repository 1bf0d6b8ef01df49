"""claims.json: owners of claims, the times of a store, and what becomes of a claim."""

import hashlib

OWNERS = 'docs/FORMATS.md, "Owners of claims"; SHA-256 by Python\'s hashlib'
TIMES = 'include/svid.h, "Claims in a store"'
LAST = 2**64 - 1
ID, LIFE, CALLER = bytes(range(16)), bytes(range(16, 32)), bytes(range(32, 64))
ZERO, NOW = bytes(16), 1767225600
WITHDRAWN = bytes(32)


def digest(label, told, exp):
    return hashlib.sha256(label + told + exp.to_bytes(8, "big")).digest()


def of_life(validator_id, life, exp):
    return validator_id + digest(b"svid claim life", life, exp)[:16]


def of_caller(caller, exp):
    return digest(b"svid claim caller", caller, exp)


def texts(numbers):
    """Numbers of 64 bits as decimal digits, since many readers of JSON round greater ones."""
    return {name: str(number) for name, number in numbers.items()}


def life(validator_id, life, exp):
    given = {"validator_id": validator_id.hex(), "life": life.hex(), **texts({"exp": exp})}
    name = f"the owner of the life {life.hex()} of {validator_id.hex()}, for a token that expires at {exp}"
    return {"name": name, "from": OWNERS, "call": "owner_of_life", **given, "owner": of_life(validator_id, life, exp).hex()}


def caller(told, exp):
    name = f"the owner of the caller {told.hex()}, for a token that expires at {exp}"
    return {
        "name": name,
        "from": OWNERS,
        "call": "owner_of_caller",
        "caller": told.hex(),
        **texts({"exp": exp}),
        "owner": of_caller(told, exp).hex(),
    }


def number(call, answer, **given):
    name = f"{call} of {' and '.join(f'{name} {it}' for name, it in given.items())}: {answer}"
    return {"name": name, "from": TIMES, "call": call, **texts({**given, "answer": answer})}


def outcome(answer, why, owner, found, *, exp=NOW, time=NOW - 60, deaf=0, lasts=3600, moment=NOW - 60):
    given = {
        "owner": owner.hex(),
        "found": found.hex(),
        **texts({"exp": exp, "time": time, "deaf": deaf, "lasts": lasts, "moment": moment}),
    }
    return {"name": f"{why}: {answer}", "from": TIMES, "call": "outcome", **given, "answer": answer}


def outcomes():
    mine, other = of_life(ID, LIFE, NOW), of_life(ID, ZERO, NOW)
    yield outcome("Mine", "a claim that is found", mine, mine)
    yield outcome("Mine", "a claim of a caller that is found", of_caller(CALLER, NOW), of_caller(CALLER, NOW))
    yield outcome("Withdrawn", "a withdrawal is found", mine, WITHDRAWN)
    yield outcome("Withdrawn", "a withdrawal is found that was put here", WITHDRAWN, WITHDRAWN)
    yield outcome("Withdrawn", "a withdrawal is found, and all else holds", mine, WITHDRAWN, exp=5, time=1, deaf=9, lasts=3, moment=9)
    for byte, at in (("first", 0), ("sixteenth", 15), ("seventeenth", 16), ("last", 31)):
        yield outcome("Taken", f"an owner is found whose {byte} byte differs", mine, mine[:at] + bytes([mine[at] ^ 1]) + mine[at + 1 :])
    yield outcome("Taken", "the claim of another life is found", mine, other)
    yield outcome("Taken", "the claim of a token that expires a second later is found", mine, of_life(ID, LIFE, NOW + 1))
    yield outcome("Taken", "another's claim is found, and all else holds", mine, other, exp=5, time=1, deaf=9, lasts=3, moment=9)
    yield outcome("Mine", "a token that lives as long as tokens may", mine, mine, exp=NOW, time=NOW - 3600)
    yield outcome("Far", "a token that lives a second longer", mine, mine, exp=NOW, time=NOW - 3601, moment=NOW - 3601)
    yield outcome("Far", "a token that lives too long, and all after that holds", mine, mine, exp=5, time=1, deaf=9, lasts=3, moment=9)
    yield outcome("Mine", "a token that expires at the last moment", mine, mine, exp=LAST, time=LAST - 1, lasts=1, moment=0)
    yield outcome("Mine", "a time and a life that are more than 64 bits", mine, mine, exp=LAST, time=LAST, lasts=LAST, moment=0)
    yield outcome("Far", "a token that expires at the last moment, far away", mine, mine, exp=LAST, time=NOW, moment=0)
    yield outcome("Mine", "a token that expires a second after those that may be lost", mine, mine, deaf=NOW - 1)
    yield outcome("Deaf", "a token that expires with the last that may be lost", mine, mine, deaf=NOW)
    yield outcome("Deaf", "a token at the last moment, of which each may be lost", mine, mine, exp=LAST, time=LAST, deaf=LAST, moment=0)
    yield outcome("Deaf", "a token that may be lost, and has expired", mine, mine, exp=5, time=5, deaf=9, lasts=3, moment=9)
    yield outcome("Mine", "a token a second before it expires", mine, mine, moment=NOW - 1)
    yield outcome("Expired", "a token as it expires", mine, mine, moment=NOW)
    yield outcome("Deaf", "a token that expires at 0, which no loss can precede", mine, mine, exp=0, time=0, lasts=0, moment=0)


def vectors():
    for exp in (0, 1, 255, 256, NOW, 2**32, 2**53 + 1, LAST):
        yield life(ID, LIFE, exp)
        yield caller(CALLER, exp)
    yield life(ZERO, ZERO, 0)
    yield life(LIFE, ID, NOW)
    yield life(ZERO, LIFE, NOW)
    yield life(ID, ZERO, NOW)
    yield caller(bytes(32), NOW)
    yield caller(ID + LIFE, NOW)
    for owner, told in ((of_life(ID, LIFE, NOW), ID), (of_life(LIFE, ID, 1), LIFE), (WITHDRAWN, ZERO)):
        yield {
            "name": f"the validator of {owner.hex()}",
            "from": OWNERS,
            "call": "validator_of",
            "owner": owner.hex(),
            "answer": told.hex(),
        }
    for exp, margin, answer in (
        (NOW, 0, NOW),
        (NOW, 30, NOW + 30),
        (0, 0, 0),
        (LAST - 1, 1, LAST),
        (LAST, 1, LAST),
        (1, LAST, LAST),
        (LAST, LAST, LAST),
    ):
        yield number("until", answer, exp=exp, margin=margin)
    for time, lasts, before, answer in (
        (NOW, 3600, 0, NOW + 3600),
        (NOW, 3600, NOW + 3599, NOW + 3600),
        (NOW, 3600, NOW + 3601, NOW + 3601),
        (0, 0, 7, 7),
        (LAST, 1, 0, LAST),
        (1, LAST, 5, LAST),
        (0, 0, LAST, LAST),
    ):
        yield number("deaf", answer, time=time, lasts=lasts, before=before)
    for now, time, ahead, answer in (
        (NOW, NOW, 30, NOW),
        (NOW, NOW + 30, 30, NOW),
        (NOW, NOW + 31, 30, NOW + 1),
        (NOW, NOW - 9, 0, NOW),
        (5, 20, 30, 5),
        (0, 20, 20, 0),
        (0, LAST, 0, LAST),
        (LAST, 0, LAST, LAST),
    ):
        yield number("moment", answer, now=now, time=time, ahead=ahead)
    yield from outcomes()
