"""Damaged and random texts, read by svid_script as the readers of readers.py read them: to the same value, or with the same fault at the same offset.

A good ID, trust domain name, bearer header, token, header, payload, bundle, table, batch of either version and summary is read with each byte changed
to each other value; messages also in pieces. Then come random texts of each kind, some behind the beginning of a good one. `--rounds N` says how many,
and `--seed N` chooses them."""

import hashlib
import os
import random
import re
from collections.abc import Callable, Iterator
from concurrent.futures import ProcessPoolExecutor
from dataclasses import dataclass
from functools import partial
from pathlib import Path

import pytest
from readers import (
    LAST,
    NOW,
    SEGMENT_BYTES,
    Refused,
    candidates,
    checked_name,
    decoded,
    optional,
    question,
    read_bundles,
    read_claims,
    read_header,
    read_id,
    read_messages,
    read_payload,
    read_signature,
    read_table,
    said_bytes,
    split,
    verdict,
)
from scripts import Line, base64url, fault

HEADER = b'{"alg":"ES256","kid":"k01","typ":"JWT"}'
PAYLOAD = b'{"sub":"spiffe://a/b","aud":"s","exp":1001,"jti":"j1"}'
BUNDLES = b'{"a":{"keys":[{"kty":"EC","use":"jwt-svid","kid":"k01","crv":"P-256","x":"AA","y":"AA"}]}}'
VALIDATOR_ID = "aa"
ID = b"spiffe://aa/bb/cc"


def answered(read: Callable[[], list[str]]) -> list[str]:
    """The lines that are due: those that a reader reads, or one of its refusal."""
    try:
        return read()
    except Refused as fault:
        return [f"! {fault}"]


def changed(data: bytes, values: range | tuple[int, ...] = range(256)) -> Iterator[bytes]:
    """The bytes, each of them changed to each other value."""
    for offset, byte in enumerate(data):
        for value in values:
            if value != byte:
                yield data[:offset] + bytes([value]) + data[offset + 1 :]


def word(data: bytes) -> str:
    return data.hex() or "."


@dataclass
class Part:
    """What makes texts of one kind, from a generator of random numbers."""

    chance: random.Random
    rounds: int

    def random(self, most: int = 200) -> bytes:
        return self.chance.randbytes(self.chance.randrange(most + 1))

    def random_of(self, letters: bytes, most: int = 200) -> bytes:
        return bytes(self.chance.choices(letters, k=self.chance.randrange(most + 1)))

    def random_texts(self, front: bytes, letters: bytes | None = None) -> Iterator[bytes]:
        """Random texts behind nothing, and behind the beginning of a good text."""
        for turn in range(self.rounds):
            rest = self.random() if letters is None else self.random_of(letters)
            yield rest if turn % 2 else front[: self.chance.randrange(len(front) + 1)] + rest


def id_lines(text: bytes) -> list[str]:
    domain, path = read_id(text)
    return [f"= {text.decode()}", f"= {domain}", f"= {path}".rstrip()]


def name_lines(text: bytes) -> list[Line]:
    due = answered(lambda: [f"= {checked_name(text, 0)}"])
    return [(f"domain {word(text)}", due), (f"is_domain {word(text)}", [f"= {'false' if due[0].startswith('!') else 'true'}"])]


def ids(part: Part) -> Iterator[Line]:
    def line(text: bytes) -> Line:
        return f"id {word(text)}", answered(lambda: id_lines(text))

    yield from map(line, changed(ID))
    for name in changed(b"aaa"):
        yield from name_lines(name)
    for text in part.random_texts(b"spiffe://"):
        yield line(text)
        yield from name_lines(text)
    yield from map(line, part.random_texts(ID + b"/" + b"b" * 2020, SEGMENT_BYTES + b"/%"))


BEARER_BYTES = b"a.b=c~/, \t"
BEARER = re.compile(rb"[ \t]*[Bb][Ee][Aa][Rr][Ee][Rr] +([A-Za-z0-9._~+/-]+=*)[ \t]*")


def bearer_lines(fields: int, value: bytes) -> list[str]:
    """The bearer token of so many fields, where the first has this value."""
    if fields != 1:
        raise Refused("Several" if fields else "Absent")
    scheme = re.match(rb"[ \t]*([^ \t]*)", value)
    if not scheme or scheme[1].lower() != b"bearer":
        raise Refused("Scheme")
    token = BEARER.fullmatch(value)
    if not token:
        raise Refused("Spelling")
    if len(token[1]) > 65536:
        raise Refused("TooLong")
    return [f"= {token.start(1)} {token[1].decode()}"]


def bearers(part: Part) -> Iterator[Line]:
    def line(fields: int, value: bytes) -> Line:
        return f"bearer {fields} {word(value)}", answered(lambda: bearer_lines(fields, value))

    for value in changed(b" Bearer  a.b.c== "):
        yield line(1, value)
    for fields in (0, 2, LAST):
        yield line(fields, b"Bearer a")
    for front in (b"", b"Bearer ", b"\tbEARER  a"):
        for value in part.random_texts(front, BEARER_BYTES):
            yield line(1, value)
    for length in range(65534, 65540):
        yield line(1, b"Bearer " + length * b"a" + b"=")


def header_lines(part: bytes) -> list[str]:
    header = read_header(part)
    return [f"= {header.alg} {optional(header.kid)}"]


def claims_lines(part: bytes) -> list[str]:
    claims = read_claims(read_payload(part))
    told = [claims.sub, *claims.aud, f"{claims.exp} {optional(claims.nbf)} {optional(claims.jti)}"]
    return [line.rstrip() for line in "\n".join(f"= {it}" for it in told).split("\n")]


def signature_lines(part: bytes) -> list[str]:
    return [said_bytes(read_signature(part))]


def part_lines(part: bytes) -> list[Line]:
    """A part of a token, read as each of them."""
    return [
        (f"header {word(part)}", answered(lambda: header_lines(part))),
        (f"claims {word(part)}", answered(lambda: claims_lines(part))),
        (f"signature {word(part)}", answered(partial(signature_lines, part))),
        (f"part {word(part)}", answered(lambda: [said_bytes(decoded(part, "Spelling")).rstrip()])),
    ]


def parts(part: Part) -> Iterator[Line]:
    for good in (base64url(HEADER), base64url(PAYLOAD)):
        for text in changed(good):
            yield from part_lines(text)
    for first in range(256):
        for second in range(256):
            text = bytes([first, second])
            yield f"signature {word(text)}", answered(partial(signature_lines, text))
        yield from part_lines(b"c2" + bytes([first]))
    for text in part.random_texts(base64url(PAYLOAD)):
        yield from part_lines(text)
    for text in part.random_texts(base64url(HEADER), b"AQgwAEIMZzab01-_"):
        yield from part_lines(text)


# What JSON is made of, for texts that are JSON now and then.
JSON_LETTERS = b'{}[]"":,\\ud80e1-'


def objects(part: Part) -> Iterator[Line]:
    for json_text in (HEADER, PAYLOAD):
        for text in changed(json_text):
            yield from part_lines(base64url(text))[:2]
    for text in part.random_texts(PAYLOAD, JSON_LETTERS):
        yield from part_lines(base64url(text))[:2]
    for text in part.random_texts(HEADER):
        yield from part_lines(base64url(text))[:2]


def split_lines(token: bytes) -> list[str]:
    header, payload, signature = split(token)
    return [said_bytes(it).rstrip() for it in (header, payload, signature, header + b"." + payload)]


def tokens(part: Part) -> Iterator[Line]:
    good = base64url(HEADER) + b"." + base64url(PAYLOAD) + b".c2ln"
    bundles = read_bundles(BUNDLES)
    table = {question(bundles["a"][0], "ES256", good.rpartition(b".")[0], b"sig")}
    yield f"bundles b {word(BUNDLES)}", []
    yield f"table t {next(iter(table)).hex().encode().hex()}", []
    yield f"validator v indexed {VALIDATOR_ID} 10 b t - s", []

    def checked(token: bytes) -> Line:
        return f"check v {NOW} {word(token)}", answered(lambda: [f"(accepted: {verdict(token, bundles, table)})"])

    for token in changed(good):
        yield f"split {word(token)}", answered(partial(split_lines, token))
        yield checked(token)
    for offset in range(len(good)):
        for token in {good[:offset], good[:offset] + good[offset + 1 :], good[offset:]} - {good}:
            yield checked(token)
    for header in changed(HEADER):
        yield checked(base64url(header) + b"." + base64url(PAYLOAD) + b".c2ln")
    for payload in changed(PAYLOAD):
        yield checked(base64url(HEADER) + b"." + base64url(payload) + b".c2ln")
    letters = b"ABCDEFGHIJKLMNOPQRSTUVWXYZabcdefghijklmnopqrstuvwxyz0123456789-_."
    for token in (*part.random_texts(good), *part.random_texts(good, letters)):
        if token != good:
            yield f"split {word(token)}", answered(partial(split_lines, token))
            yield checked(token)
    # What was refused has done nothing: the good token is accepted.
    key = hashlib.sha256(b"\1\0\0\0\1aj1").hexdigest()
    yield f"check v {NOW} {word(good)}", ["= spiffe://a/b", f"= 1001/{key}/{VALIDATOR_ID}/{NOW}"]


def bundle_lines(text: bytes) -> Iterator[Line]:
    try:
        bundles = read_bundles(text)
    except Refused as fault:
        yield f"bundles b {word(text)}", [f"! {fault}"]
        return
    yield f"bundles b {word(text)}", []
    yield "bundles.has b a", [f"= {'true' if 'a' in bundles else 'false'}"]
    for alg in ("ES256", "PS512"):
        keys = candidates(bundles, "a", alg, None) if "a" in bundles else []
        yield f"candidates b a {alg} -", [line for key in keys for line in key.lines()]


def bundles(part: Part) -> Iterator[Line]:
    for text in changed(BUNDLES):
        yield from bundle_lines(text)
    for text in (*part.random_texts(BUNDLES), *part.random_texts(BUNDLES, JSON_LETTERS)):
        yield from bundle_lines(text)


def tables(part: Part) -> Iterator[Line]:
    yield f"bundles b {word(BUNDLES)}", []
    key = read_bundles(BUNDLES)["a"][0]
    asked = question(key, "ES256", b"x", b"y")
    good = asked.hex().encode()

    def lines(text: bytes) -> Iterator[Line]:
        due = answered(lambda: [f"= {'true' if asked in read_table(text) else 'false'}"])
        yield f"table t {word(text)}", due if due[0].startswith("!") else []
        if not due[0].startswith("!"):
            yield "verify t b a ES256 - 78 79", due

    for text in changed(good):
        yield from lines(text)
    for text in (*part.random_texts(good), *part.random_texts(good, b"0123\r4567\n89ab\r\n")):
        yield from lines(text)


# A batch of two uses in each version. The uses differ in their validators and in when they were made.
USES = [bytes.fromhex(f"0000000000000065{'11' * 32}{by * 16}{at:016x}00") for by, at in (("22", 99), ("33", 100))]
BATCHES = {
    version: b"JSR" + bytes([version, 1]) + bytes.fromhex("000000000000006400000002") + b"".join(it[: 63 + version] for it in USES)
    for version in (1, 2)
}
SUMMARY = b"JSR\2\2" + (7).to_bytes(8, "big") + b"".join(hashlib.sha256(bytes([it])).digest() for it in range(256))


def message_lines(data: bytes, length: int, named: str = "") -> list[Line]:
    """Bytes as messages, read whole and in pieces; `named` is how a script names them."""
    data_word = named or word(data)
    lines, fault, is_end = read_messages(data)
    whole = [*lines, fault] if fault else lines
    finish = ([fault] if fault else []) if is_end else ["! WireFault { offset: 0, reason: Failed }"]
    return [
        (f"messages {data_word}", whole),
        ("feed f", []),
        (f"pieces f {length} {data_word}", lines if is_end else whole),
        ("finish f", finish),
    ]


def messages(part: Part) -> Iterator[Line]:
    turn = 0
    for text in BATCHES.values():
        for data in changed(text):
            turn += 1
            yield from message_lines(data, 1 + turn % 100)
    for version in range(256):
        for kind in range(256):
            data = b"JSR" + bytes([version, kind])
            yield message_lines(data, 5)[0]
    pairs = [one + other for one in BATCHES.values() for other in BATCHES.values()]
    for turn in range(part.rounds):
        front = part.chance.choice(pairs)
        data = front[: part.chance.randrange(213)] + part.random(400)
        yield from message_lines(data, 1 + turn % 100)


def summaries(_part: Part) -> Iterator[Line]:
    for offset, byte in enumerate(SUMMARY):
        for change in (0x01, 0x80):
            data = SUMMARY[:offset] + bytes([byte ^ change]) + SUMMARY[offset + 1 :]
            changed_one = f"=s/0..{offset},{byte ^ change:02x},=s/{offset + 1}..8205"
            yield from message_lines(data, 1 + offset % (100 if change == 1 else 50), changed_one)


def named_summaries(part: Part) -> Iterator[Line]:
    yield f"let s {SUMMARY.hex()}", []
    yield from summaries(part)


PARTS: dict[str, Callable[[Part], Iterator[Line]]] = {
    "IDs": ids,
    "bearer tokens": bearers,
    "parts of tokens": parts,
    "headers and payloads": objects,
    "tokens": tokens,
    "bundles": bundles,
    "tables": tables,
    "messages": messages,
    "summaries": named_summaries,
}


def read_all(kind: str, driver: Path, seed: int, rounds: int) -> tuple[str | None, str]:
    lines = list(PARTS[kind](Part(random.Random(f"{seed} {kind}"), rounds)))
    return fault(driver, lines)[0], f"{len(lines)} lines, {sum(due[-1].startswith('!') for _, due in lines if due)} of them refused"


@pytest.fixture(scope="module")
def reading(driver, pytestconfig, request):
    """All kinds that are asked for, read side by side."""
    chosen = [kind for kind in PARTS if any(f"[{kind}]" in item.name for item in request.session.items)]
    with ProcessPoolExecutor(len(os.sched_getaffinity(0))) as pool:
        yield {kind: pool.submit(read_all, kind, driver, *map(pytestconfig.getoption, ("seed", "rounds"))) for kind in chosen}


@pytest.mark.parametrize("kind", PARTS)
def test_texts_of(reading, kind):
    wrong, said = reading[kind].result()
    assert wrong is None, wrong
    print(f"{kind}: {said}")
