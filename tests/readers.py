"""Readers of IDs, tokens, bundles, tables and messages, written from docs/FORMATS.md and no other code, for tests that hold svid_script to them."""

import base64
import hashlib
import json
import re
from dataclasses import dataclass
from functools import lru_cache

from scripts import MOST_DIGITS, Use, base64url, batch_lines

LAST = 2**64 - 1
# When tokens are checked.
NOW = 1000
NAME_BYTES = b"abcdefghijklmnopqrstuvwxyz0123456789.-_"
SEGMENT_BYTES = NAME_BYTES + b"ABCDEFGHIJKLMNOPQRSTUVWXYZ"
FAMILIES = {"R": "Rsa", "P": "Rsa", "E": "Ec"}
ALGORITHMS = [f"{family}{length}" for family in ("RS", "ES", "PS") for length in (256, 384, 512)]


class Refused(Exception):
    """What a reader here refuses a text for, as svid_script prints it."""


# IDs


def checked_name(name: bytes, at: int) -> str:
    """The trust domain name that these bytes are: the first one stands there in the text."""
    if not name:
        raise Refused("DomainEmpty")
    for index, byte in enumerate(name):
        if byte not in NAME_BYTES:
            raise Refused(f"DomainByte({at + index})")
    if len(name) > 255:
        raise Refused("DomainLong")
    return name.decode()


def checked_path(path: bytes, at: int) -> str:
    for segment in path.split(b"/")[1:]:
        at += 1
        if not segment:
            raise Refused(f"SegmentEmpty({at})")
        if segment in (b".", b".."):
            raise Refused(f"SegmentDots({at})")
        for index, byte in enumerate(segment):
            if byte not in SEGMENT_BYTES:
                raise Refused(f"PathByte({at + index})")
        at += len(segment)
    return path.decode()


def read_id(text: bytes) -> tuple[str, str]:
    """The trust domain name and the path of an ID."""
    if len(text) > 2048:
        raise Refused("TooLong")
    if not text.startswith(b"spiffe://"):
        raise Refused("Scheme")
    name, slash, _ = text[9:].partition(b"/")
    domain = checked_name(name, 9)
    return domain, checked_path(text[9 + len(name) :], 9 + len(name)) if slash else ""


# JSON


@dataclass(frozen=True)
class Number:
    """A number of a JSON text, as it is written. It is whole if it has no fraction, no exponent and 64 bits, and is not -0."""

    text: str

    @property
    def whole(self) -> int | None:
        if not re.fullmatch(r"-?\d+", self.text) or self.text == "-0":
            return None
        value = int(self.text)
        return value if -(2**63) <= value <= LAST else None

    @property
    def time(self) -> int | None:
        return None if self.whole is None or self.text.startswith("-") else self.whole


def number(text: str) -> Number:
    if abs(float(text)) == float("inf"):
        raise ValueError(text)
    return Number(text)


def refused_constant(text: str) -> None:
    raise ValueError(text)


def is_well_formed(value: object) -> bool:
    """Whether no text has half a surrogate pair."""
    if isinstance(value, str):
        return not re.search(r"[\ud800-\udfff]", value)
    if isinstance(value, list):
        return all(map(is_well_formed, value))
    if isinstance(value, dict):
        return all(is_well_formed(name) and is_well_formed(it) for name, it in value.items())
    return True


def depth_of(text: str) -> int:
    most = depth = 0
    for sign in re.sub(r'"(?:[^"\\]|\\.)*"', "", text):
        depth += (sign in "[{") - (sign in "]}")
        most = max(most, depth)
    return most


def read_json(data: bytes) -> object:
    """The value of a JSON text, with a Number for each number."""
    try:
        text = data.decode()
        if depth_of(text) > 127:
            raise ValueError("too deep")
        value: object = json.loads(text, parse_int=number, parse_float=number, parse_constant=refused_constant)
    except (ValueError, OverflowError, RecursionError):
        raise Refused("NotObject") from None
    if not is_well_formed(value):
        raise Refused("NotObject")
    return value


def object_of(data: bytes, refusal: str) -> dict[str, object]:
    try:
        value = read_json(data)
    except Refused:
        raise Refused(refusal) from None
    if not isinstance(value, dict):
        raise Refused(refusal)
    return value


def compact(value: object) -> str:
    """The compact text of a value whose numbers are all whole."""
    if isinstance(value, dict):
        names = sorted(value, key=str.encode)
        return "{" + ",".join(f"{compact(name)}:{compact(value[name])}" for name in names) + "}"
    if isinstance(value, list):
        return "[" + ",".join(map(compact, value)) + "]"
    if isinstance(value, Number):
        return str(value.whole)
    return json.dumps(value, ensure_ascii=False)


def quoted(text: str) -> str:
    """A text as svid_script prints it in quotation marks."""
    names = {'"': '\\"', "\\": "\\\\", "\n": "\\n", "\r": "\\r", "\t": "\\t", "\0": "\\0"}
    return '"' + "".join(names.get(it) or (it if it.isprintable() else f"\\u{{{ord(it):x}}}") for it in text) + '"'


def optional(value: object) -> str:
    if value is None:
        return "None"
    return f"Some({quoted(value) if isinstance(value, str) else value})"


# Tokens


@dataclass(frozen=True)
class Header:
    alg: str
    kid: str | None


@dataclass(frozen=True)
class Claims:
    sub: str
    domain: str
    aud: list[str]
    exp: int
    nbf: int | None
    jti: str | None


def decoded(part: bytes, refusal: str) -> bytes:
    if not re.fullmatch(rb"[A-Za-z0-9_-]*", part) or len(part) % 4 == 1:
        raise Refused(refusal)
    data = base64.urlsafe_b64decode(part + b"=" * (-len(part) % 4))
    if base64url(data) != part:
        raise Refused(refusal)
    return data


def split(token: bytes) -> list[bytes]:
    if len(token) > 65536:
        raise Refused("TooLong")
    parts = token.split(b".")
    if len(parts) != 3:
        raise Refused("NotThreeParts")
    return parts


@lru_cache(64)
def read_header(part: bytes) -> Header:
    value = object_of(decoded(part, "HeaderSpelling"), "HeaderNotObject")
    if "crit" in value:
        raise Refused("Crit")
    alg = value.get("alg")
    if not isinstance(alg, str) or alg not in ALGORITHMS:
        raise Refused("Alg")
    if "typ" in value and value["typ"] not in ("JWT", "JOSE"):
        raise Refused("Typ")
    kid = value.get("kid")
    if "kid" in value and not isinstance(kid, str):
        raise Refused("Kid")
    return Header(alg, kid if isinstance(kid, str) else None)


@lru_cache(64)
def read_payload(part: bytes) -> dict[str, object]:
    return object_of(decoded(part, "PayloadSpelling"), "PayloadNotObject")


def read_signature(part: bytes) -> bytes:
    if not part:
        raise Refused("SignatureSpelling")
    return decoded(part, "SignatureSpelling")


def time_at(value: dict[str, object], name: str, refusal: str) -> int:
    time = value.get(name)
    if not isinstance(time, Number) or time.time is None:
        raise Refused(refusal)
    return time.time


def read_claims(value: dict[str, object]) -> Claims:
    sub = value.get("sub")
    try:
        if not isinstance(sub, str):
            raise Refused("Sub")
        domain, _ = read_id(sub.encode())
    except Refused:
        raise Refused("Sub") from None
    named = value.get("aud")
    aud = named if isinstance(named, list) else [named]
    if not aud or not all(isinstance(it, str) for it in aud):
        raise Refused("Aud")
    exp = time_at(value, "exp", "Exp")
    nbf = time_at(value, "nbf", "Nbf") if "nbf" in value else None
    jti = value.get("jti")
    if "jti" in value and not isinstance(jti, str):
        raise Refused("Jti")
    return Claims(sub, domain, aud, exp, nbf, jti if isinstance(jti, str) else None)


# Bundles and tables


@dataclass(frozen=True)
class Key:
    domain: str
    kid: str
    kty: str
    text: str

    def lines(self) -> list[str]:
        return [f"= {self.domain} {self.kty} {quoted(self.kid)}", f"= {self.text}"]


def has_whole_numbers(value: object) -> bool:
    if isinstance(value, Number):
        return value.whole is not None
    if isinstance(value, (dict, list)):
        return all(map(has_whole_numbers, value.values() if isinstance(value, dict) else value))
    return True


def key_of(domain: str, entry: object) -> Key | None:
    if not isinstance(entry, dict) or entry.get("use") != "jwt-svid" or not isinstance(entry.get("kid"), str):
        return None
    kty = {"RSA": "Rsa", "EC": "Ec"}.get(entry["kty"]) if isinstance(entry.get("kty"), str) else None
    if kty is None or not has_whole_numbers(entry):
        return None
    text = compact(entry)
    return Key(domain, entry["kid"], kty, text) if len(text.encode()) <= 65536 else None


def read_bundles(data: bytes) -> dict[str, list[Key]]:
    value = object_of(data, "NotObject")
    bundles: dict[str, list[Key]] = {}
    for index, name in enumerate(sorted(value, key=str.encode)):
        try:
            checked_name(name.encode(), 0)
        except Refused:
            raise Refused(f"Domain({index})") from None
        keys = value[name]
        entries = keys.get("keys", 0) if isinstance(keys, dict) else 0
        if entries is not None and not isinstance(entries, list):
            raise Refused(f"Keys({index})")
        bundles[name] = [key for entry in entries or [] if (key := key_of(name, entry))]
    return bundles


def candidates(bundles: dict[str, list[Key]], domain: str, alg: str, kid: str | None) -> list[Key]:
    return [key for key in bundles[domain] if key.kty == FAMILIES[alg[0]] and kid in (None, key.kid)]


def question(key: Key, alg: str, signed: bytes, signature: bytes) -> bytes:
    fields = (key.domain.encode(), key.text.encode(), alg.encode(), signed, signature)
    return hashlib.sha256(b"".join(len(it).to_bytes(4, "big") + it for it in fields)).digest()


def read_table(data: bytes) -> set[bytes]:
    questions = set()
    for number, line in enumerate(data.split(b"\n"), 1):
        line = line.removesuffix(b"\r")
        if line and not re.fullmatch(rb"[0-9a-fA-F]{64}", line):
            raise Refused(f"Line({number})")
        if line:
            questions.add(bytes.fromhex(line.decode()))
    return questions


def verdict(token: bytes, bundles: dict[str, list[Key]], table: set[bytes]) -> Claims:
    """The claims of a token that a validator with the audience `s` and a new record accepts."""
    head, payload, signature = split(token)
    header, body, signed = read_header(head), read_payload(payload), read_signature(signature)
    claims = read_claims(body)
    if "s" not in claims.aud:
        raise Refused("NotAudience")
    if claims.exp <= NOW:
        raise Refused("Expired")
    if claims.nbf is not None and claims.nbf > NOW:
        raise Refused("NotYet")
    if claims.domain not in bundles:
        raise Refused("UnknownDomain")
    keys = candidates(bundles, claims.domain, header.alg, header.kid)
    if not keys:
        raise Refused("NoKey")
    if not any(question(key, header.alg, head + b"." + payload, signed) in table for key in keys):
        raise Refused("BadSignature")
    return claims


# Messages


def said_bytes(data: bytes) -> str:
    return f"= {data.hex() if len(data) <= MOST_DIGITS else f'{len(data)} {hashlib.sha256(data).hexdigest()}'}"


def checked_use(text: bytes, before: Use | None, moment: int, offset: int) -> Use:
    """The use of this text in version 2, or its first fault."""
    use = Use(int.from_bytes(text[:8], "big"), text[8:40], text[40:56], int.from_bytes(text[56:64], "big"), text[64] == 1)
    faults = {
        "UseKind": text[64] > 1,
        "UseExpired": use.exp <= moment,
        "UseFuture": use.at > moment,
        "UseOrder": before is not None and text <= before.text(),
    }
    for reason, is_bad in faults.items():
        if is_bad:
            raise Refused(f"{offset} {reason}")
    return use


def read_message(data: bytes) -> tuple[list[str], int]:
    """What svid_script prints of the first message, and how long it is; 0 if the bytes end within it."""
    if len(data) < 4:
        return [], 0
    if data[:4] not in (b"JSR\1", b"JSR\2"):
        raise Refused("0 Magic")
    version = data[3]
    if len(data) < 5:
        return [], 0
    if data[4] not in (1, 2) or data[4] == 2 and version == 1:
        raise Refused("4 Kind")
    moment = int.from_bytes(data[5:13], "big")
    if data[4] == 2:
        return ([f"= summary {moment} {hashlib.sha256(data[13:8205]).hexdigest()}"], 8205) if len(data) >= 8205 else ([], 0)
    if len(data) < 17:
        return [], 0
    count, size = int.from_bytes(data[13:17], "big"), 63 + version
    if count > (4096 if version == 1 else 65536):
        raise Refused("13 Count")
    uses: list[Use] = []
    for offset in range(17, 17 + size * count, size):
        text = data[offset : offset + size]
        if len(text) < size:
            return [], 0
        text += bytes(65 - size)
        uses.append(checked_use(text, uses[-1] if uses else None, moment, offset))
    return batch_lines(moment, uses), 17 + size * count


def read_messages(data: bytes) -> tuple[list[str], str, bool]:
    """What is printed of all whole messages; the fault behind them, if there is one; and whether it is their end."""
    lines: list[str] = []
    while data:
        try:
            more, length = read_message(data)
        except Refused as fault:
            offset, reason = str(fault).split()
            return lines, f"! WireFault {{ offset: {offset}, reason: {reason} }}", False
        if not length:
            return lines, f"! WireFault {{ offset: {len(data)}, reason: Truncated }}", True
        lines += more
        data = data[length:]
    return lines, "", True
