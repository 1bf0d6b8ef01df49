"""Tokens and keys of all kinds for the six readers, good and spoiled, from a seed."""

import json
import random
import sys
from collections.abc import Callable
from dataclasses import dataclass

from conftest import TOP
from cryptography.hazmat.primitives.asymmetric import ec, padding, rsa, utils

sys.path.insert(0, str(TOP / "tests"))
from vectors.source import crypto  # noqa: E402
from vectors.source.crypto import ALGORITHMS, CURVE_OF, b64, key, number, rsa_key, unb64  # noqa: E402

AUDIENCES = ["ledger", "lédger two"]
LONGEST = 7200
DOMAIN = "example.org"
ZERO_WIDTH = ["\u200b", "\u200d", "\u2060", "\ufeff", "\u00ad"]
LAST = 2**64 - 1


@dataclass(frozen=True)
class Case:
    token: bytes
    what: str
    """Which kind of token it is, for people."""
    bundle: str = ""
    """The trust domain whose bundle it is for; none for a token of the bundles that most are for."""


class Signer:
    """A private key of tests/vectors/, which signs by `cryptography`."""

    def __init__(self, alg: str, text: str = "one") -> None:
        made = self.made = key(alg, text)
        if isinstance(made, crypto.EC):
            self.key = ec.derive_private_key(made.secret, made.curve.curve)
        else:
            p, q = made.primes
            d = pow(made.exponent, -1, (p - 1) * (q - 1))
            public = rsa.RSAPublicNumbers(made.exponent, made.modulus)
            self.key = rsa.RSAPrivateNumbers(p, q, d, d % (p - 1), d % (q - 1), rsa.rsa_crt_iqmp(p, q), public).private_key()

    def entry(self, kid: str) -> dict[str, object]:
        return {"use": "jwt-svid", "kid": kid, **self.made.members()}

    def pair(self, alg: str, signed: bytes) -> tuple[int, int]:
        return utils.decode_dss_signature(self.key.sign(signed, ec.ECDSA(crypto.HASHES[alg[2:]])))

    def sign(self, alg: str, signed: bytes, salt: int | None = None) -> bytes:
        if alg[0] == "E":
            return self.made.pair(*self.pair(alg, signed))
        hashed = crypto.HASHES[alg[2:]]
        salted = padding.PSS(padding.MGF1(hashed), hashed.digest_size if salt is None else salt)
        return self.key.sign(signed, padding.PKCS1v15() if alg[0] == "R" else salted, hashed)


SIGNERS: dict[tuple[str, str], Signer] = {}


def signer(alg: str, text: str = "one") -> Signer:
    """RSA keys serve six algorithms."""
    name = (alg if alg[0] == "E" else "RSA", text)
    if name not in SIGNERS:
        SIGNERS[name] = Signer(alg, text)
    return SIGNERS[name]


def main_bundles() -> dict[str, str]:
    """The bundles that most tokens are for."""
    own = [signer(alg).entry(alg) for alg in ALGORITHMS]
    several = [signer("ES256", f"key {it}").entry("same") for it in range(5)]
    others = [signer("ES256", "key 0").entry("ES256"), signer("RS256", "two").entry("RS256")]
    return {
        DOMAIN: json.dumps({"keys": own}),
        "several.example": json.dumps({"keys": several}),
        "other.example": json.dumps({"keys": others}),
        "empty.example": '{"keys":[]}',
    }


class Maker:
    """Makes one token after the other. No two have one key, so that none is refused for having been used."""

    def __init__(self, seed: int, now: int) -> None:
        self.seed, self.now, self.n = seed, now, 0
        self.r = random.Random(seed)

    def texts(self, alg: str) -> tuple[dict[str, object], dict[str, object]]:
        r = self.r
        exp = self.now + r.randrange(2400, 5400)
        header = {"alg": alg, "kid": alg, **r.choice([{}, {}, {"typ": "JWT"}, {"typ": "JOSE"}, {"x": [1, {"y": None}]}])}
        sub = f"spiffe://{DOMAIN}/" + r.choice(["billing/api", "a", "A-b_c.9/...", "x" * 200, "a/" * 40 + "b"])
        aud = r.choice(["ledger", ["ledger"], ["other", "lédger two"], "lédger two", ["ledger", "ledger"]])
        return header, {
            "sub": sub,
            "aud": aud,
            "exp": exp,
            "jti": f"{self.seed} {self.n}",
            **r.choice([{}, {"iat": self.now}, {"nbf": self.now}, {"nbf": 0}]),
        }

    def signed(self, alg: str, header: object, payload: object, by: Signer | None = None, **how: object) -> bytes:
        parts = [b64(it if isinstance(it, (str, bytes)) else self.json(it)) for it in (header, payload)]
        text = ".".join(parts).encode()
        return text + b"." + b64((by or signer(alg)).sign(alg, text, **how)).encode()

    def json(self, value: object) -> str:
        """JSON, now and then with blanks or escapes."""
        style = self.r.randrange(6)
        if style == 0:
            return self.r.choice([" ", "\n", "\t\r\n"]) + json.dumps(value, indent=1) + " "
        return json.dumps(value, separators=(",", ":"), ensure_ascii=style == 1)

    # Each of these makes a token of a kind.

    def good(self, alg: str) -> bytes:
        return self.signed(alg, *self.texts(alg))

    def good_in_another_form(self, alg: str) -> bytes:
        """No `kid`, no `jti`, members twice (the last counts), names with escapes, members that nobody reads."""
        r = self.r
        header, payload = self.texts(alg)
        kind = r.randrange(6)
        if kind == 0:
            del header["kid"]
        if kind == 1:
            del payload["jti"]
            payload["n"] = self.n
        texts = [self.json(header), self.json(payload)]
        if kind == 2:
            texts[0] = '{"alg":"none","kid":7,"crit":1,'.replace('"crit":1,', "") + texts[0].strip()[1:]
            texts[1] = '{"exp":1,"aud":[],"sub":"x","jti":{},' + texts[1].strip()[1:]
        if kind == 3:
            texts[1] = texts[1].replace('"sub"', '"\\u0073ub"').replace('"exp"', '"e\\u0078p"')
        if kind == 4:
            which = r.randrange(2)
            extra = r.choice(
                [
                    '"pad":"' + "a" * r.choice([1, 20_000, 30_000]) + '",',
                    '"n":1e300,"m":-0,"k":0.5,',
                    '"d":' + "[" * 126 + "]" * 126 + ",",
                    '"é\\u200b":"\\ud83d\\ude00",',
                ]
            )
            texts[which] = "{" + extra + texts[which].strip()[1:]
        return self.signed(alg, *texts)

    def structure(self, alg: str) -> bytes:
        r, token = self.r, self.good(alg)
        head, body, tail = token.split(b".")
        return r.choice(
            [
                lambda: token[: r.randrange(1, len(token))],
                lambda: token.replace(b".", b"", 1),
                lambda: token + b"." + r.choice([b"", b"x", tail]),
                lambda: b".".join([head, b"", tail]),
                lambda: b".".join([b"", body, tail]),
                lambda: b".".join([head, body, b""]),
                lambda: b"..",
                lambda: b"e30.e30.e30",
                lambda: b".".join([head + b"=", body, tail]),
                lambda: b".".join([head, body + b"==", tail]),
                lambda: token + r.choice([b"=", b"A", b"AAAA", b"~", b"+", b"/"]),
                lambda: r.choice([b" ", b"\t", b"\xff", b"\x01"]) + token,
                lambda: token + b"A" * (r.choice([65_536, 65_537, 65_540]) - len(token)),
                lambda: token[: (at := r.randrange(len(token)))] + r.choice(ZERO_WIDTH).encode() + token[at:],
                lambda: bytes([*r.choices(range(256), k=r.randrange(1, 60))]),
            ]
        )()

    def bytes_changed(self, alg: str) -> bytes:
        token = bytearray(self.good(alg))
        letters = b"ABCDEFGHIJKLMNOPQRSTUVWXYZabcdefghijklmnopqrstuvwxyz0123456789-_."
        for _ in range(self.r.choice([1, 1, 1, 2, 5])):
            token[self.r.randrange(len(token))] = self.r.choice(letters) if self.r.random() < 0.8 else self.r.randrange(256)
        return bytes(token)

    ODD = [
        "null",
        "true",
        "7",
        "0",
        "-1",
        "-0",
        "1.5",
        "1e9",
        "[]",
        "{}",
        '""',
        '"x"',
        '[""]',
        "[1]",
        '["ledger",1]',
        '"\\ud800"',
        '"\\u0000"',
        '"1767225600"',
        str(LAST),
        str(LAST + 1),
        "1" * 400,
        "1e400",
        "00",
        "+1",
        "tru",
        '"',
        "NaN",
        "Infinity",
    ]

    def member(self, alg: str, which: int, names: list[str], values: list[str]) -> bytes:
        """A token in which a member has another value, is doubled or is not there."""
        r, texts = self.r, [*self.texts(alg)]
        name = r.choice(names)
        rest = {k: v for k, v in texts[which].items() if k != name}
        # (two tokens of one `jti` are one, and the second would be Replayed)
        value = r.choice(values + [it for it in self.ODD if name != "jti" or it[0] != '"'])
        good = json.dumps(texts[which].get(name, "x"))
        members = r.choice(
            [f'"{name}":{value}'] * 5
            + [
                "",
                f'"{name}":{good},"{name}":{value}',
                f'"{name}":{value},"{name}":{good}',
                f'"{name.upper()}":{good}',
                f'"{name} ":{good}',
                f'"{name}\u200b":{good}',
            ]
        )
        inner = json.dumps(rest, separators=(",", ":"))[1:-1]
        made = [json.dumps(it, separators=(",", ":")) for it in texts]
        made[which] = "{" + ",".join(it for it in r.choice([[inner, members], [members, inner]]) if it) + "}"
        return self.signed(alg, *made)

    def header(self, alg: str) -> bytes:
        values = [
            '"JWT"',
            '"JOSE"',
            '"jwt"',
            '"at+jwt"',
            '"none"',
            '"HS256"',
            '"EdDSA"',
            '"es256"',
            '"ES256K"',
            f'"{alg} "',
            f'"{alg}\u200b"',
            f'["{alg}"]',
            '["exp"]',
            *(f'"{it}"' for it in ALGORITHMS),
        ]
        return self.member(alg, 0, ["alg", "typ", "kid", "crit", "b64", "jwk"], values)

    def sub(self, alg: str) -> bytes:
        d, long = DOMAIN, "a" * 255
        ids = [
            f"spiffe://{d}",
            f"spiffe://{d}/",
            f"spiffe://{d}//a",
            f"spiffe://{d}/a/",
            f"spiffe://{d}/.",
            f"spiffe://{d}/a/..",
            f"spiffe://{d}/...",
            f"spiffe://{d}/%41",
            f"spiffe://{d}/é",
            f"spiffe://{d}/a b",
            f"spiffe://{d}?a",
            f"spiffe://{d}#a",
            f"spiffe://{d}:80/a",
            f"spiffe://u@{d}/a",
            f"SPIFFE://{d}/a",
            f"Spiffe://{d}/a",
            f"spiffe:/{d}/a",
            f"spiffe://{d.upper()}/a",
            "spiffe:///a",
            "spiffe://",
            "",
            f"https://{d}/a",
            f" spiffe://{d}/a",
            f"spiffe://{d}/a ",
            f"spiffe://{d}\u200b/a",
            f"spiffe://{d}/a\u200b",
            f"spiffe://{long}/a",
            f"spiffe://{long}a/a",
            f"spiffe://{d}/" + "b" * (2048 - 10 - len(d)),
            f"spiffe://{d}/" + "b" * (2049 - 10 - len(d)),
            "spiffe://unknown.example/a",
            "spiffe://empty.example/a",
            "spiffe://1.2.3.4/a",
            f"spiffe://{d}./a",
            f"spiffe://-{d}/a",
            f"spiffe://{d}/a\u0000",
            f"spiffe://{d}\\a",
            "spiffe://exämple.org/a",
            f"spiffe://{d}/\u0430",
        ]
        return self.member(alg, 1, ["sub"], [json.dumps(it) for it in ids])

    def aud(self, alg: str) -> bytes:
        values = [
            "Ledger",
            "ledger ",
            " ledger",
            "ledger\u200b",
            "led\u00adger",
            "ledger\n",
            "ledger,other",
            "l\u0435dger",
            "lédger two",
            "le\u0301dger two",
            "other",
            "",
        ]
        texts = (
            [json.dumps(it) for it in values]
            + [json.dumps([it, "x"]) for it in values]
            + ['["x","ledger"]', '["ledger",null]', '[["ledger"]]', '{"ledger":1}', '["\\u006cedger"]', "[" + '"x",' * 3000 + '"ledger"]']
        )
        return self.member(alg, 1, ["aud"], texts)

    def times(self, alg: str) -> bytes:
        """Those that are the same from `now` on for a while; others are asked in their very second."""
        now = self.now
        exps = [
            now,
            now - 1,
            now - 3600,
            1,
            now + 1800,
            now + 7200 + 3600,
            now + 10**6,
            now * 1000,
            2**63 - 1,
            2**63,
            2**53 + 1,
            LAST,
        ]
        if self.r.randrange(2):
            return self.member(
                alg,
                1,
                ["exp"],
                [str(it) for it in exps] + [f"{now + 3600}.0", f'"{now + 3600}"', f"{now + 3600}e0", f"0{now + 3600}", f" {now + 3600} "],
            )
        return self.member(
            alg, 1, ["nbf"], [str(it) for it in [now, now - 1, 0, now + 10**5, 2**63, LAST, LAST - 1]] + [f"{now}.0", f'"{now}"']
        )

    def jti(self, alg: str) -> bytes:
        name = (
            json.dumps(f"{self.n}\u200b\U0001f600é", ensure_ascii=bool(self.r.randrange(2)))
            if self.r.randrange(3)
            else json.dumps("j" * 30_000 + str(self.n))
        )
        return self.member(alg, 1, ["jti", "iat", "iss"], [name, f'["{self.n}"]', f"{self.n}"])

    def not_json(self, alg: str) -> bytes:
        """A header or payload that is no JSON object, or JSON in an odd form."""
        r, texts = self.r, [json.dumps(it).encode() for it in self.texts(alg)]
        which = r.randrange(2)
        text = texts[which]
        at = r.randrange(len(text) + 1)
        texts[which] = r.choice(
            [
                lambda: b"[" + text + b"]",
                lambda: b"null",
                lambda: b"",
                lambda: b"{}",
                lambda: text + b" x",
                lambda: text[:-1],
                lambda: text + text,
                lambda: b"\xef\xbb\xbf" + text,
                lambda: text[:at]
                + r.choice([b"\xff", b"\xc3", b"\xed\xa0\x80", b"\xc0\xaf", b"\xf4\x90\x80\x80", b"\0", b"\x01", b"\x7f"])
                + text[at:],
                lambda: text[:at] + r.choice(ZERO_WIDTH).encode() + text[at:],
                lambda: text.replace(b":", b" : ", 1),
                lambda: text.replace(b'"', b"'"),
                lambda: text.replace(b"}", b",}"),
                lambda: b'{"d":' + b"[" * 127 + b"]" * 127 + b"," + text[1:],
                lambda: b'{"d":' + b'{"a":' * 126 + b"1" + b"}" * 126 + b"," + text[1:],
                lambda: b'{"d":' + b"[" * 5000 + b"]" * 5000 + b"," + text[1:],
                lambda: b'{"s":"\\ud800",' + text[1:],
                lambda: b'{"s":"\\udc00\\ud800",' + text[1:],
                lambda: b'{"n":1e400,' + text[1:],
                lambda: b'{"n":-1e-400,' + text[1:],
                lambda: b'{"\\u0061":1,"a":2,' + text[1:],
                lambda: b'{"n":01,' + text[1:],
                lambda: b'{"n":1.,' + text[1:],
                lambda: b"/**/" + text,
                lambda: text.decode().encode("utf-16"),
            ]
        )()
        return self.signed(alg, *texts)

    def signature(self, alg: str) -> bytes:
        r = self.r
        text, tail = self.good(alg).rsplit(b".", 1)
        signature, other = unb64(tail.decode()), r.choice([it for it in ALGORITHMS if it != alg])
        flipped = bytearray(signature)
        flipped[r.randrange(len(flipped))] ^= 1 << r.randrange(8)
        forms = [
            lambda: bytes(flipped),
            lambda: signature[:-1],
            lambda: signature + b"\0",
            lambda: b"\0" + signature,
            lambda: bytes(len(signature)),
            lambda: b"\xff" * len(signature),
            lambda: signature[: len(signature) // 2],
            lambda: signer(alg, "two").sign(alg, text),
            lambda: signer(other).sign(other, text),
            lambda: signer(alg).sign(alg, text + b"x"),
            lambda: signature * 2,
            lambda: r.randbytes(len(signature)),
            lambda: signature[1:],
            lambda: r.randbytes(3000),
        ]
        if alg[0] == "E":
            curve, own = CURVE_OF[alg], signer(alg).made
            first, second = signer(alg).pair(alg, text)
            forms += [
                lambda: own.pair(first, curve.order - second),
                lambda: own.pair(second, first),
                lambda: own.pair(0, second),
                lambda: own.pair(first, 0),
                lambda: own.pair(curve.order, second),
                lambda: utils.encode_dss_signature(first, second),
                lambda: own.pair(first, second)[: curve.size] * 2,
            ]
        else:
            modulus = signer(alg).made.modulus
            forms += [
                lambda: ((int.from_bytes(signature, "big") + modulus) % (1 << 2048)).to_bytes(256, "big"),
                lambda: (modulus - int.from_bytes(signature, "big")).to_bytes(256, "big"),
            ]
        if alg[0] == "P":
            forms += [
                lambda: signer(alg).sign(alg, text, salt=r.choice([0, 8, 20, 31, 33, 63, 100])),
                # (a number of fewer bytes than the modulus, which is no signature: the salts are new each time)
                lambda: next(it for it in iter(lambda: signer(alg).sign(alg, text), b"") if not it[0]).lstrip(b"\0"),
                lambda: signer(alg).sign("RS" + alg[2:], text),
            ]
        if r.randrange(12) == 0:
            return (
                text
                + b"."
                + r.choice(
                    [
                        tail[:-1] + (b"B" if tail[-1:] != b"B" else b"C"),
                        tail + b"=",
                        tail[:10] + b"+" + tail[11:],
                        tail.replace(b"A", b" ", 1),
                    ]
                )
            )
        return text + b"." + b64(r.choice(forms)()).encode()

    def keys(self, alg: str) -> bytes:
        """The key of another domain or of another name; names that several keys have, and no name."""
        r = self.r
        header, payload = self.texts(alg)
        kind = r.randrange(5)
        if kind == 0:
            header["kid"] = r.choice(["unknown", "", "same", alg.lower(), alg + " ", alg + "\u200b"])
        if kind == 1:
            header["kid"] = r.choice(ALGORITHMS)
        if kind == 2:
            payload["sub"] = r.choice(
                ["spiffe://other.example/a", "spiffe://several.example/a", "spiffe://unknown.example/a", "spiffe://empty.example/a"]
            )
        by = None
        if kind > 2:
            alg, which = "ES256", r.randrange(6)
            by = signer(alg, f"key {which}") if which < 5 else signer(alg)
            header, payload["sub"] = {"alg": alg, **r.choice([{}, {"kid": "same"}])}, "spiffe://several.example/b"
        return self.signed(alg, header, payload, by)

    KINDS: list[tuple[Callable[..., bytes], int]] = [
        (good, 4),
        (good_in_another_form, 4),
        (structure, 3),
        (bytes_changed, 4),
        (header, 5),
        (sub, 4),
        (aud, 4),
        (times, 4),
        (jti, 2),
        (not_json, 4),
        (signature, 6),
        (keys, 4),
    ]

    def next(self, alg: str) -> Case:
        self.n += 1
        kinds, shares = zip(*self.KINDS)
        kind = self.r.choices(kinds, shares)[0]
        # (a line of `svid check` is a token that is not empty)
        token = kind(self, alg).replace(b"\n", b"\x0b").replace(b"\r", b"\x0b") or b"."
        return Case(token, f"{kind.__name__} {alg} {self.n}")


def tokens(maker: Maker, count: int) -> list[Case]:
    return [maker.next(ALGORITHMS[maker.n % len(ALGORITHMS)]) for _ in range(count)]


def edges(seed: int, now: int, count: int, who: str) -> list[Case]:
    """Tokens that are to be asked in this very second, or close to it."""
    maker = Maker(seed, now)
    made = []
    for n in range(count):
        header, payload = maker.texts("ES256")
        name = maker.r.choice(["exp", "nbf", "longest"])
        at = now + maker.r.randrange(-2, 5)
        payload |= {"exp": at + LONGEST} if name == "longest" else {name: at}
        payload["jti"] = f"{seed} {now} {who} {n}"
        made.append(Case(maker.signed("ES256", header, payload), f"edge: {name} is {at}"))
    return made


def odd_entries(r: random.Random, alg: str) -> str:
    """An entry of a bundle for the key of an algorithm, as JSON, in an odd form."""
    good = signer(alg).entry(alg)
    entry = dict(good)
    numbers = [it for it in "nexy" if it in good]
    name = r.choice(["use", "kid", "kty", "alg", "crv", "key_ops", "x5c", *numbers, *numbers, *numbers])
    value: object = r.choice(
        [
            None,
            "",
            7,
            [],
            {},
            True,
            1.5,
            "x",
            "AQAB",
            "\u200b",
            str(good.get(name)) + "\u200b",
            str(good.get(name)) + "=",
            str(good.get(name)) + " ",
            good.get(name),
            [good.get(name)],
            "A" + str(good.get(name)),
            "AA" + str(good.get(name)),
            str(good.get(name))[:-1],
            str(good.get(name))[1:],
            str(good.get(name)).lower(),
            *ALGORITHMS,
            "P-256",
            "P-384",
            "P-521",
            "EC",
            "RSA",
            "oct",
            "OKP",
            "jwt-svid",
            "x509-svid",
            "sig",
        ]
    )
    kind = r.randrange(8)
    if kind < 4:
        entry[name] = value
    elif kind == 4:
        entry.pop(name, None)
    elif kind == 5 and alg[0] != "E":
        entry["e"] = number(r.choice([1, 2, 3, 17, 65_536, 65_539, 2**31 - 1, 2**31 + 1, 2**32 + 1, 2**40 + 1]))
        if r.randrange(2):
            entry["n"] = number(
                r.choice(
                    [
                        rsa_key("two").modulus,
                        good_modulus(alg) + 1,
                        good_modulus(alg) >> 1 | 1,
                        good_modulus(alg) << 8 | 1,
                        (1 << 4095) + 1,
                        (1 << 4096) + 1,
                    ]
                )
            )
    elif kind == 5:
        curve = CURVE_OF[r.choice(["ES256", "ES384", "ES512"])]
        point = curve.point(r.randrange(1, 1000))
        entry |= {"crv": curve.name, "x": number(point.x, curve.size), "y": number(r.choice([point.y, point.y ^ 1, 0]), curve.size)}
    text = json.dumps(entry, separators=r.choice([(",", ":"), (", ", ": ")]), ensure_ascii=bool(r.randrange(2)))
    if kind == 6:
        front = r.choice(
            [
                f'"{name}":{json.dumps(value)},',
                '"n":1.5,',
                '"z":-0,',
                '"z":18446744073709551616,',
                '"z":1e3,',
                '"big":"' + "a" * r.choice([1000, 64_900, 65_600]) + '",',
                '"k\\u0069d":"other",',
                '"d":' + "[" * 100 + "]" * 100 + ",",
            ]
        )
        text = "{" + front + text[1:]
    if kind == 7:
        back = r.choice(
            [
                f',"{name}":{json.dumps(value)}',
                f',"{name.upper()}":{json.dumps(value)}',
                f',"{name}\u200b":1',
                ',"use":"jwt-svid"',
                f',"d":{json.dumps(private_of(alg))}',
            ]
        )
        text = text[:-1] + back + "}"
    return text


def good_modulus(alg: str) -> int:
    return signer(alg).made.modulus


def private_of(alg: str) -> str:
    made = signer(alg).made
    return b64(b"\1" * 32) if isinstance(made, crypto.EC) else number(made.primes[0])


def odd_bundles(seed: int, now: int, count: int) -> tuple[dict[str, str], list[Case]]:
    """Bundles with odd keys, and in odd forms that are taken, each of its own trust domain; and a token for each."""
    r, maker = random.Random(f"{seed} keys"), Maker(seed, now)
    bundles, cases = {}, []
    for n in range(count):
        alg, domain = ALGORITHMS[n % len(ALGORITHMS)], f"k{n}.example"
        entries = [odd_entries(r, alg)]
        if r.randrange(4) == 0:
            entries = r.choice(
                [
                    entries * 2,
                    entries + [json.dumps(signer(alg).entry(alg))],
                    ["null", "7", "[]", *entries],
                    entries * 4,
                    [json.dumps(signer(alg, "two").entry(alg))] * 3 + entries,
                ]
            )
        keys = "[" + ",".join(entries) + "]"
        bundles[domain] = (
            r.choice(
                ['{"keys":%s}'] * 6
                + [
                    ' {"spiffe_sequence":1,"keys":%s,"spiffe_refresh_hint":"x"} \n',
                    '{"keys":[],"keys":%s}',
                    '{"keys":%s,"keys":null}',
                    '{"keys":%s,"KEYS":7,"keys ":1}',
                    '{"k\\u0065ys":%s}',
                    '{"é":{"a":[1.5]},"keys":%s}',
                ]
            )
            % keys
        )
        maker.n = n
        header, payload = maker.texts(alg)
        header = {"alg": alg, **r.choice([{"kid": alg}] * 3 + [{}])}
        payload |= {"sub": f"spiffe://{domain}/a", "jti": f"{seed} key {n}"}
        cases.append(Case(maker.signed(alg, header, payload), f"key {n} {alg}: {bundles[domain][:300]}", domain))
    return bundles, cases
