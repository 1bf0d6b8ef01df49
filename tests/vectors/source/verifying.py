"""keys.json and signatures.json: which keys made which signatures."""

import json

from . import crypto
from .checks import MOST_CANDIDATES, READERS, accepted, claims, entry, token
from .crypto import b64, json_text, number, unb64

BAD = "refused BadSignature"
NO_KEY = "refused NoKey"

# Members of a key with which it verifies nothing, and with which it does nevertheless.
CANDIDATE = 'docs/FORMATS.md, "Bundles": an entry is a key only with the text `RSA` or `EC` for `kty` and `jwt-svid` for `use`'
ALG = "RFC 7517, section 4.4: the algorithm that the key is for"
CRV = "RFC 7518, section 6.2.1.1"
XY = "RFC 7518, sections 6.2.1.2 and 6.2.1.3"
NE = "RFC 7518, section 6.3.1"
KTY = 'docs/FORMATS.md, "Candidates": `kty` fits the token\'s `alg`'
PASSED = "RFC 7517, section 4: members that are not understood are passed over"

SPOILING = {
    "ES256": [
        (
            ALG,
            BAD,
            ['{"alg":null}', '{"alg":""}', '{"alg":"es256"}', '{"alg":"ES256 "}', '{"alg":"ES384"}', '{"alg":"RS256"}', '{"alg":"none"}'],
        ),
        (ALG, BAD, ['{"alg":256}', '{"alg":false}', '{"alg":["ES256"]}', '{"alg":{"ES256":"ES256"}}']),
        (CANDIDATE, NO_KEY, ['{"kty":null}', '{"kty":""}', '{"kty":"ec"}', '{"kty":["EC"]}']),
        (KTY, NO_KEY, ['{"kty":"RSA"}']),
        (CRV, BAD, ['{"crv":null}', '{"crv":""}', '{"crv":"p-256"}', '{"crv":256}', '{"crv":["P-256"]}', '{"crv":"P-384"}']),
        (CANDIDATE, NO_KEY, ['{"use":null}', '{"use":""}', '{"use":"sig"}', '{"use":["jwt-svid"]}']),
        (XY, BAD, ['{"x":null}', '{"x":7}', '{"y":""}']),
    ],
    "RS256": [
        (
            ALG,
            BAD,
            ['{"alg":null}', '{"alg":""}', '{"alg":"rs256"}', '{"alg":"RS512"}', '{"alg":"PS256"}', '{"alg":256}', '{"alg":["RS256"]}'],
        ),
        (CANDIDATE, NO_KEY, ['{"kty":null}', '{"kty":"rsa"}']),
        (KTY, NO_KEY, ['{"kty":"EC"}']),
        (CANDIDATE, NO_KEY, ['{"use":null}']),
        (NE, BAD, ['{"n":null}', '{"n":7}', '{"e":null}', '{"e":65537}']),
    ],
}
HARMLESS = {
    "ES256": [
        (ALG, ["{}", '{"alg":"ES256"}']),
        (PASSED, ['{"Alg":null}', '{"ALG":"ES384"}', '{"n":7,"e":null}']),
        (PASSED, ['{"key_ops":null}', '{"key_ops":[]}', '{"key_ops":["sign"]}', '{"key_ops":"sign"}', '{"key_ops":7}']),
    ],
    "RS256": [
        (ALG, ["{}", '{"alg":"RS256"}']),
        (PASSED, ['{"Alg":null}', '{"crv":null}', '{"crv":7}', '{"crv":"P-256"}', '{"x":7,"y":null}']),
        (PASSED, ['{"key_ops":null}', '{"key_ops":["sign"]}']),
    ],
}


def row(name, source, keys, made, answer, **more):
    keys = [it if isinstance(it, str) else json_text(it) for it in keys]
    return {"name": name, "from": source, "keys": keys, "token": made, "answer": answer, **more}


def keys():
    yield from changed()
    for it in (*elliptic(), *modulus()):
        yield it
        alg = it["name"][:5]
        if it["answer"] == BAD and it["token"] == token(alg) and "readers" not in it:
            good = [*it["keys"], json_text(entry(crypto.key(alg)))]
            yield {**it, "name": f"{it['name']}, and a good key behind it", "keys": good, "answer": accepted()}
    yield from many()


def changed():
    """The 63 changed keys: a good one, with some members changed."""
    for alg in ("ES256", "RS256"):
        good, made = entry(crypto.key(alg)), token(alg)
        for source, answer, changes in SPOILING[alg]:
            for it in changes:
                yield row(f"{alg} with {it}", source, [{**good, **json.loads(it)}], made, answer)
        for source, changes in HARMLESS[alg]:
            for it in changes:
                yield row(f"{alg} with {it}", source, [{**good, **json.loads(it)}], made, accepted())


def without(members, name):
    return {known: value for known, value in members.items() if known != name}


def elliptic():
    """Points, and how they are spelt."""
    good, made = entry(crypto.key("ES256")), token()
    x, y = unb64(good["x"]), unb64(good["y"])
    left_over = good["x"][:-1] + chr(ord(good["x"][-1]) + 1)
    full = "RFC 7518, section 6.2.1.2: a coordinate has the full length of the curve's"
    spelt = "RFC 7515, section 2: base64url without padding, line ends or other characters"
    on = "RFC 7518, section 6.2.1: a point on the curve; computed by cryptography"
    for name, source, members in (
        ("no x", XY, without(good, "x")),
        ("no y", XY, without(good, "y")),
        ("no crv", CRV, without(good, "crv")),
        ("the curve secp256k1", CRV, {**good, "crv": "secp256k1"}),
        ("the curve P-384 with a point of P-256", CRV, {**good, "crv": "P-384"}),
        ("a key of P-384", "RFC 7518, section 3.4: ES256 is P-256", entry(crypto.key("ES384"))),
        ("an x of one byte", full, {**good, "x": "AA"}),
        ("an x of no byte", full, {**good, "x": ""}),
        ("an x with a zero in front", full, {**good, "x": b64(bytes(1) + x)}),
        ("a y with a zero in front", full, {**good, "y": b64(bytes(1) + y)}),
        ("a y with three zeros in front", full, {**good, "y": b64(bytes(3) + y)}),
        ("a y without its last byte", full, {**good, "y": b64(y[:-1])}),
        ("an x without its last character", spelt, {**good, "x": good["x"][:-1]}),
        ("an x with padding", spelt, {**good, "x": good["x"] + "="}),
        ("an x with a line end", spelt, {**good, "x": good["x"] + "\n"}),
        ("an x with a blank in front", spelt, {**good, "x": " " + good["x"]}),
        ("an x with a star", spelt, {**good, "x": "*" + good["x"][1:]}),
        ("an x in base64 of RFC 4648, section 4", spelt, {**good, "x": "+" * 43}),
        ("an x with bits left over", spelt, {**good, "x": left_over}),
        ("an x that is y", on, {**good, "x": good["y"]}),
        ("an x of 0", on, {**good, "x": b64(bytes(32))}),
        ("x and y of 0", on, {**good, "x": b64(bytes(32)), "y": b64(bytes(32))}),
        ("an x that is the field's prime more", on, {**good, "x": b64(b"\xff" * 32)}),
        ("another key", "computed by cryptography", entry(crypto.key("ES256", "two"))),
        ("a certificate alone", XY, {"use": "jwt-svid", "kid": "k1", "kty": "EC", "x5c": ["MIIB"]}),
    ):
        yield row(f"ES256, {name}", source, [members], made, BAD)
    for size, alg in ((48, "ES384"), (66, "ES512")):
        other = entry(crypto.key(alg))
        longer = {**other, "x": b64(bytes(1) + unb64(other["x"]))}
        yield row(f"{alg}, an x with a zero in front", full, [longer], token(alg), BAD)
        assert len(unb64(other["x"])) == size
    short = short_key()
    zeros = entry(short)
    yield row("ES256, an x that begins with a zero", full, [zeros], token(key=short), accepted())
    cut = {**zeros, "x": b64(unb64(zeros["x"])[1:])}
    yield row("ES256, that x without its zero", full, [cut], token(key=short), BAD)
    yield row(
        "ES256, members in another order, and some more",
        PASSED,
        [dict(reversed(list({**good, "x5c": ["MIIB"], "x5t": "AA", "note": {"a": [None]}}.items())))],
        made,
        accepted(),
    )
    yield row(
        "ES256, x twice, the last one good",
        'docs/FORMATS.md, "Bundles": the last value counts',
        [json_text(good).replace("{", '{"x":"AA",', 1)],
        made,
        accepted(),
    )
    yield row(
        "ES256, x twice, the first one good",
        'docs/FORMATS.md, "Bundles": the last value counts',
        [json_text(good)[:-1] + ',"x":"AA"}'],
        made,
        BAD,
    )
    whole = 'docs/FORMATS.md, "Bundles": every number inside is a whole one of 64 bits'
    for text, answer in (
        ("1.5", NO_KEY),
        ("1e3", NO_KEY),
        ("-0", NO_KEY),
        (str(2**64), NO_KEY),
        (str(-(2**63) - 1), NO_KEY),
        (str(2**64 - 1), accepted()),
        (str(-(2**63)), accepted()),
        ("0", accepted()),
    ):
        yield row(f"ES256, with the number {text}", whole, [json_text(good)[:-1] + f',"more":[{text}]}}'], made, answer)
    most = 'docs/FORMATS.md, "Bundles": the compact text has at most 65,536 bytes'
    for size, answer in ((65_536, accepted()), (65_537, NO_KEY)):
        pad = size - len(json_text({**good, "pad": ""}))
        yield row(f"ES256, a key of {size:,} bytes", most, [{**good, "pad": "a" * pad}], made, answer)


def short_key():
    """A key whose x begins with a zero."""
    turn = 0
    while True:
        made = crypto.EC("ES256", f"short {turn}")
        if made.public.x < 1 << 248:
            return made
        turn += 1


def modulus():
    """RSA keys of every length, and their exponents."""
    good, made = entry(crypto.key("RS256")), token("RS256")
    least = "RFC 7518, section 3.3: 2,048 bits or more"
    spelt = "RFC 7515, section 2: base64url without padding, line ends or other characters"
    odd = 'RFC 8017, section 3.1: an odd number from 3 on; docs/FORMATS.md, "Keys that can be used": up to 2^31-1'
    for name, source, members in (
        ("no n", NE, without(good, "n")),
        ("no e", NE, without(good, "e")),
        ("an n of no byte", NE, {**good, "n": ""}),
        ("an e of no byte", NE, {**good, "e": ""}),
        ("an e with padding", spelt, {**good, "e": "AQAB=="}),
        ("an e with a line end", spelt, {**good, "e": "AQAB\n"}),
        ("an n with a line end", spelt, {**good, "n": good["n"] + "\n"}),
        ("an exponent of 1", odd, {**good, "e": number(1)}),
        ("an exponent of 2", odd, {**good, "e": number(2)}),
        ("an exponent of 65,536", odd, {**good, "e": number(65_536)}),
        ("an exponent of 2^31+1", odd, {**good, "e": number(2**31 + 1)}),
        ("an exponent of 2^32+1", odd, {**good, "e": number(2**32 + 1)}),
        ("an exponent of 2,041 bits", odd, {**good, "e": number(2**2040 + 1)}),
        ("an even modulus", "RFC 8017, section 3.1: a product of odd primes", {**good, "n": number(2**2048 + 2)}),
        ("a modulus of 20,000 bits", 'docs/FORMATS.md, "Keys that can be used"', {**good, "n": number(2**19_999 + 1)}),
        ("another key", "computed by cryptography", entry(crypto.rsa_key("two"))),
        ("names in capitals", NE, {**{name: it for name, it in good.items() if name not in "ne"}, "N": good["n"], "E": good["e"]}),
    ):
        yield row(f"RS256, {name}", source, [members], made, BAD)
    for exponent in (3, 5, 2**31 - 1, 2**31 + 11, 2**32 + 1):
        own = crypto.rsa_key("exponents", 2048, exponent)
        answer = accepted() if exponent < 2**31 else BAD
        yield row(f"RS256, a token by a key of the exponent {exponent:,}", odd, [entry(own)], token("RS256", own), answer)
    for bits in (1024, 2047, 2048):
        own = crypto.rsa_key("lengths", bits)
        yield row(f"RS256, a token by a key of {bits:,} bits", least, [entry(own)], token("RS256", own), accepted() if bits >= 2048 else BAD)
    least_bytes = "RFC 7518, section 2: a number has the minimum number of octets (Base64urlUInt)"
    for name in "ne":
        zero = {**good, name: b64(bytes(1) + unb64(good[name]))}
        yield row(f"RS256, an {name} with a zero in front", least_bytes, [zero], made, BAD)
    bound = 'docs/FORMATS.md, "Keys that can be used": at most 4,096 bits, or what the caller allows'
    for bits, most, answer in (
        (4096, None, accepted()),
        (4096, 4095, BAD),
        (4096, 2048, BAD),
        (4097, None, BAD),
        (4097, 4096, BAD),
        (4097, 4097, accepted()),
        (8192, None, BAD),
        (16_384, None, BAD),
        (16_384, 16_384, accepted()),
        (16_385, 16_384, BAD),
    ):
        own = crypto.long_rsa_key(bits)
        allowed = "" if most is None else f" where {most:,} are allowed"
        more = {} if most is None else {"rsa_bits": most, "readers": ["go", "python", "rust"]}
        yield row(f"RS256, a token by a key of {bits:,} bits{allowed}", bound, [entry(own)], token("RS256", own), answer, **more)


def many():
    """Which of many keys are tried."""
    tried = f'docs/FORMATS.md, "Candidates": at most the first {MOST_CANDIDATES}'
    keys_ = [crypto.key("ES256", f"many {n}") for n in range(MOST_CANDIDATES + 2)]
    named = [entry(key, f"k{n}") for n, key in enumerate(keys_)]
    # (the program takes a yes to any candidate)
    not_svid = {"readers": [it for it in READERS if it != "svid"]}
    for n, key in enumerate(keys_):
        answer, readers = (accepted(), {}) if n < MOST_CANDIDATES else (BAD, not_svid)
        yield row(
            f"{len(keys_)} keys, a token without kid by number {n}",
            tried,
            named,
            token(key=key, header={"alg": "ES256"}),
            answer,
            **readers,
        )
        yield row(
            f"{len(keys_)} keys, a token with the kid of number {n}",
            tried,
            named,
            token(key=key, header={"alg": "ES256", "kid": f"k{n}"}),
            accepted(),
        )
    same = [entry(key) for key in keys_[: MOST_CANDIDATES - 1]]
    for n in range(len(same)):
        yield row(f"{len(same)} keys of one kid, a token by number {n}", tried, same, token(key=keys_[n]), accepted())
    yield row(f"{len(same)} keys of one kid, a token by another", tried, same, token(key=keys_[-1]), BAD)
    others = [entry(crypto.key("RS256")), entry(crypto.key("ES384"), "k2"), entry(crypto.key("ES256", "two"), "k4")]
    yield row(
        "keys of three kinds, a token without kid by the last",
        tried,
        others,
        token(key=crypto.key("ES256", "two"), header={"alg": "ES256"}),
        accepted(),
    )
    unusable = [{**entry(crypto.key("ES256")), "crv": f"P-{n}"} for n in range(MOST_CANDIDATES)]
    good = entry(crypto.key("ES256"))
    yield row("keys that can't be used, as many as are tried, and a good one", tried, [*unusable, good], token(), BAD, **not_svid)
    yield row("one less of these, and a good one", tried, [*unusable[1:], good], token(), accepted())
    yield row(
        "what is no key, and a good one",
        CANDIDATE,
        ["7", "null", "[]", "{}", '{"use":"x509-svid","kty":"EC","x5c":["MIIB"]}', good],
        token(),
        accepted(),
    )


# The first numbers of a jti with which a signature is what the vector asks for. Searching for them would take a minute.
FITS = {"RS256": 0, "RS384": 7, "RS512": 0, "PS256": 23, "PS384": 17, "PS512": 10}
ZERO = {"RS256": 459, "RS384": 94, "RS512": 0, "PS256": 409, "PS384": 133, "PS512": 39}


def signatures():
    yield from good_ones()
    yield from rsa_forms()
    yield from odd_lengths()
    yield from encoded()
    yield from salts()
    yield from pairs()
    yield from points()
    yield from others()
    yield of_rfc_7515()


def good_ones():
    computed = "RFC 7518, section 3.1; computed by cryptography"
    for alg in crypto.ALGORITHMS:
        key, stranger = crypto.key(alg), crypto.key(alg, "two")
        made = token(alg)
        signed, _, signature = made.rpartition(".")
        data = unb64(signature)
        yield row(f"{alg}, a good signature", computed, [entry(key)], made, accepted())
        spoilt = {
            "the first bit changed": bytes([data[0] ^ 128]) + data[1:],
            "a bit in the middle changed": data[: len(data) // 2] + bytes([data[len(data) // 2] ^ 1]) + data[len(data) // 2 + 1 :],
            "the last bit changed": data[:-1] + bytes([data[-1] ^ 1]),
            "one byte less": data[:-1],
            "one byte more": data + bytes(1),
            "one byte": b"\1",
            "all ones": b"\xff" * len(data),
            "all zeros": bytes(len(data)),
            "a one": bytes(len(data) - 1) + b"\1",
        }
        for what, it in spoilt.items():
            assert not key.made(alg, signed, it)
            yield row(f"{alg}, {what}", computed, [entry(key)], f"{signed}.{b64(it)}", BAD)
        yield row(f"{alg}, by another key", computed, [entry(key)], token(alg, stranger), BAD)
        changed_ = crypto.signing_input({"alg": alg, "kid": "k1"}, claims(sub="spiffe://example.org/root"))
        yield row(f"{alg}, over other claims", computed, [entry(key)], f"{changed_}.{signature}", BAD)
        other = swap(alg)
        head = crypto.signing_input({"alg": other, "kid": "k1"}, claims())
        yield row(f"{alg}, under the header of {other}", computed, [entry(key)], f"{head}.{signature}", BAD)
        yield row(
            f"{alg}, by the header of {other} and a signature over it by {alg}",
            computed,
            [entry(key)],
            f"{head}.{b64(key.sign(alg, head))}",
            BAD,
        )


def swap(alg):
    """Another algorithm for the same kind of key."""
    return {"R": "PS", "P": "RS", "E": "ES"}[alg[0]] + {"256": "384"}.get(alg[2:], "256")


def numbered(alg, jti, key=None):
    return token(alg, key, jti=str(jti))


def rsa_forms():
    """An RSA signature is a number below the modulus, and has its length."""
    below = "RFC 8017, sections 5.2.2, 8.1.2 and 8.2.2"
    for alg in (it for it in crypto.ALGORITHMS if it[0] != "E"):
        key = crypto.key(alg)
        made = first(alg, FITS[alg], lambda it: int.from_bytes(it, "big") + key.modulus < 1 << 2048)
        signed, _, signature = made.rpartition(".")
        data = unb64(signature)
        more = (int.from_bytes(data, "big") + key.modulus).to_bytes(256, "big")
        yield row(f"{alg}, a signature that has other forms", below, [entry(key)], made, accepted())
        for what, it in {
            "the modulus more": more,
            "the modulus more, and a zero in front": bytes(1) + more,
            "a zero in front": bytes(1) + data,
            "the modulus itself": key.modulus.to_bytes(256, "big"),
        }.items():
            yield row(f"{alg}, {what}", below, [entry(key)], f"{signed}.{b64(it)}", BAD)
    for alg in ZERO:
        made = first(alg, ZERO[alg], lambda it: it[0] == 0)
        signed, _, signature = made.rpartition(".")
        yield row(f"{alg}, a signature that begins with a zero", below, [entry(crypto.key(alg))], made, accepted())
        yield row(f"{alg}, that signature without its zero", below, [entry(crypto.key(alg))], f"{signed}.{b64(unb64(signature)[1:])}", BAD)


def odd_lengths():
    """Keys whose bits do not fill their bytes. There a signature that is not below the modulus has its length too."""
    below = "RFC 8017, sections 5.2.2, 8.1.2 and 8.2.2"
    for alg in ("RS256", "PS256", "PS384", "PS512"):
        for bits in (2049, 2050, 2055):
            key = crypto.rsa_key("lengths", bits)
            made = first(alg, 0, lambda it: it[0] == 0, key)
            signed, _, signature = made.rpartition(".")
            data, value = unb64(signature), int.from_bytes(unb64(signature), "big")
            most = ((1 << 8 * key.size) - 1 - value) // key.modulus
            yield row(f"{alg}, {bits:,} bits, a signature that begins with a zero", below, [entry(key)], made, accepted())
            for what, it in {
                "that signature without its zero": data[1:],
                "another zero in front": bytes(1) + data,
                "the modulus more": (value + key.modulus).to_bytes(key.size, "big"),
                f"{most} times the modulus more": (value + most * key.modulus).to_bytes(key.size, "big"),
            }.items():
                assert not key.made(alg, signed, it)
                yield row(f"{alg}, {bits:,} bits, {what}", below, [entry(key)], f"{signed}.{b64(it)}", BAD)


def encoded():
    """What the signature's power is: the encoded message, and nothing else."""
    for alg in ("RS256", "PS256", "PS384", "PS512"):
        for bits in (2048, 2049, 2050):
            key = crypto.key(alg) if bits == 2048 else crypto.rsa_key("lengths", bits)
            forms = pkcs1_forms if alg[0] == "R" else pss_forms
            for what, source, value in forms(alg, key, crypto.signing_input({"alg": alg, "kid": "k1"}, claims())):
                signed = crypto.signing_input({"alg": alg, "kid": "k1"}, claims())
                made = key.power(value).to_bytes(key.size, "big")
                assert not key.made(alg, signed, made), what
                yield row(f"{alg}, {bits:,} bits, {what}", source, [entry(key)], f"{signed}.{b64(made)}", BAD)


def pkcs1_forms(alg, key, signed):
    source = "RFC 8017, section 8.2.2: the encoded message is compared as a whole"
    hashed, good = crypto.digest(alg, signed), key.padded(alg, signed)
    told = bytes.fromhex(crypto.DIGEST_INFO[alg[2:]]) + hashed

    def filled(front, end, behind=b""):
        return front + b"\xff" * (key.size - len(front) - len(end) - len(behind) - 1) + b"\0" + end + behind

    def number_of(data):
        assert len(data) == key.size
        return int.from_bytes(data, "big")

    yield "block type 2", source, number_of(b"\0\2" + good[2:])
    yield "block type 0", source, number_of(bytes(2) + good[2:])
    yield "a padding that ends early", source, number_of(b"\0\1" + b"\xff" * 8 + b"\0" + told + bytes(key.size - 11 - len(told)))
    yield "a byte behind the digest", source, number_of(filled(b"\0\1", told, b"\0"))
    yield "a padding of other bytes", source, number_of(b"\0\1" + b"\xfe" + good[3:])
    yield "a digest alone", source, number_of(filled(b"\0\1", hashed))
    yield "a length of two bytes", source, number_of(filled(b"\0\1", b"\x30\x81" + told[1:]))
    bare = bytes.fromhex({"256": "302f300b0609608648016503040201"}[alg[2:]]) + told[17:]
    yield "a hash without parameters", "RFC 8017, appendix A.2.4: the parameters are NULL here", number_of(filled(b"\0\1", bare))
    yield "the name of another hash", source, number_of(filled(b"\0\1", bytes.fromhex(crypto.DIGEST_INFO["384"])[:-1] + b"\x20" + hashed))


def pss_forms(alg, key, signed):
    step = "RFC 8017, section 9.1.2, step"
    size = (key.bits + 6) // 8  # of the encoded message
    good = key.salted(alg, signed)
    beyond = int.from_bytes(good, "big") + (1 << key.bits - 1)
    if beyond < key.modulus:
        yield "a bit before the encoded message", f"RFC 8017, section 8.1.2, step 2c, and {step[10:]} 6", beyond
    assert len(good) == size
    hashed = len(crypto.digest(alg, signed))

    def of(**how):
        return int.from_bytes(key.salted(alg, signed, **how), "big")

    yield "another last byte", f"{step} 4", int.from_bytes(good[:-1] + b"\xcc", "big")
    yield "a zero before the salt where a one is due", f"{step} 10", of(separator=0)
    yield "a two before the salt where a one is due", f"{step} 10", of(separator=2)
    yield "a padding of other bytes than zeros", f"{step} 10", of(first=b"\0" * (size - 2 * hashed - 3) + b"\x40")
    yield "another mask", "RFC 7518, section 3.5: MGF1 with the same hash", of(mask_by="384" if alg[2:] == "256" else "256")
    yield "no padding of the hash", f"{step} 12", of(front=b"")


def first(alg, jti, fits, key=None):
    while True:
        made = numbered(alg, jti, key)
        if fits(unb64(made.rpartition(".")[2])):
            return made
        jti += 1


def salts():
    length = "RFC 7518, section 3.5: a salt has the length of the hash; computed by cryptography"
    for alg in ("PS256", "PS384", "PS512"):
        size = int(alg[2:]) // 8
        for salt in (0, 1, 20, size - 1, size + 1, 2 * size, 254 - size):
            made = crypto.signed(crypto.key(alg), alg, {"alg": alg, "kid": "k1"}, claims(), salt=salt)
            yield row(f"{alg}, a salt of {salt} bytes", length, [entry(crypto.key(alg))], made, BAD)


def pairs():
    """r and s have the length of the curve's order each."""
    length = "RFC 7518, section 3.4"
    for alg in ("ES256", "ES384", "ES512"):
        key, size = crypto.key(alg), crypto.CURVE_OF[alg].size
        signed = token(alg).rpartition(".")[0]

        def of(data):
            return f"{signed}.{b64(data)}"

        r, s = key.numbers(alg, signed)
        own, order, zero = key.pair(r, s), key.curve.order, bytes(1)
        mirrored = key.pair(r, order - s)
        assert key.made(alg, signed, mirrored)
        yield row(
            f"{alg}, s mirrored at the order",
            "FIPS 186-4, section 6.4: both are good; computed by cryptography",
            [entry(key)],
            of(mirrored),
            accepted(),
        )
        halves = own[:size], own[size:]
        for what, it in {
            "0 r s": zero + own,
            "r 0 s": halves[0] + zero + halves[1],
            "0 r 0 s": zero + halves[0] + zero + halves[1],
            "r s 0": own + zero,
            "r s 0 0": own + 2 * zero,
            "s r": halves[1] + halves[0],
            "r alone": halves[0],
            "r and s of 1": key.pair(1, 1),
            "r of 0 and s of 1": key.pair(0, 1),
            "r of 1 and s of 0": key.pair(1, 0),
            "r of 0": key.pair(0, s),
            "s of 0": key.pair(r, 0),
            "r of the order": key.pair(order, s),
            "s of the order": key.pair(r, order),
        }.items():
            assert not key.made(alg, signed, it)
            yield row(f"{alg}, {what}", length, [entry(key)], of(it), BAD)
        for what, index in (("r", 0), ("s", 1)):
            turn = next(n for n in range(10**6) if key.numbers(alg, signed, n)[index] >> 8 * (size - 1) == 0)
            pair = [it.to_bytes(size, "big") for it in key.numbers(alg, signed, turn)]
            assert key.made(alg, signed, b"".join(pair))
            yield row(f"{alg}, {what} begins with a zero", length, [entry(key)], of(b"".join(pair)), accepted())
            pair[index] = pair[index][1:]
            yield row(f"{alg}, {what} without its zero", length, [entry(key)], of(b"".join(pair)), BAD)
    key = crypto.key("ES256")
    signed = token().rpartition(".")[0]
    der = crypto.utils.encode_dss_signature(*key.numbers("ES256", signed))
    yield row("ES256, a signature in DER", length, [entry(key)], f"{signed}.{b64(der)}", BAD)


def points():
    """Points of which little is left to chance (SEC 1, section 4.1.4): a key can be made for any of them."""
    range_ = "FIPS 186-4, section 6.4: r and s are from 1 to the order less 1"
    equal = "FIPS 186-4, section 6.4: r is the abscissa of the sum modulo the order; computed by cryptography"
    for alg in ("ES256", "ES384", "ES512"):
        signed = crypto.signing_input({"alg": alg, "kid": "k1"}, claims())
        curve = crypto.CURVE_OF[alg]
        order, zero = curve.order, bytes(1)

        def told(what, source, key, r, s, answer):
            made = key.pair(r, s)
            assert key.made(alg, signed, made) == (answer != BAD), what
            return row(f"{alg}, {what}", source, [entry(key)], f"{signed}.{b64(made)}", answer)

        small, large = curve.at(2), curve.at(order + 1)
        key = crypto.Recovered(alg, signed, small)
        yield told("small r and s", range_, key, small.x, small.x, accepted())
        yield told("small r and s, r the order more", range_, key, small.x + order, small.x, BAD)
        yield told("small r and s, s the order more", range_, key, small.x, small.x + order, BAD)
        short = small.x.to_bytes(1, "big")
        for what, it in {"as a byte each": short + short, "as two bytes each": (zero + short) * 2}.items():
            yield row(f"{alg}, small r and s, {what}", "RFC 7518, section 3.4", [entry(key)], f"{signed}.{b64(it)}", BAD)
        key = crypto.Recovered(alg, signed, large)
        yield told("an abscissa beyond the order", equal, key, large.x - order, large.x - order, accepted())
        yield told("an abscissa beyond the order, as it is", range_, key, large.x, large.x - order, BAD)
        # The two points of the sum are the same one, or cancel each other.
        hashed, nonce = curve.hashed(alg, signed), 12_345
        r = curve.point(nonce).x % order
        s = 2 * hashed * pow(nonce, -1, order) % order
        yield told("a sum of equal points", equal, crypto.EC(alg, "", hashed * pow(r, -1, order) % order), r, s, accepted())
        yield told(
            "a sum at infinity",
            "SEC 1, section 4.1.4, step 5: the point at infinity is refused",
            crypto.EC(alg, "", -hashed * pow(r, -1, order) % order),
            r,
            s,
            BAD,
        )


def others():
    """A key has the algorithm of its curve alone."""
    key = crypto.key("ES256")
    signed = crypto.signing_input({"alg": "ES384", "kid": "k1"}, claims())
    order = key.curve.order
    z = int.from_bytes(crypto.digest("ES384", signed), "big") >> 128
    r = key.curve.point(7).x % order
    pair = key.pair(r, pow(7, -1, order) * (z + r * key.secret) % order)
    yield row("ES384, by a key of P-256 with SHA-384", "RFC 7518, section 3.4: ES384 is P-384", [entry(key)], f"{signed}.{b64(pair)}", BAD)
    for alg in crypto.ALGORITHMS:
        if alg[0] != "E":
            named = {**entry(crypto.key(alg)), "alg": alg}
            yield row(f"{alg}, a key for it alone", ALG, [named], token(alg), accepted())
            other = "RS256" if alg != "RS256" else "PS256"
            yield row(f"{alg}, a key for {other} alone", ALG, [{**named, "alg": other}], token(alg), BAD)


def of_rfc_7515():
    """RFC 7515, appendix A.3: a key and a signature that someone else made. It is no token of a SPIFFE ID."""
    key = {
        "kty": "EC",
        "crv": "P-256",
        "x": "f83OJ3D2xF1Bg8vub9tLe1gHMzV76e8Tus9uPHvRVEU",
        "y": "x_FEzRu9m36HLN_tue659LNpXW6pCyStikYjKIWI5a0",
        "use": "jwt-svid",
        "kid": "k1",
    }
    made = (
        "eyJhbGciOiJFUzI1NiJ9.eyJpc3MiOiJqb2UiLA0KICJleHAiOjEzMDA4MTkzODAsDQogImh0dHA6Ly9leGFtcGxlLmNvbS9pc19yb290Ijp0cnVlfQ."
        "DtEhU3ljbEg8L38VWAfUAqOyKAM6-Xx-F4GawxaepmXFCgfTjDxw5djxLa8ISlSApmWQxfKTUJqPP3-Kg6NU1Q"
    )
    return row("the token of RFC 7515, A.3", "RFC 7515, appendix A.3; it has no sub", [key], made, "refused Sub")
