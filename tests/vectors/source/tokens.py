"""tokens.json: calls of a validator, and what each answers."""

from . import crypto, formats
from .checks import (
    AUDIENCE,
    DOMAIN,
    EXP,
    MOST,
    NOW,
    READERS,
    VALIDATOR_ID,
    accepted,
    bundle_text,
    bundles_text,
    claims,
    entry,
    in_text,
    token,
    with_part,
)
from .crypto import b64, json_text, signed, signing_input

KEY = crypto.key("ES256")
ENTRY = entry(KEY)
BUNDLES = {
    "usual": bundle_text(ENTRY),
    "two domains": bundles_text({DOMAIN: [ENTRY], "other.example": [ENTRY]}),
    "a domain without keys": bundle_text(),
    "no domain": "{}",
    "keys that are null": f'{{"{DOMAIN}":{{"keys":null}}}}',
    "a key without a name": bundle_text(entry(KEY, "")),
    "every kind": bundle_text(*(entry(crypto.key(alg), f"k{n}") for n, alg in enumerate(("RS256", "ES256", "ES384", "ES512")))),
}
SETTING = {"audiences": [AUDIENCE], "bundles": "usual", "longest": None, "ahead": None, "step": None, "validator_id": VALIDATOR_ID.hex()}
TABLE = 'docs/FORMATS.md, "Refusals of a token": '
GOOD_HEADER = '{"alg":"ES256","kid":"k1"}'
MANY = [it for it in READERS if it != "svid"]
NOT_PAGE = [it for it in READERS if it not in ("svid", "page")]


def check(text, answer, now=NOW, call="check"):
    return {"call": call, "token": text, "now": now, "answer": answer}


def judge(text, answer, now=NOW):
    return check(text, answer, now, "judge")


def yes(text, key=KEY, kid="k1", domain=DOMAIN, alg="ES256"):
    """The question of a token that the key signed."""
    return formats.question(domain, json_text(entry(key, kid)), alg, text)


def row(name, source, *calls, readers=None, **setting):
    """A vector. Each token that is accepted or known to the record has its question and its key beside it."""
    made = {"name": name, "from": source}
    if readers:
        made["readers"] = readers
    if setting:
        # (numbers of 64 bits stand as texts, since readers of JSON may round them)
        made["setting"] = {name: str(it) if isinstance(it, int) else it for name, it in setting.items()}
    return {**made, "calls": list(calls)}


def one(refusal, what, text, source="", **setting):
    """A token that is checked once: a refusal, or an acceptance."""
    answer = refusal if refusal.startswith("accepted") else f"refused {refusal}"
    is_line = text and not set(text) & set("\n\r") and all(ord(it) < 55296 or ord(it) > 57343 for it in text)
    return row(what, source or TABLE + refusal, check(text, answer), readers=None if is_line else MANY, **setting)


def header(text):
    return signed(KEY, "ES256", text, claims())


def payload(text):
    return signed(KEY, "ES256", GOOD_HEADER, text)


def member(name, text):
    """A token whose claim is written so."""
    return payload(in_text(claims(), **{name: text}))


def vectors():
    yield from lengths()
    yield from headers()
    yield from payloads()
    yield from spellings()
    yield from claims_()
    yield from times()
    yield from keys()
    yield from order()
    yield from records()
    yield from messages()
    yield from clocks()


def lengths():
    yield one("TooLong", "65,537 bytes", "a" * 65_537)
    yield one("NotThreeParts", "65,536 bytes", "a" * 65_536)
    longest = next(
        it
        for pad in range(48_700, 49_152)
        for blanks in ("", " ")
        if len(it := signing_input(GOOD_HEADER + blanks, in_text(claims(), pad=f'"{"a" * pad}"'))) == 65_536 - 87
    )
    longest = f"{longest}.{b64(KEY.sign('ES256', longest))}"
    assert len(longest) == 65_536
    yield one(accepted(), "a good token of 65,536 bytes", longest)
    yield one("TooLong", "a good token, and one character more than 65,536 bytes", longest + "A")
    for text in ("", ".", "...", "a.b", "a.b.c.d", "a"):
        yield one("NotThreeParts", f"the token {text!r}", text)
    yield one("HeaderNotObject", "two periods alone", "..")


def headers():
    for what, part in {
        "padding": "e30=",
        "a plus": "e+30",
        "a slash": "e/30",
        "a blank": "e30 ",
        "a line end": "e30\n",
        "a tab": "e3\t0",
        "five characters": "e30AA",
        "one character": "e",
        "bits left over": "e31",
        "a character beyond ASCII": "e3é0",
        "a zero byte": "e3\0w",
    }.items():
        yield one(
            "HeaderSpelling", f"a header with {what}", with_part(token(), 0, part), "RFC 7515, section 2; RFC 4648, sections 3.5 and 5"
        )
    for what, text in {
        "no text": "",
        "a list": "[]",
        "a text": '"a"',
        "null": "null",
        "a number": "7",
        "no end": '{"alg":"ES256"',
        "two objects": "{}{}",
        "a comma at its end": '{"alg":"ES256",}',
        "no quotation marks": "{alg:1}",
        "a byte order mark": b"\xef\xbb\xbf{}",
        "a byte that is not UTF-8": b'{"a":"\xff"}',
        "half a surrogate pair": '{"a":"\\ud800"}',
        "NaN": '{"a":NaN}',
        "a number of 1e309": '{"a":1e309}',
        "a zero in front of a number": '{"a":01}',
        "a control character": '{"a":"\x01"}',
        "a comment": "{/**/}",
        "128 levels": '{"a":' + "[" * 127 + "]" * 127 + "}",
    }.items():
        yield one(
            "HeaderNotObject",
            f"a header that is {what}" if text in (b"", "", "[]", '"a"', "null", "7") else f"a header with {what}",
            header(text),
            'RFC 8259; docs/FORMATS.md, "Bundles", JSON',
        )
    yield one(
        accepted(),
        "a header of 127 levels",
        header(in_text({"alg": "ES256", "kid": "k1"}, a="[" * 126 + "]" * 126)),
        'docs/FORMATS.md, "Bundles", JSON',
    )
    yield one(
        accepted(), "a header with blanks and line ends", header('\r\n\t { "alg" : "ES256" , "kid" : "k1" } \n'), "RFC 8259, section 2"
    )
    yield one(accepted(), "a header with escapes", header('{"\\u0061lg":"\\u0045S256","kid":"k1"}'), "RFC 8259, section 7")
    yield one(
        accepted(),
        "a header with other members",
        header('{"alg":"ES256","kid":"k1","jwk":{},"b64":false,"x":[1.5,null]}'),
        "RFC 7515, section 4",
    )
    yield one(
        accepted(),
        "alg twice, the last one good",
        header('{"alg":"none","alg":"ES256","kid":"k1"}'),
        'docs/FORMATS.md, "Bundles": the last value counts',
    )
    yield one(
        "Alg",
        "alg twice, the first one good",
        header('{"alg":"ES256","alg":"none","kid":"k1"}'),
        'docs/FORMATS.md, "Bundles": the last value counts',
    )
    for text in ("[]", "null", '["exp"]', '"exp"'):
        yield one("Crit", f"crit {text}", header(f'{{"alg":"ES256","kid":"k1","crit":{text}}}'), "RFC 7515, section 4.1.11")
    for text in ('"none"', '"HS256"', '"es256"', '"ES256 "', '"ES256K"', '"EdDSA"', '"RS1"', '""', "null", "256", '["ES256"]'):
        yield one("Alg", f"alg {text}", header(f'{{"alg":{text},"kid":"k1"}}'), "RFC 7518, section 3.1; JWT-SVID, section 2.1")
    yield one("Alg", "no alg", header('{"kid":"k1"}'), "RFC 7515, section 4.1.1")
    for text in ('"JWT"', '"JOSE"'):
        yield one(accepted(), f"typ {text}", header(f'{{"alg":"ES256","kid":"k1","typ":{text}}}'), "JWT-SVID, section 2.3")
    for text in ('"jwt"', '"at+jwt"', '"application/jwt"', '""', "null", "7", '["JWT"]'):
        yield one("Typ", f"typ {text}", header(f'{{"alg":"ES256","kid":"k1","typ":{text}}}'), "JWT-SVID, section 2.3")
    for text in ("null", "1", '["k1"]', "{}"):
        yield one("Kid", f"kid {text}", header(f'{{"alg":"ES256","kid":{text}}}'), "RFC 7515, section 4.1.4")


def payloads():
    for what, part in {"padding": "e30=", "a star": "*", "bits left over": "e31", "one character": "e"}.items():
        yield one(
            "PayloadSpelling", f"a payload with {what}", with_part(token(), 1, part), "RFC 7515, section 2; RFC 4648, sections 3.5 and 5"
        )
    for what, text in {"no text": "", "a list": "[1]", "a number": "7", "null": "null", "a text": '"a"'}.items():
        yield one("PayloadNotObject", f"a payload that is {what}", payload(text), "RFC 7519, section 7.2")
    for what, text in {
        "no end": '{"sub":',
        "two objects": "{} {}",
        "a byte that is not UTF-8": b'{"a":"\xc3"}',
        "128 levels": '{"a":' + "[" * 127 + "]" * 127 + "}",
    }.items():
        yield one("PayloadNotObject", f"a payload with {what}", payload(text), 'RFC 8259; docs/FORMATS.md, "Bundles", JSON')
    yield one("PayloadNotObject", "exp with a zero in front", member("exp", "01767225900"), "RFC 8259, section 6")
    yield one(
        accepted(),
        "a payload with other members",
        payload(in_text(claims(), iss="[null]", iat="-1.5e-3", x='{"a":{}}')),
        "RFC 7519, section 4",
    )


def spellings():
    for what, part in {
        "nothing": "",
        "padding": "c2ln=",
        "one character": "c",
        "bits left over": "c31",
        "a plus": "c+1n",
        "a blank behind it": "c2ln ",
    }.items():
        yield one(
            "SignatureSpelling",
            f"a signature that is {what}" if part == "" else f"a signature with {what}",
            with_part(token(), 2, part),
            "RFC 7515, sections 2 and 7.1",
        )


def claims_():
    syntax = "SPIFFE-ID, sections 2 to 2.3; JWT-SVID, section 3.1"
    for sub in ("spiffe://example.org", "spiffe://example.org/a/b_c-d.e/F9", "spiffe://example.org/.../a"):
        yield one(accepted(sub), f"sub {sub}", token(sub=sub), syntax)
    longest = "spiffe://example.org/" + "a" * (2048 - 21)
    yield one(accepted(longest), "a sub of 2,048 bytes", token(sub=longest), syntax)
    yield one("Sub", "a sub of 2,049 bytes", token(sub=longest + "a"), syntax)
    for sub in (
        "",
        "billing",
        "spiffe:/example.org/a",
        "SPIFFE://example.org/a",
        "spiffe://",
        "spiffe:///a",
        "spiffe://Example.org/a",
        "spiffe://example.org/",
        "spiffe://example.org//a",
        "spiffe://example.org/a/",
        "spiffe://example.org/a/../b",
        "spiffe://example.org/.",
        "spiffe://example.org/%41",
        "spiffe://example.org/a?b",
        "spiffe://example.org/a#b",
        "spiffe://user@example.org/a",
        "spiffe://example.org:80/a",
        "spiffe://example.org/é",
        "spiffe://" + "a" * 256 + "/b",
        " spiffe://example.org/a",
        "spiffe://example.org/a\n",
        "https://example.org/a",
    ):
        yield one("Sub", f"sub {sub if len(sub) < 99 else f'of {len(sub)} bytes'!r}", token(sub=sub), syntax)
    for text in ("null", "7", '["spiffe://example.org/a"]', "{}"):
        yield one("Sub", f"sub {text}", member("sub", text), syntax)
    yield one("Sub", "no sub", token(sub=None), syntax)
    audience = "RFC 7519, section 4.1.3; JWT-SVID, section 3.2"
    for aud in ("ledger", ["other", "ledger"], ["ledger", "ledger"], ["", "ledger"]):
        yield one(accepted(), f"aud {json_text(aud)}", token(aud=aud), audience)
    for text in ("[]", "null", "7", "[7]", '["ledger",7]', '["ledger",null]', '[["ledger"]]', "{}"):
        yield one("Aud", f"aud {text}", member("aud", text), audience)
    yield one("Aud", "no aud", token(aud=None), audience)
    for aud in ("other", ["other", "third"], "Ledger", "ledger ", "ledge", "ledgers", "", "lédger"):
        yield one("NotAudience", f"aud {json_text(aud)}", token(aud=aud), audience)
    yield one(accepted(), "one of the service's own two names", token(aud=["third", "audit"]), audience, audiences=["ledger", "audit"])
    yield one(accepted(), "a name beyond ASCII", token(aud="lédger"), audience, audiences=["lédger"])
    yield one(
        "NotAudience",
        "a name of both, one of which is composed",
        token(aud="le\u0301dger"),
        "RFC 7519, section 4.1.3: byte for byte",
        audiences=["lédger"],
    )
    digits = 'docs/FORMATS.md, "Refusals of a token": a number written with digits alone, from 0 to 2^64-1'
    for text in ("null", '"1767225900"', "-1", "-0", "1.5", "1767225900.0", "1e10", "18446744073709551616", "[]", "true"):
        yield one("Exp", f"exp {text}", member("exp", text), digits)
        yield one("Nbf", f"nbf {text}", member("nbf", text), digits)
    yield one("Exp", "no exp", token(exp=None), "JWT-SVID, section 3.3")
    yield one(accepted(exp=MOST), "exp 18446744073709551615", member("exp", str(MOST)), digits)
    yield one("Expired", "exp 0", member("exp", "0"), digits)
    yield one(accepted(), "nbf 0", member("nbf", "0"), digits)
    yield one("NotYet", "nbf 18446744073709551615", member("nbf", str(MOST)), digits)
    for text in ("null", "5", '["a"]', "{}", "false"):
        yield one("Jti", f"jti {text}", member("jti", text), "RFC 7519, section 4.1.7")


def times():
    yield one("Expired", "exp at the moment", token(exp=NOW), "RFC 7519, section 4.1.4: on or after")
    yield one("Expired", "exp in the past", token(exp=NOW - 300), "RFC 7519, section 4.1.4")
    yield one(accepted(exp=NOW + 1), "exp a second later", token(exp=NOW + 1), "RFC 7519, section 4.1.4")
    yield one(accepted(), "nbf at the moment", token(nbf=NOW), "RFC 7519, section 4.1.5: must be after or equal")
    yield one("NotYet", "nbf a second later", token(nbf=NOW + 1), "RFC 7519, section 4.1.5")
    yield one(accepted(), "nbf in the past, and iat in the future", token(nbf=NOW - 9, iat=NOW + 9), "RFC 7519, sections 4.1.5 and 4.1.6")
    longest = TABLE + "TooLongLived"
    yield one(accepted(), "the longest life", token(), longest, longest=300)
    yield one("TooLongLived", "a second more than the longest life", token(), longest, longest=299)
    yield one("TooLongLived", "no life at all", token(exp=NOW + 1), longest, longest=0)
    yield one(accepted(exp=MOST), "the longest life that is no limit", member("exp", str(MOST)), longest, longest=MOST - NOW)
    yield one("TooLongLived", "a second less than that", member("exp", str(MOST)), longest, longest=MOST - NOW - 1)
    yield one(accepted(exp=MOST), "a sum without a limit", member("exp", str(MOST)), longest, longest=MOST)


def keys():
    for name in ("other.example", "example.or", "example.orgs", "a.example.org", "EXAMPLE"):
        made = token(sub=f"spiffe://{name.lower()}/billing/api")
        yield one("UnknownDomain", f"a subject of {name.lower()}", made, "JWT-SVID, section 4")
    yield one("UnknownDomain", "no trust domain in the bundles", token(), "JWT-SVID, section 4", bundles="no domain")
    yield one("NoKey", "a trust domain without keys", token(), "JWT-SVID, section 4", bundles="a domain without keys")
    yield one("NoKey", "keys that are null", token(), 'docs/FORMATS.md, "Bundles"', bundles="keys that are null")
    for kid in ("k2", "K1", "k1 ", ""):
        yield one("NoKey", f"the kid {kid!r}", token(header={"alg": "ES256", "kid": kid}), "RFC 7515, section 4.1.4")
    yield one(
        accepted(),
        "the kid '' of a key of that name",
        token(header={"alg": "ES256", "kid": ""}),
        'docs/FORMATS.md, "Bundles": kid may be empty',
        bundles="a key without a name",
    )
    yield one(accepted(), "no kid", token(header={"alg": "ES256"}), 'docs/FORMATS.md, "Candidates"')
    yield one("NoKey", "RS256 by a key of EC", token("RS256"), 'docs/FORMATS.md, "Candidates": kty fits alg')
    yield one("BadSignature", "a signature by another key", token(key=crypto.key("ES256", "two")), "RFC 7515, section 5.2")
    yield one(
        "BadSignature", "the signature of another token", with_part(token(), 2, token(jti="x").rpartition(".")[2]), "RFC 7515, section 5.2"
    )
    yield one("BadSignature", "four bytes", with_part(token(), 2, "AAAAAA"), "RFC 7515, section 5.2")
    for n, alg in enumerate(("RS256", "ES256", "ES384", "ES512")):
        yield one(
            accepted(),
            f"{alg} among keys of every kind",
            token(alg, header={"alg": alg, "kid": f"k{n}"}),
            "RFC 7518, section 3.1",
            bundles="every kind",
        )
    yield one(
        "BadSignature",
        "ES384 that names the key of P-256",
        token("ES384", header={"alg": "ES384", "kid": "k1"}),
        "RFC 7518, section 3.4",
        bundles="every kind",
    )


# What makes a token be refused, by the order of refusals. Each is a change of the header, of the claims, or of a part.
FAULTS = {
    "Crit": ("header", {"crit": []}),
    "Alg": ("header", {"alg": "none"}),
    "Typ": ("header", {"typ": "x"}),
    "Kid": ("header", {"kid": 7}),
    "PayloadSpelling": (1, "*"),
    "SignatureSpelling": (2, ""),
    "Sub": ("claims", {"sub": "x"}),
    "Aud": ("claims", {"aud": []}),
    "Exp": ("claims", {"exp": "x"}),
    "Nbf": ("claims", {"nbf": "x"}),
    "Jti": ("claims", {"jti": 7}),
    "NotAudience": ("claims", {"aud": "other"}),
    "Expired": ("claims", {"exp": NOW}),
    "NotYet": ("claims", {"nbf": NOW + 1}),
    "TooLongLived": ("claims", {"exp": NOW + 301}),
    "UnknownDomain": ("claims", {"sub": "spiffe://other.example/a"}),
    "NoKey": ("header", {"kid": "other"}),
    "BadSignature": (2, "AAAA"),
}


def order():
    """Of two refusals the first of the table counts."""
    names = list(FAULTS)
    for n, first in enumerate(names):
        for second in names[n + 1 :]:
            a, b = FAULTS[first], FAULTS[second]
            if a[0] == b[0] and (isinstance(a[0], int) or set(a[1]) & set(b[1])):
                continue
            if (first, second) == ("Expired", "TooLongLived") or second == "PayloadSpelling" and a[0] == "claims":
                continue
            yield one(
                first, f"{first} and {second}", both(a, b), 'docs/FORMATS.md, "Refusals of a token": the first that holds', longest=300
            )


def both(*faults):
    head, said, parts = {"alg": "ES256", "kid": "k1"}, claims(), {}
    for where, change in faults:
        if where == "header":
            head |= change
        elif where == "claims":
            said |= change
        else:
            parts[where] = change
    made = f"{signing_input(head, said)}"
    made = f"{made}.{b64(KEY.sign('ES256', made))}"
    for index, part in parts.items():
        made = with_part(made, index, part)
    return made


def withdraw(key, exp, answer="withdrawn", now=NOW):
    return {"call": "withdraw", "key": key.hex(), "exp": exp, "now": now, "answer": answer}


def take(messages_, answer="taken", now=NOW):
    return {"call": "take", "messages": messages_.hex(), "now": now, "answer": answer}


def tell(moment, *uses):
    return {"call": "tell", "answer": formats.record(moment, *uses).hex()}


def tick(now, answer="ticked"):
    return {"call": "tick", "now": now, "answer": answer}


def records():
    """What the record knows of a token."""
    named, plain = token(jti="j1"), token()
    key, plain_key = formats.key_of(DOMAIN, "j1", named), formats.key_of(DOMAIN, "", plain)
    used = formats.use(EXP, key, VALIDATOR_ID, NOW)
    identity = 'docs/FORMATS.md, "Key of a token"'
    replayed, withdrawn = TABLE + "Replayed", TABLE + "Withdrawn"
    yield row("a token is accepted once", replayed, check(named, accepted()), check(named, "refused Replayed"))
    yield row("a token without jti is accepted once", replayed, check(plain, accepted()), check(plain, "refused Replayed"))
    yield row("the use of a token with jti", identity, check(named, accepted()), tell(NOW, used), readers=MANY)
    yield row(
        "the use of a token without jti",
        identity,
        check(plain, accepted()),
        tell(NOW, formats.use(EXP, plain_key, VALIDATOR_ID, NOW)),
        readers=MANY,
    )
    other = token(jti="j1", exp=EXP + 1, sub="spiffe://example.org/other")
    yield row("another token of the same jti and trust domain", identity, check(named, accepted()), check(other, "refused Replayed"))
    foreign = token(jti="j1", sub="spiffe://other.example/billing/api")
    yield row(
        "the same jti in another trust domain",
        identity,
        check(named, accepted()),
        check(foreign, accepted("spiffe://other.example/billing/api")),
        check(foreign, "refused Replayed"),
        bundles="two domains",
    )
    twin = f"{plain.rpartition('.')[0]}.{b64(KEY.sign('ES256', plain.rpartition('.')[0], turn=1))}"
    yield row("the same claims with another signature, without jti", identity, check(plain, accepted()), check(twin, "refused Replayed"))
    empty = token(jti="")
    yield row(
        "an empty jti is none",
        identity,
        check(empty, accepted()),
        check(token(jti="", nbf=0), accepted()),
        check(empty, "refused Replayed"),
    )
    split = token(sub="spiffe://example.or/g", jti="gj1")
    yield row(
        "a trust domain and a jti that join to the same text", identity, check(named, accepted()), check(split, "refused UnknownDomain")
    )
    yield row(
        "a judgment adds nothing",
        "include/svid.h, svid_validator_judge_token",
        judge(named, accepted()),
        judge(named, accepted()),
        check(named, accepted()),
        judge(named, "refused Replayed"),
        readers=MANY,
    )
    yield row(
        "a refused token uses nothing up", replayed, check(with_part(named, 2, "AAAA"), "refused BadSignature"), check(named, accepted())
    )
    yield row(
        "a token that has expired is Expired, used or not",
        'docs/FORMATS.md, "Refusals of a token": Expired is in front of Replayed',
        check(named, accepted()),
        check(named, "refused Expired", EXP),
        readers=MANY,
    )
    later = token(jti="j1", exp=EXP + 600)
    yield row(
        "a jti is free again once its use has expired",
        'docs/FORMATS.md, "Records": uses expire with their token',
        check(named, accepted()),
        check(later, "refused Replayed", EXP - 1),
        check(later, accepted(exp=EXP + 600), EXP),
        check(later, "refused Replayed", EXP),
        readers=MANY,
    )
    gone = formats.use(EXP, key, VALIDATOR_ID, NOW, True)
    yield row("a withdrawn token", withdrawn, withdraw(key, EXP), check(named, "refused Withdrawn"), tell(NOW, gone), readers=MANY)
    yield row(
        "a token that was used, and is withdrawn",
        'docs/FORMATS.md, "Refusals of a token": Withdrawn is in front of Replayed',
        check(named, accepted()),
        withdraw(key, EXP),
        check(named, "refused Withdrawn"),
        readers=MANY,
    )
    yield row(
        "a withdrawal of another token",
        withdrawn,
        withdraw(plain_key, EXP),
        check(named, accepted()),
        check(plain, "refused Withdrawn"),
        readers=MANY,
    )
    yield row(
        "a withdrawal of a token that has expired",
        "include/svid.h, svid_validator_withdraw",
        withdraw(key, NOW, "Gone"),
        withdraw(key, NOW - 1, "Gone"),
        withdraw(key, NOW + 1),
        tell(NOW, formats.use(NOW + 1, key, VALIDATOR_ID, NOW, True)),
        readers=MANY,
    )
    yield row(
        "the moment never goes back",
        'docs/FORMATS.md, "Refusals of a token": m is the record\'s moment',
        check(token(jti="j2"), accepted()),
        check(named, "refused Expired", EXP),
        check(token(jti="j3"), "refused Expired", NOW),
        readers=MANY,
    )


def messages():
    """What other validators tell."""
    named = token(jti="j1")
    key = formats.key_of(DOMAIN, "j1", named)
    there, gone = formats.use(EXP, key, 0x22, NOW - 5), formats.use(EXP, key, 0x22, NOW - 5, True)
    joins = 'docs/FORMATS.md, "Records"'
    yield row(
        "a use of another validator", joins, take(formats.claim(there)), check(named, "refused Replayed"), tell(NOW, there), readers=MANY
    )
    yield row("a withdrawal of another validator", joins, take(formats.claim(gone)), check(named, "refused Withdrawn"), readers=MANY)
    yield row("a message twice", joins, take(formats.claim(there)), take(formats.claim(there) * 2), tell(NOW, there), readers=MANY)
    own = formats.use(EXP, key, VALIDATOR_ID, NOW)
    yield row("a use here, and one there", joins, check(named, accepted()), take(formats.claim(there)), tell(NOW, own, there), readers=MANY)
    yield row(
        "a batch of version 1",
        'docs/FORMATS.md, "Batches of version 1"',
        take(formats.old_batch(NOW, there)),
        check(named, "refused Replayed"),
        readers=MANY,
    )
    yield row("a summary is passed over", joins, take(formats.summary(NOW, there)), check(named, accepted()), readers=MANY)
    yield row("a message of no use", joins, take(formats.batch(NOW + 7)), tell(NOW + 7), readers=MANY)
    yield row("no message", joins, take(b""), tell(NOW), readers=MANY)
    yield row("a message advances the moment", joins, take(formats.batch(NOW + 300)), check(named, "refused Expired"), readers=MANY)
    cut = formats.claim(there)[:-1]
    yield row(
        "a message that is cut",
        'docs/FORMATS.md, "What is wrong with bytes that are no messages"',
        take(cut, "Truncated 1 81"),
        check(named, accepted()),
        readers=MANY,
    )
    yield row(
        "a good message, and one that is cut",
        'docs/FORMATS.md, "What is wrong with bytes that are no messages"',
        take(formats.claim(there) + cut, "Truncated 2 81"),
        check(named, accepted()),
        readers=MANY,
    )


def clocks():
    """The options that bound what a clock may do."""
    step, ahead = "include/svid.h, svid_terms: step", "include/svid.h, svid_terms: ahead"
    named = token(jti="j1")
    yield row("a first step of any length", step, tick(NOW), check(named, accepted()), readers=NOT_PAGE, step=1)
    yield row(
        "a step that is too long",
        step,
        tick(NOW - 61),
        check(named, "Jump"),
        tick(NOW - 1),
        check(named, accepted()),
        readers=NOT_PAGE,
        step=60,
    )
    yield row("a step of exactly that length", step, tick(NOW - 60), check(named, accepted()), readers=NOT_PAGE, step=60)
    yield row(
        "a step that is too long changes nothing",
        step,
        check(named, accepted()),
        tick(EXP, "Jump"),
        check(named, "refused Replayed"),
        tell(NOW, formats.use(EXP, formats.key_of(DOMAIN, "j1", named), VALIDATOR_ID, NOW)),
        readers=NOT_PAGE,
        step=299,
    )
    yield row("a message from too far ahead", ahead, take(formats.batch(NOW + 11), "TooFar"), tell(NOW), readers=NOT_PAGE, ahead=10)
    yield row("a message from as far ahead as may be", ahead, take(formats.batch(NOW + 10)), tell(NOW + 10), readers=NOT_PAGE, ahead=10)
    yield row(
        "of two messages one from too far ahead",
        ahead,
        take(formats.claim(formats.use(EXP, 1, 2, NOW)) + formats.batch(NOW + 11), "TooFar"),
        tell(NOW),
        readers=NOT_PAGE,
        ahead=10,
    )
