"""bundles.json: trust bundles in each form in which they are given, and what is wrong with others.

`domains` is an object of trust domains; `document` the bundle of one trust domain, as SPIRE writes it to a file; `workload` what a
SPIFFE Workload API gives (JWTBundlesResponse)."""

from . import crypto
from .checks import DOMAIN, READERS, accepted, bundle_text, bundles_text, entry, token
from .crypto import json_text

KEY = crypto.key("ES256")
ENTRY = entry(KEY)
X509 = {"use": "x509-svid", "kty": "RSA", "n": "AQAB", "e": "AQAB", "x5c": ["MIID"]}
BUNDLES = 'docs/FORMATS.md, "Bundles"'
DOCUMENT = "SPIFFE_Trust_Domain_and_Bundle, section 4"
SPIRES_FILE = "SPIRE's file as it is, in the place of an object of trust domains"
WORKLOAD = "SPIFFE_Workload_API, section 6.2"


def domains(name, text, answer, source=BUNDLES, readers=None):
    """The page has a field for both forms, of text alone, and takes an empty one for no trust domains."""
    is_for_page = isinstance(text, str) and text.strip()
    readers = {"readers": readers} if readers else {} if is_for_page else {"readers": [it for it in READERS if it != "page"]}
    kind = {"text": text} if isinstance(text, str) else {"hex": text.hex()}
    return {"name": name, "from": source, **readers, "form": "domains", **kind, "token": token(), "answer": answer}


def document(name, text, answer, domain=DOMAIN, source=DOCUMENT):
    return {
        "name": f"document: {name}",
        "from": source,
        "readers": ["go", "page", "python", "rust"],
        "form": "document",
        "domain": domain,
        "text": text,
        "token": token(),
        "answer": answer,
    }


def workload(name, bundles, answer, source=WORKLOAD):
    return {
        "name": f"workload: {name}",
        "from": source,
        "readers": ["go", "python"],
        "form": "workload",
        "bundles": bundles,
        "token": token(),
        "answer": answer,
    }


def vectors():
    spire = {"keys": [X509, ENTRY], "spiffe_sequence": 3, "spiffe_refresh_hint": 300}
    yield domains("one trust domain", bundle_text(ENTRY), accepted())
    yield domains("a bundle of SPIRE by the name of its trust domain", json_text({DOMAIN: spire}), accepted())
    yield domains("two trust domains", bundles_text({"a.example": [], DOMAIN: [ENTRY]}), accepted())
    yield domains("blanks and line ends", f' {{\n\t"{DOMAIN}" : {json_text(spire)} }}\r\n', accepted(), "RFC 8259, section 2")
    yield domains("a name that is escaped", bundle_text(ENTRY).replace("example", "\\u0065xample"), accepted(), "RFC 8259, section 7")
    yield domains(
        "a name twice, the last one good",
        f'{{"{DOMAIN}":{{"keys":[]}},{bundle_text(ENTRY)[1:]}',
        accepted(),
        f"{BUNDLES}: the last value counts",
    )
    yield domains(
        "a name twice, the last one without keys",
        f'{bundle_text(ENTRY)[:-1]},"{DOMAIN}":{{"keys":[]}}}}',
        "refused NoKey",
        f"{BUNDLES}: the last value counts",
    )
    yield domains(
        "a name twice, the first one bad", f'{{"{DOMAIN}":7,{bundle_text(ENTRY)[1:]}', accepted(), f"{BUNDLES}: the last value counts"
    )
    yield domains("no trust domain", "{}", "refused UnknownDomain")
    yield domains("keys that are null", f'{{"{DOMAIN}":{{"keys":null}}}}', "refused NoKey")
    yield domains("a name of 255 bytes", bundles_text({"a" * 255: [], DOMAIN: [ENTRY]}), accepted(), "SPIFFE-ID, section 2.1")
    yield domains("a key without use", bundle_text({it: value for it, value in ENTRY.items() if it != "use"}), "refused NoKey")
    yield domains(
        "keys of other uses and kinds",
        bundle_text(
            X509, {**ENTRY, "use": "x509-svid"}, {**ENTRY, "kty": "OKP"}, {**ENTRY, "kid": 7}, {"use": "jwt-svid"}, 7, None, [], "k"
        ),
        "refused NoKey",
    )
    yield domains(
        "members beside the keys",
        json_text({DOMAIN: {"keys": [ENTRY], "spiffe_sequence": "x", "note": [1.5, None]}}),
        accepted(),
        f"{BUNDLES}: other members are ignored",
    )
    for text in (
        "",
        " ",
        "[]",
        "null",
        "7",
        '"a"',
        "{",
        '{"a"}',
        "{} {}",
        "{},",
        '{"a":{"keys":[]},}',
        "{'a':{}}",
        '{"a":{"keys":[NaN]}}',
        '{"a":{"keys":[1e999]}}',
        '{"a":{"keys":[01]}}',
        '{"\\ud800":{"keys":[]}}',
    ):
        yield domains(f"the text {text!r}", text, "NotObject", 'RFC 8259; docs/FORMATS.md, "Bundles", JSON')
    yield domains("a byte order mark", b"\xef\xbb\xbf{}", "NotObject", 'docs/FORMATS.md, "Bundles", JSON')
    yield domains("a byte that is not UTF-8", b'{"a\xff":{"keys":[]}}', "NotObject", 'docs/FORMATS.md, "Bundles", JSON')
    deep = '{"a":{"keys":[' + "[" * 125 + "]" * 125 + "]}}"
    yield domains("128 levels", deep, "NotObject", 'docs/FORMATS.md, "Bundles", JSON')
    yield domains(
        "127 levels", f'{{"a":{{"keys":[{"[" * 124}{"]" * 124}]}},{bundle_text(ENTRY)[1:]}', accepted(), 'docs/FORMATS.md, "Bundles", JSON'
    )
    names = "SPIFFE-ID, section 2.1"
    for name in ("Example.org", "example.org/web", "spiffe://example.org", "", "a b", "é", "a:80", "a" * 256):
        shown = name if len(name) < 99 else f"of {len(name)} bytes"
        yield domains(f"the name {shown!r}", json_text({name: {"keys": []}}), "Domain 0", names)
    yield domains(
        "two names, one of which is none",
        json_text({"b": {"keys": []}, "A": {"keys": []}}),
        "Domain 0",
        f"{BUNDLES}: names count in rising byte order",
    )
    yield domains(
        "three names, the last of which is none",
        json_text({"a_": {"keys": []}, "b": {"keys": []}, "a": {"keys": []}, "c:": {"keys": []}}),
        "Domain 3",
        f"{BUNDLES}: names count in rising byte order",
    )
    for text in ("[]", "7", "null", "{}", '"keys"', '{"keys":{}}', '{"keys":"a"}', '{"keys":7}', '{"kyes":[]}', '{"Keys":[]}'):
        yield domains(f"a bundle that is {text}", f'{{"{DOMAIN}":{text}}}', "Keys 0")
    yield domains(
        "the second of two bundles has no keys", '{"b":{},"a":{"keys":[]}}', "Keys 1", f"{BUNDLES}: names count in rising byte order"
    )
    yield domains(
        "a name that is none, and a bundle without keys behind it",
        '{"A":{"keys":[]},"b":{}}',
        "Domain 0",
        f"{BUNDLES}: the first faulty name",
    )
    yield domains(
        "a bundle without keys, and a name that is none behind it",
        '{"a":{},"b:":{"keys":[]}}',
        "Keys 0",
        f"{BUNDLES}: the first faulty name",
    )
    yield domains(SPIRES_FILE, json_text(spire), "Unnamed", f"{BUNDLES}: it has no names of trust domains", ["c", "go", "python", "rust", "svid"])

    yield document("SPIRE's file", json_text(spire), accepted())
    yield document(
        "SPIRE's file, indented",
        '{\n    "keys": [\n        ' + json_text(ENTRY) + '\n    ],\n    "spiffe_sequence": 1,\n    "spiffe_refresh_hint": 2\n}\n',
        accepted(),
    )
    yield document("without a sequence and a hint", json_text({"keys": [ENTRY]}), accepted())
    yield document("of another trust domain", json_text(spire), "refused UnknownDomain", "other.example")
    yield document("without keys", '{"keys":[]}', "refused NoKey")
    yield document("keys for X.509-SVIDs alone", json_text({"keys": [X509]}), "refused NoKey")
    yield document(
        "a key without use",
        json_text({"keys": [{it: value for it, value in ENTRY.items() if it != "use"}]}),
        "refused NoKey",
        source=f"{DOCUMENT}: use must be set",
    )
    yield document(
        "a hint that is no number",
        json_text({**spire, "spiffe_refresh_hint": "soon", "spiffe_sequence": None}),
        accepted(),
        source=f"{DOCUMENT}.1.2: a hint",
    )

    plain = {it: value for it, value in ENTRY.items() if it != "use"}
    uri = f"spiffe://{DOMAIN}"
    yield workload("a key without use", {uri: json_text({"keys": [plain]})}, accepted())
    yield workload("a key with use", {uri: json_text({"keys": [ENTRY]})}, accepted())
    yield workload(
        "keys of other uses, and what is no key", {uri: json_text({"keys": [7, None, {**plain, "use": "x509-svid"}, plain]})}, accepted()
    )
    for use in ("x509-svid", None, "", 7):
        yield workload(f"a key of the use {json_text(use)}", {uri: json_text({"keys": [{**plain, "use": use}]})}, "refused NoKey")
    yield workload("two trust domains", {"spiffe://a.example": '{"keys":[]}', uri: json_text({"keys": [plain]})}, accepted())
    yield workload("another trust domain", {"spiffe://a.example": json_text({"keys": [plain]})}, "refused UnknownDomain")
    yield workload("no trust domain", {}, "refused UnknownDomain")
    for text in ("", "[]", "{}", '{"keys":{}}', '{"keys":7}', "{"):
        yield workload(f"the set {text!r}", {uri: text}, "BadBundles", "RFC 7517, section 5")
