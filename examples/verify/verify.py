"""Asks `svid candidates` about tokens of real keys, and verifies their signatures by openssl.

Usage: verify.py SVID FOLDER. Leaves bundles.json, tokens.txt, table.txt and record in FOLDER, and exits
with 1 where an answer is not the one that is due. The keys are new in each run, and are not kept.
"""

import base64
import hashlib
import json
import pathlib
import struct
import subprocess
import sys
import tempfile

DOMAIN = "example.org"

# What stands before the 64 bytes of a point in the DER text of a public key on P-256 (RFC 5480).
P256_HEAD = bytes.fromhex("3059301306072a8648ce3d020106082a8648ce3d03010703420004")

# The algorithm of an RSA key, as DER (RFC 8017, appendix A.1).
RSA_ALGORITHM = bytes.fromhex("300d06092a864886f70d0101010500")


def base64url(data):
    return base64.urlsafe_b64encode(data).rstrip(b"=").decode()


def unbase64url(text):
    return base64.urlsafe_b64decode(text + "=" * (-len(text) % 4))


def openssl(*words, given=b""):
    ran = subprocess.run(["openssl", *words], input=given, stdout=subprocess.PIPE, stderr=subprocess.PIPE)
    if ran.returncode != 0:
        sys.exit(f"openssl {words[0]} failed: {ran.stderr.decode(errors='replace')}")
    return ran.stdout


def der(tag, content):
    """A field of DER: its tag, its length and its content."""
    size = len(content)
    if size < 128:
        return bytes([tag, size]) + content
    length = size.to_bytes((size.bit_length() + 7) // 8, "big")
    return bytes([tag, 128 + len(length)]) + length + content


def der_integer(number):
    return der(2, number.to_bytes(number.bit_length() // 8 + 1, "big"))


def raw_of_der(signature):
    """The 64 bytes of an ES256 signature (RFC 7518, section 3.4) that openssl gave as DER."""
    at, numbers = 2, []
    for _ in range(2):
        size = signature[at + 1]
        numbers.append(int.from_bytes(signature[at + 2 : at + 2 + size], "big"))
        at += 2 + size
    return b"".join(number.to_bytes(32, "big") for number in numbers)


def der_of_raw(signature):
    r, s = (int.from_bytes(signature[at : at + 32], "big") for at in (0, 32))
    return der(48, der_integer(r) + der_integer(s))


class Signer:
    """A new private key, in a file of the folder."""

    def __init__(self, kind, path, bits=2048):
        self.kind = kind
        self.path = str(path)
        how = {"EC": ["EC", "-pkeyopt", "ec_paramgen_curve:P-256"], "RSA": ["RSA", "-pkeyopt", f"rsa_keygen_bits:{bits}"]}
        openssl("genpkey", "-algorithm", *how[kind], "-out", self.path)

    def entry(self, kid):
        """The entry of a bundle for this key."""
        entry = {"kty": self.kind, "use": "jwt-svid", "kid": kid}
        if self.kind == "EC":
            point = openssl("pkey", "-in", self.path, "-pubout", "-outform", "DER")[-64:]
            return dict(entry, crv="P-256", x=base64url(point[:32]), y=base64url(point[32:]))
        modulus = openssl("rsa", "-in", self.path, "-noout", "-modulus").decode().strip().partition("=")[2]
        return dict(entry, n=base64url(bytes.fromhex(modulus)), e="AQAB")

    def sign(self, message):
        """A signature as RFC 7518 has it: section 3.4 for ES256, section 3.3 for RS256."""
        signature = openssl("dgst", "-sha256", "-sign", self.path, given=message)
        return raw_of_der(signature) if self.kind == "EC" else signature


def token(signer, header, claims):
    parts = [base64url(json.dumps(part).encode()) for part in (header, claims)]
    signing_input = ".".join(parts)
    return signing_input + "." + base64url(signer.sign(signing_input.encode()))


def public_key(entry):
    """The public key of a bundle's entry, as PEM."""
    field = {name: unbase64url(entry[name]) for name in "xyne" if name in entry}
    if entry["kty"] == "EC":
        text = P256_HEAD + field["x"] + field["y"]
    else:
        numbers = b"".join(der_integer(int.from_bytes(field[name], "big")) for name in "ne")
        text = der(48, RSA_ALGORITHM + der(3, b"\0" + der(48, numbers)))
    return b"-----BEGIN PUBLIC KEY-----\n" + base64.encodebytes(text) + b"-----END PUBLIC KEY-----\n"


def number(text):
    """The number of a member, or 0 where it is not in as few bytes of base64url as hold it."""
    value = int.from_bytes(unbase64url(text), "big")
    return value if base64url(value.to_bytes((value.bit_length() + 7) // 8, "big")) == text else 0


def is_coordinate(text):
    data = unbase64url(text)
    return len(data) == 32 and base64url(data) == text


def fits(entry, alg):
    """Whether a key can be used with an algorithm (docs/FORMATS.md, "Keys that can be used"). Else it made no signature."""
    if entry.get("alg", alg) != alg:
        return False
    try:
        if (alg, entry["kty"]) == ("ES256", "EC"):
            return entry["crv"] == "P-256" and is_coordinate(entry["x"]) and is_coordinate(entry["y"])
        if (alg, entry["kty"]) == ("RS256", "RSA"):
            n, e = number(entry["n"]), number(entry["e"])
            return 2048 <= n.bit_length() <= 4096 and n % 2 == 1 and 3 <= e < 2**31 and e % 2 == 1
    except (KeyError, TypeError, ValueError):
        pass  # a member is missing, or is none
    return False


def is_good(entry, alg, signing_input, signature):
    """Whether a signature is good for the key of a bundle's entry."""
    if not fits(entry, alg):
        return False
    if alg == "ES256":
        if len(signature) != 64:
            return False
        signature = der_of_raw(signature)
    with tempfile.TemporaryDirectory() as room:
        room = pathlib.Path(room)
        (room / "key").write_bytes(public_key(entry))
        (room / "signature").write_bytes(signature)
        words = ["openssl", "dgst", "-sha256", "-verify", room / "key", "-signature", room / "signature"]
        ran = subprocess.run(words, input=signing_input, stdout=subprocess.PIPE, stderr=subprocess.PIPE)
        return ran.returncode == 0 and ran.stdout.strip() == b"Verified OK"


def compact(value):
    """The compact JSON of a bundle's entry: names in rising order, no blanks, text as UTF-8."""
    return json.dumps(value, ensure_ascii=False, separators=(",", ":"), sort_keys=True)


def question(domain, entry, alg, signing_input, signature):
    """The digest of five fields, each after its length in four bytes."""
    fields = [domain.encode(), compact(entry).encode(), alg.encode(), signing_input, signature]
    return hashlib.sha256(b"".join(struct.pack(">I", len(f)) + f for f in fields)).hexdigest()


def candidates(svid, bundles, text):
    """What `svid candidates` prints of a token: its lines."""
    asked = subprocess.run([svid, "candidates", "--bundles", bundles], input=text.encode() + b"\n", stdout=subprocess.PIPE)
    if asked.returncode not in (0, 1):
        sys.exit(f"svid candidates failed with status {asked.returncode}")
    return asked.stdout.decode().splitlines()


def good_questions(lines, domain, entries, text):
    """Of the questions that were asked, those whose answer is yes."""
    header, payload, signature = text.split(".")
    alg = json.loads(unbase64url(header))["alg"]
    signing_input = f"{header}.{payload}".encode()
    signature = unbase64url(signature)
    entry_of = {question(domain, entry, alg, signing_input, signature): entry for entry in entries}
    good = []
    for line in lines:
        asked, kid = line.split(" ", 1)
        if asked not in entry_of:
            sys.exit(f"no key of the bundle has the question {asked}")
        if json.loads(kid) != entry_of[asked]["kid"]:
            sys.exit(f"the question {asked} is not of the key {kid}")
        if is_good(entry_of[asked], alg, signing_input, signature):
            good.append(asked)
    return good


def check(svid, folder, texts, *options):
    """What `svid check` says of tokens, one after the other: its lines."""
    words = [svid, "check", "--bundles", folder / "bundles.json", "--table", folder / "table.txt", "--now", "1767225600"]
    words += ["--validator-id", "00112233445566778899aabbccddeeff", *options, "ledger"]
    ran = subprocess.run(words, input="".join(text + "\n" for text in texts).encode(), stdout=subprocess.PIPE)
    if ran.returncode not in (0, 1):
        sys.exit(f"svid check failed with status {ran.returncode}")
    return ran.stdout.decode().splitlines()


def with_payload(text, claims):
    """The token with another payload, under the signature that it had."""
    header, _, signature = text.split(".")
    return ".".join([header, base64url(json.dumps(claims).encode()), signature])


def say(what, lines, due):
    """Prints what was said, and answers whether it was due."""
    print(f"{what}: {', '.join(lines)}{'' if lines == due else '  <-- WRONG'}")
    return lines == due


def main(svid, folder):
    folder = pathlib.Path(folder)
    with tempfile.TemporaryDirectory() as keys:
        keys = pathlib.Path(keys)
        ec, rsa, stranger = (Signer(kind, keys / name) for kind, name in (("EC", "ec"), ("RSA", "rsa"), ("EC", "stranger")))
        entries = [ec.entry("ec-1"), rsa.entry("rsa-1")]
        bundles = folder / "bundles.json"
        bundles.write_text(json.dumps({DOMAIN: {"keys": entries}}, indent=2) + "\n")

        claims = {"sub": f"spiffe://{DOMAIN}/billing/api", "aud": ["ledger"], "exp": 4102444800}
        cases = [
            ("signed by the ES256 key", ec, {"alg": "ES256", "kid": "ec-1"}, dict(claims, jti="1"), ["ec-1"], 1),
            ("signed by the RS256 key", rsa, {"alg": "RS256", "kid": "rsa-1"}, dict(claims, jti="2"), ["rsa-1"], 1),
            ("without the name of a key", ec, {"alg": "ES256"}, dict(claims, jti="3"), ["ec-1"], 1),
            ("signed by a stranger", stranger, {"alg": "ES256", "kid": "ec-1"}, dict(claims, jti="4"), ["ec-1"], 0),
            ("of RS256 that names the EC key", rsa, {"alg": "RS256", "kid": "ec-1"}, claims, "refused NoKey", 0),
            ("of another trust domain", ec, {"alg": "ES256"}, dict(claims, sub="spiffe://other.example/api"), "refused UnknownDomain", 0),
        ]
        texts = [token(signer, header, body) for _, signer, header, body, _, _ in cases]

        signed, weak = b"header.payload", Signer("RSA", keys / "weak", bits=1024)
        of_ec, of_rsa = entries
        unfit = [
            ("of 1,024 bits", "RS256", weak, weak.entry("weak")),
            ("for another algorithm", "ES256", ec, dict(of_ec, alg="RS256")),
            ("whose modulus begins with a zero", "RS256", rsa, dict(of_rsa, n=base64url(b"\0" + unbase64url(of_rsa["n"])))),
            ("without a coordinate", "ES256", ec, {name: it for name, it in of_ec.items() if name != "y"}),
        ]
        answers = [(what, is_good(entry, alg, signed, signer.sign(signed))) for what, alg, signer, entry in unfit]
    failed = not all([say(f"signed by a key {what}", ["signature good" if good else "signature bad"], ["signature bad"]) for what, good in answers])

    table = []
    for (said, _, _, _, due, due_good), text in zip(cases, texts):
        lines = candidates(svid, str(bundles), text)
        if isinstance(due, str):
            answer, good, right = ", ".join(lines), [], lines == [due]
        else:
            good = good_questions(lines, DOMAIN, entries, text) if not lines[0].startswith("refused ") else []
            kids = [json.loads(line.split(" ", 1)[1]) for line in lines if not line.startswith("refused ")]
            answer = f"candidates {', '.join(kids) or 'none'}; signature {'good' if good else 'bad'}"
            right = kids == due and len(good) == due_good
        table += good
        failed = failed or not right
        print(f"a token {said}: {answer}{'' if right else '  <-- WRONG'}")
    (folder / "tokens.txt").write_text("".join(text + "\n" for text in texts))
    (folder / "table.txt").write_text("".join(asked + "\n" for asked in table))
    print(f"the table has {len(table)} questions")

    accepted = [f"accepted spiffe://{DOMAIN}/billing/api 4102444800"]
    record = folder / "record"
    changed = with_payload(texts[0], dict(claims, jti="9"))
    told = [
        say("checked", check(svid, folder, texts), 3 * accepted + ["refused BadSignature", "refused NoKey", "refused UnknownDomain"]),
        say("the same token twice", check(svid, folder, [texts[0], texts[0]], "--out", record), accepted + ["refused Replayed"]),
        say("again, with the record that was kept", check(svid, folder, [texts[0]], "--record", record), ["refused Replayed"]),
        say("with another payload", check(svid, folder, [changed]), ["refused BadSignature"]),
    ]
    return 0 if all(told) and not failed else 1


if __name__ == "__main__":
    sys.exit(main(sys.argv[1], sys.argv[2]))
