"""Keys, bundles and tokens for the tests, and what the program says of them."""

import base64
import contextlib
import datetime
import functools
import hashlib
import ipaddress
import json
import logging
import os
import signal
import struct
import subprocess
import tempfile
import threading
import time
import types

import jwt
from cryptography import x509
from cryptography.hazmat.primitives import hashes, serialization
from cryptography.hazmat.primitives.asymmetric import ec, rsa
from cryptography.x509.oid import NameOID

import svid
from svid import _moments

NOW = 1_767_225_600
PROGRAM = os.environ["SVID"]
# How many seconds a test waits for what must come. packages/python/wrong/run sets it.
PATIENCE = float(os.environ.get("SVID_TEST_PATIENCE") or 180)
# What a copy of the checkout leaves out: what tests beside this one write into it and remove.
# (packages/python/wrong/run makes a folder tmp)
LEFT = ["__pycache__", "build", "dist", "*.egg-info", ".*_cache", ".hypothesis", "tmp"]
VALIDATOR_ID = "00112233445566778899aabbccddeeff"
SUBJECT = "spiffe://example.org/billing/api"
CURVES = {"ES256": ec.SECP256R1(), "ES384": ec.SECP384R1(), "ES512": ec.SECP521R1()}
CRV = {"secp256r1": "P-256", "secp384r1": "P-384", "secp521r1": "P-521"}
# lists:begin algorithms (written by tools/lists from lists/algorithms.toml)
ALGORITHMS = ["RS256", "RS384", "RS512", "ES256", "ES384", "ES512", "PS256", "PS384", "PS512"]
# lists:end
# The type of the keys of an algorithm, by its first two letters.
# lists:begin ktys (written by tools/lists from lists/algorithms.toml)
KTY = {"RS": "RSA", "ES": "EC", "PS": "RSA"}
# lists:end
SIGNERS = jwt.algorithms.get_default_algorithms()


def b64(data):
    return base64.urlsafe_b64encode(data).rstrip(b"=").decode()


def unb64(text):
    return base64.urlsafe_b64decode(text + "=" * (-len(text) % 4))


def number(value, size=None):
    """A number as a member of a key (RFC 7518, section 6)."""
    return b64(value.to_bytes(size or (value.bit_length() + 7) // 8, "big"))


def private_key(alg, which=0):
    """A private key for an algorithm, the same each time; `which` tells several apart."""
    return _private_key(alg if alg.startswith("ES") else "RSA", which)


@functools.lru_cache(maxsize=None)
def _private_key(kind, _which):
    if kind == "RSA":
        return rsa.generate_private_key(65537, 2048)
    return ec.generate_private_key(CURVES[kind])


def entry(key, kid, **members):
    """The public key as an entry of a bundle."""
    numbers = key.public_key().public_numbers()
    if isinstance(key, rsa.RSAPrivateKey):
        kind = {"kty": "RSA", "n": number(numbers.n), "e": number(numbers.e)}
    else:
        size = (key.curve.key_size + 7) // 8
        kind = {"kty": "EC", "crv": CRV[key.curve.name]}
        kind |= {"x": number(numbers.x, size), "y": number(numbers.y, size)}
    return {"use": "jwt-svid", "kid": kid, **kind, **members}


def bundle(*entries):
    return {"example.org": {"keys": list(entries)}}


def certificate(key):
    """A certificate of a key as a member `x5c` has it."""
    name = x509.Name([x509.NameAttribute(NameOID.COMMON_NAME, "example.org")])
    begun = datetime.datetime(2026, 1, 1)
    made = x509.CertificateBuilder().subject_name(name).issuer_name(name).serial_number(1)
    made = made.public_key(key.public_key()).not_valid_before(begun)
    made = made.not_valid_after(begun + datetime.timedelta(days=999)).sign(key, hashes.SHA256())
    der = made.public_bytes(serialization.Encoding.DER)
    return base64.b64encode(der).decode()


class Authority:
    """Signs certificates."""

    def __init__(self, above=None):
        """above: the authority that signed its certificate; by default it did that itself."""
        self.key = ec.generate_private_key(ec.SECP256R1())
        self.name = "root" if above is None else "authority"
        self.certificate = (above or self).made(self.key, is_authority=True, subject=self.name)

    def made(self, key, *, is_authority=False, uris=(), signs=(), subject=None, is_named=True):
        """A certificate that it signs. signs: what its owner may sign by the key's usage.

        is_named: it has the extension for names.
        """

        def named(text):
            return x509.Name([x509.NameAttribute(x509.NameOID.COMMON_NAME, text)] if text else [])

        at = datetime.datetime.utcnow()
        names = [x509.UniformResourceIdentifier(it) for it in uris]
        names.append(x509.IPAddress(ipaddress.ip_address("127.0.0.1")))
        usage = {"digital_signature": True, "key_cert_sign": is_authority, "crl_sign": False}
        others = "content_commitment key_encipherment data_encipherment key_agreement"
        usage |= dict.fromkeys(others.split(), False) | dict.fromkeys(signs, True)
        usage |= {"encipher_only": False, "decipher_only": False}
        builder = (
            x509.CertificateBuilder()
            .issuer_name(named(self.name))
            .subject_name(named(subject))
            .serial_number(x509.random_serial_number())
            .public_key(key.public_key())
            .not_valid_before(at - datetime.timedelta(hours=1))
            .not_valid_after(at + datetime.timedelta(hours=1))
            .add_extension(x509.BasicConstraints(is_authority, None), True)
            .add_extension(x509.KeyUsage(**usage), True)
        )
        if is_named:
            builder = builder.add_extension(x509.SubjectAlternativeName(names), not is_authority)
        return builder.sign(self.key, hashes.SHA256())

    def server(self, folder, *uris, **terms):
        """The file of a server's key and certificate."""
        key = ec.generate_private_key(ec.SECP256R1())
        made = self.made(key, uris=uris, **terms)
        path = folder / f"{len(os.listdir(folder))}.pem"
        path.write_bytes(pem(key) + made.public_bytes(serialization.Encoding.PEM))
        return path

    def pem(self, folder):
        """Its certificate in a file, behind a comment."""
        path = folder / f"{len(os.listdir(folder))}.pem"
        text = self.certificate.public_bytes(serialization.Encoding.PEM)
        path.write_bytes("# the authority Zoë\n".encode() + text)
        return path

    def entry(self):
        """Itself as an entry of a bundle."""
        der = self.certificate.public_bytes(serialization.Encoding.DER)
        return {"use": "x509-svid", "kty": "EC", "x5c": [base64.b64encode(der).decode()]}


def pem(key):
    return key.private_bytes(
        serialization.Encoding.PEM,
        serialization.PrivateFormat.PKCS8,
        serialization.NoEncryption(),
    )


def claims(**members):
    """Good claims with some members changed; None takes one out."""
    made = {"sub": SUBJECT, "aud": ["ledger"], "exp": NOW + 300, **members}
    return {name: value for name, value in made.items() if value is not None}


def token(alg="ES256", key=None, header=None, **members):
    """A token of PyJWT."""
    key = key or private_key(alg)
    return jwt.encode(claims(**members), key, alg, headers={"kid": "k1", **(header or {})})


def fresh(**members):
    """A token of now, which outlives a test on a slow machine."""
    return token(**{"exp": int(time.time()) + 3000, "jti": None, **members})


def signed(alg, key, header, payload):
    """A token of any header and payload, as bytes."""
    text = f"{b64(header)}.{b64(payload)}"
    return f"{text}.{b64(SIGNERS[alg].sign(text.encode(), key))}"


def validator(bundles=None, **terms):
    """A validator of the audience "ledger" that knows the key k1, of ES256, and has patience."""
    bundles = bundle(entry(private_key("ES256"), "k1")) if bundles is None else bundles
    usual = {"audiences": ["ledger"], "bundles": bundles, "wait": PATIENCE}
    usual |= {"longest": svid.UNLIMITED}
    return svid.Validator(**{**usual, **terms})


def verdict(checks, text, now=NOW):
    """What `svid check` prints of a token, by a validator."""
    try:
        accepted = checks.check(text, now)
        return f"accepted {accepted.spiffe_id} {accepted.expires}"
    except svid.Refused as why:
        return f"refused {why.name}"


def until(true):
    """Waits until something is true, and looks again and again."""
    end = time.monotonic() + PATIENCE
    while not true():
        assert time.monotonic() < end, "it does not come to be"
        time.sleep(0.005)


# An example says no `wait`, and a machine may be slow: what runs it begins with this.
PATIENT = f"""
import functools, svid
svid.Validator = functools.partial(svid.Validator, wait={PATIENCE})
"""


def patient(folder):
    """The environment of a process whose validators have patience."""
    (folder / "sitecustomize.py").write_text(PATIENT)
    return {**os.environ, "PYTHONPATH": f"{folder}:{os.environ['PYTHONPATH']}"}


def joined(*threads):
    """Waits until threads have ended."""
    until(lambda: not any(it.is_alive() for it in threads))


def status_of(child):
    """How a fork of this process ended. One that does not is killed."""
    found = []

    def is_over():
        pid, status = os.waitpid(child, os.WNOHANG)
        found.append(status)
        return pid

    try:
        until(is_over)
    except AssertionError:
        os.kill(child, signal.SIGKILL)
        os.waitpid(child, 0)
        raise
    return found[-1]


@contextlib.contextmanager
def answering(ran, what):
    """A process is to say something. One that does not is killed, which ends whatever reads it."""
    is_late = threading.Event()

    def end():
        is_late.set()
        ran.kill()

    timer = threading.Timer(PATIENCE, end)
    timer.daemon = True
    timer.start()
    try:
        yield
    finally:
        timer.cancel()
        assert not is_late.is_set(), f"{what} says nothing"


@contextlib.contextmanager
def no_logger():
    """The handler of the logger "svid" fails, as one whose server is away."""

    class Fails(logging.Handler):
        def emit(self, record):
            raise ConnectionError("no logger")

    handler = Fails()
    logging.getLogger("svid").addHandler(handler)
    try:
        yield
    finally:
        logging.getLogger("svid").removeHandler(handler)


class Clocks:
    """The clocks of each `Moment`: they stand still until a test sets them."""

    def __init__(self, monkeypatch):
        self.up, self.wall = time.monotonic(), time.time()
        calls = {"monotonic": lambda: self.up, "time": lambda: self.wall}
        monkeypatch.setattr(_moments, "time", types.SimpleNamespace(**calls))


def compact(value):
    """The compact text of an entry (docs/FORMATS.md)."""
    return json.dumps(value, ensure_ascii=False, separators=(",", ":"), sort_keys=True)


def question(domain, key, alg, signing_input, signature):
    """The question whether a key made a signature (docs/FORMATS.md)."""
    fields = [domain.encode(), compact(key).encode(), alg.encode(), signing_input, signature]
    text = b"".join(struct.pack(">I", len(field)) + field for field in fields)
    return hashlib.sha256(text).hexdigest()


def program(bundles, table, tokens, *options):
    """The lines that `svid check` prints of tokens; the table has the questions answered yes."""
    with tempfile.TemporaryDirectory() as room:
        for name, text in ("bundles", json.dumps(bundles)), ("table", "\n".join(table)):
            with open(os.path.join(room, name), "w", encoding="utf-8") as file:
                file.write(text)
        words = ["--bundles", f"{room}/bundles", "--table", f"{room}/table", "--now", str(NOW)]
        words = [PROGRAM, "check", *words, "--validator-id", VALIDATOR_ID, *options, "ledger"]
        lines = b"".join(it.encode() + b"\n" for it in tokens)
        ran = subprocess.run(words, input=lines, capture_output=True, timeout=PATIENCE, check=False)
    assert ran.returncode in (0, 1) and not ran.stderr, ran.stderr
    return ran.stdout.decode().splitlines()
