"""Keys that are the same each time, and signatures by them that are the same each time.

Private keys come from a text by SHAKE-256, and so do the salts of RSASSA-PSS and the nonces of ECDSA. So nothing here is secret,
and no key may be used for anything else. `cryptography` has the last word: it verifies each signature that is called good, and
refuses each one that is called bad."""

import base64
import ctypes
import functools
import hashlib
import json
import math

from cryptography.exceptions import InvalidSignature
from cryptography.hazmat.primitives import hashes
from cryptography.hazmat.primitives.asymmetric import ec, padding, rsa, utils

# lists:begin algorithms (written by tools/lists from lists/algorithms.toml)
ALGORITHMS = ["RS256", "RS384", "RS512", "ES256", "ES384", "ES512", "PS256", "PS384", "PS512"]
# lists:end
HASHES = {"256": hashes.SHA256(), "384": hashes.SHA384(), "512": hashes.SHA512()}
# The DER in front of a digest (RFC 8017, section 9.2, note 1).
DIGEST_INFO = {
    "256": "3031300d060960864801650304020105000420",
    "384": "3041300d060960864801650304020205000430",
    "512": "3051300d060960864801650304020305000440",
}


CRYPTO = ctypes.CDLL("libcrypto.so.3")
for name, lent in {"CTX_new": "", "CTX_free": "p", "new": "", "free": "p", "bin2bn": "sip", "mod_exp": "ppppp", "bn2binpad": "psi"}.items():
    function = getattr(CRYPTO, f"BN_{name}")
    function.argtypes = [{"p": ctypes.c_void_p, "s": ctypes.c_char_p, "i": ctypes.c_int}[it] for it in lent]
    function.restype = ctypes.c_int if name in ("mod_exp", "bn2binpad") else ctypes.c_void_p


def power(base, exponent, modulus):
    """What pow() answers, by OpenSSL: it needs a small part of pow()'s time."""
    size = (modulus.bit_length() + 7) // 8
    made, context, answer = CRYPTO.BN_new(), CRYPTO.BN_CTX_new(), ctypes.create_string_buffer(size)
    numbers = [it.to_bytes(size, "big") for it in (base % modulus, exponent, modulus)]
    numbers = [CRYPTO.BN_bin2bn(it, size, None) for it in numbers]
    assert CRYPTO.BN_mod_exp(made, *numbers, context) == 1 and CRYPTO.BN_bn2binpad(made, answer, size) == size
    for it in (made, *numbers):
        CRYPTO.BN_free(it)
    CRYPTO.BN_CTX_free(context)
    return int.from_bytes(answer.raw, "big")


def b64(data):
    data = data.encode() if isinstance(data, str) else data
    return base64.urlsafe_b64encode(data).rstrip(b"=").decode()


def unb64(text):
    return base64.urlsafe_b64decode(text + "=" * (-len(text) % 4))


def drawn(text, size):
    """So many bytes that only look random."""
    return hashlib.shake_256(b"svid vectors: " + text.encode()).digest(size)


def below(text, most):
    """A number from 1 to most - 1."""
    return 1 + int.from_bytes(drawn(text, 80), "big") % (most - 1)


def number(value, size=None):
    """A number as a member of a key has it (RFC 7518, section 6)."""
    return b64(value.to_bytes(size or (value.bit_length() + 7) // 8, "big"))


def digest(alg, signed):
    return hashlib.new("sha" + alg[2:], signed.encode()).digest()


class Curve:
    """A curve of RFC 7518, section 6.2.1.1, with the prime of its field and the order of its group (FIPS 186-4, D.1.2)."""

    def __init__(self, name, alg, curve, field, order):
        self.name, self.alg, self.curve, self.field, self.order = name, alg, curve, field, order
        self.size = (curve.key_size + 7) // 8

        assert self.point(order - 1).x == self.point(1).x  # (that is the point's negative)

    def point(self, scalar):
        return ec.derive_private_key(scalar, self.curve).public_key().public_numbers()

    def hashed(self, alg, signed):
        """The digest as a number, of as many bits as the order has (FIPS 186-4, section 6.4)."""
        data = digest(alg, signed)
        return int.from_bytes(data, "big") >> max(0, 8 * len(data) - self.order.bit_length())

    def at(self, x):
        """The point with an even y and the first abscissa from x on that a point has (SEC 1, section 2.3.4)."""
        while True:
            try:
                return ec.EllipticCurvePublicKey.from_encoded_point(self.curve, b"\2" + x.to_bytes(self.size, "big")).public_numbers()
            except ValueError:
                x += 1

    def sum(self, one, other):
        """Of two points with other abscissas (SEC 1, section 2.2.1)."""
        slope = (other.y - one.y) * pow(other.x - one.x, -1, self.field) % self.field
        x = (slope * slope - one.x - other.x) % self.field
        return ec.EllipticCurvePublicNumbers(x, (slope * (one.x - x) - one.y) % self.field, self.curve)


def ones(bits):
    return (1 << bits) - 1


CURVES = [
    Curve("P-256", "ES256", ec.SECP256R1(), 2**256 - 2**224 + 2**192 + 2**96 - 1, ones(32) << 224 | ones(64) << 128 | 0xBCE6FAADA7179E84F3B9CAC2FC632551),
    Curve("P-384", "ES384", ec.SECP384R1(), 2**384 - 2**128 - 2**96 + 2**32 - 1, ones(192) << 192 | 0xC7634D81F4372DDF581A0DB248B0A77AECEC196ACCC52973),
    Curve("P-521", "ES512", ec.SECP521R1(), ones(521), ones(257) << 264 | 0xFA51868783BF2F966B7FCC0148F709A5D03BB5C9B8899C47AEBB6FB71E91386409),
]
CURVE_OF = {it.alg: it for it in CURVES}


class EC:
    """A private key on a curve: that of a text, or this one."""

    def __init__(self, alg, text, secret=None):
        self.curve, self.text = CURVE_OF[alg], text
        self.secret = secret or below(f"{alg} key {text}", self.curve.order)
        self.public = self.curve.point(self.secret)

    def members(self):
        size = self.curve.size
        return {"kty": "EC", "crv": self.curve.name, "x": number(self.public.x, size), "y": number(self.public.y, size)}

    def numbers(self, alg, signed, turn=0):
        """r and s (FIPS 186-4, section 6.4), by the nonce of this turn."""
        order = self.curve.order
        nonce = below(f"nonce {turn} {self.text} {alg} {signed}", order)
        r = self.curve.point(nonce).x % order
        return r, pow(nonce, -1, order) * (self.curve.hashed(alg, signed) + r * self.secret) % order

    def pair(self, r, s):
        return r.to_bytes(self.curve.size, "big") + s.to_bytes(self.curve.size, "big")

    def sign(self, alg, signed, turn=0):
        return self.pair(*self.numbers(alg, signed, turn))

    def made(self, alg, signed, signature):
        """Whether `cryptography` says that this key made the signature."""
        size = self.curve.size
        if len(signature) != 2 * size:
            return False
        r, s = int.from_bytes(signature[:size], "big"), int.from_bytes(signature[size:], "big")
        der = utils.encode_dss_signature(r, s)
        return _verified(self.public.public_key(), der, signed.encode(), ec.ECDSA(HASHES[alg[2:]]))


class Recovered(EC):
    """The public key by which r and s are a good signature of a text, where r is that of a point, and s is r (SEC 1, section 4.1.6)."""

    def __init__(self, alg, signed, point):
        self.curve, order = CURVE_OF[alg], CURVE_OF[alg].order
        self.public = self.curve.sum(point, self.curve.point(-self.curve.hashed(alg, signed) * pow(point.x, -1, order) % order))


class RSA:
    """A private key with these primes, and an exponent."""

    def __init__(self, primes, exponent=65537):
        self.primes, self.exponent = primes, exponent
        self.modulus = math.prod(primes)
        self.bits = self.modulus.bit_length()
        self.size = (self.bits + 7) // 8

    def members(self):
        return {"kty": "RSA", "n": number(self.modulus), "e": number(self.exponent)}

    def power(self, value):
        """A value to the private exponent, prime by prime (RFC 8017, section 5.1.2)."""
        made, modulus = 0, 1
        for prime in self.primes:
            part = power(value, pow(self.exponent, -1, prime - 1), prime)
            made += modulus * ((part - made) * pow(modulus, -1, prime) % prime)
            modulus *= prime
        return made

    def sign(self, alg, signed, salt=None):
        """By RSASSA-PKCS1-v1_5 or RSASSA-PSS (RFC 8017, section 8); a salt may have another length than the digest."""
        encoded = self.padded(alg, signed) if alg[0] == "R" else self.salted(alg, signed, salt)
        return self.power(int.from_bytes(encoded, "big")).to_bytes(self.size, "big")

    def padded(self, alg, signed):
        """EMSA-PKCS1-v1_5 (RFC 8017, section 9.2)."""
        told = bytes.fromhex(DIGEST_INFO[alg[2:]]) + digest(alg, signed)
        return b"\0\1" + b"\xff" * (self.size - len(told) - 3) + b"\0" + told

    def salted(self, alg, signed, salt=None, front=bytes(8), first=None, separator=1, mask_by=None):
        """EMSA-PSS, with MGF1 of the same hash (RFC 8017, sections 9.1.1 and B.2.1), or with what no signature has."""
        hashed = digest(alg, signed)
        salt = drawn(f"salt {alg} {signed}", len(hashed) if salt is None else salt)
        bits = self.bits - 1
        size = (bits + 7) // 8
        sealed = hashlib.new("sha" + alg[2:], front + hashed + salt).digest()
        block = (first or bytes(size - len(salt) - len(sealed) - 2)) + bytes([separator]) + salt
        mask = b""
        for counter in range(len(block) // 32 + 1):
            mask += hashlib.new("sha" + (mask_by or alg[2:]), sealed + counter.to_bytes(4, "big")).digest()
        masked = bytearray(a ^ b for a, b in zip(block, mask))
        masked[0] &= 0xFF >> (8 * size - bits)
        return bytes(masked) + sealed + b"\xbc"

    def made(self, alg, signed, signature):
        """Whether `cryptography` says that this key made the signature, which has the modulus's length (RFC 8017, 8.1.2 and 8.2.2)."""
        if len(signature) != self.size:
            return False
        hashed = HASHES[alg[2:]]
        scheme = padding.PKCS1v15() if alg[0] == "R" else padding.PSS(padding.MGF1(hashed), hashed.digest_size)
        public = rsa.RSAPublicNumbers(self.exponent, self.modulus).public_key()
        return _verified(public, signature, signed.encode(), scheme, hashed)


def _verified(key, *lent):
    try:
        key.verify(*lent)
    except InvalidSignature:
        return False
    return True


@functools.lru_cache(maxsize=None)
def key(alg, text="one"):
    """The key of this name for an algorithm. RSA keys have 2,048 bits, and serve six algorithms."""
    return EC(alg, text) if alg[0] == "E" else rsa_key(text)


@functools.lru_cache(maxsize=None)
def rsa_key(text, bits=2048, exponent=65537):
    half = (bits + 1) // 2
    turn = 0
    while True:
        primes = [prime(f"{text} {bits} {which} {turn}", size, exponent) for which, size in (("p", half), ("q", bits - half))]
        if math.prod(primes).bit_length() == bits:
            return RSA(primes, exponent)
        turn += 1


def prime(text, bits, exponent):
    """The first prime from a number on that this text gives, whose two highest bits are 1."""
    candidate = int.from_bytes(drawn(f"prime {text}", (bits + 7) // 8), "big") % (1 << bits) | 3 << bits - 2 | 1
    while not (is_prime(candidate) and math.gcd(candidate - 1, exponent) == 1):
        candidate += 2
    return candidate


SMALL = [it for it in range(3, 2000, 2) if all(it % other for other in range(3, int(it**0.5) + 1, 2))]


def is_prime(it):
    """By Miller and Rabin; a number that this text gives was not chosen to deceive it."""
    if any(it % small == 0 for small in SMALL):
        return False
    odd, twos = it - 1, 0
    while odd % 2 == 0:
        odd, twos = odd // 2, twos + 1
    for base in (2, 3, 5, 7, 11, 13, 17, 19):
        value = power(base, odd, it)
        if value in (1, it - 1):
            continue
        for _ in range(twos - 1):
            value = value * value % it
            if value == it - 1:
                break
        else:
            return False
    return True


# Primes of Mersenne, 2^n-1, and a small one, whose product has so many bits: a search for primes of such a length would take minutes.
LONG = {
    4096: ((2281, 1279, 521), 32_749),
    4097: ((2281, 1279, 521), 65_521),
    8192: ((4423, 3217, 521), 2**31 - 1),
    16_384: ((4423, 4253, 3217, 2281, 2203), 83),
    16_385: ((4423, 4253, 3217, 2281, 2203), 163),
}


@functools.lru_cache(maxsize=None)
def long_rsa_key(bits):
    exponents, last = LONG[bits]
    made = RSA([*(2**it - 1 for it in exponents), last])
    assert made.bits == bits
    return made


def json_text(value):
    return value if isinstance(value, (str, bytes)) else json.dumps(value, separators=(",", ":"), ensure_ascii=False)


def signing_input(header, payload):
    return f"{b64(json_text(header))}.{b64(json_text(payload))}"


def signed(key_, alg, header, payload, **how):
    """A token, whose signature `cryptography` calls good. (It takes no RSA key of more than 16,384 bits.)"""
    text = signing_input(header, payload)
    signature = key_.sign(alg, text, **how)
    is_beyond = isinstance(key_, RSA) and key_.bits > 16_384
    assert is_beyond or how or key_.made(alg, text, signature), alg
    return f"{text}.{b64(signature)}"
