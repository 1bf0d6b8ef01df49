"""Signatures of the algorithms of a JWT-SVID (RFC 7518, section 3), by `cryptography`."""

from __future__ import annotations

import hashlib
from collections.abc import Callable
from typing import Any

from cryptography.exceptions import InvalidSignature, UnsupportedAlgorithm
from cryptography.hazmat.primitives import hashes
from cryptography.hazmat.primitives.asymmetric import ec, padding, rsa, utils
from cryptography.hazmat.primitives.serialization import load_der_public_key

from ._library import NO_MEMORY, OK, RSA_BITS, SPKI_ROOM, USUAL_RSA_BITS, Told, address, quick
from ._words import no_memory

Verifies = Callable[[str, bytes, bytes, bytes], bool]
"""Whether a key made a signature: called with the algorithm's name (as "ES256"), the key as JSON
(RFC 7517), the bytes that are signed, and the signature's bytes. It returns True or False; anything
else raises TypeError, and no token is accepted."""

_Good = Callable[[bytes, bytes], bool]
"""Whether the one key that it knows made the signature (second) of some bytes (first)."""

_HASHES: dict[str, tuple[Callable[[bytes], Any], hashes.HashAlgorithm]] = {
    "256": (hashlib.sha256, hashes.SHA256()),
    "384": (hashlib.sha384, hashes.SHA384()),
    "512": (hashlib.sha512, hashes.SHA512()),
}
"""Python hashes in a third of the time that `cryptography` takes for it: the objects are fewer."""


class Verifier:
    """Verifies signatures, and keeps each key that it has parsed, by its algorithm and JSON text.

    A key that can't be used with the algorithm made no signature. Which can, says the library
    (docs/FORMATS.md, "Keys that can be used"), and an RSA key has at most `rsa_bits` bits.
    """

    def __init__(self, rsa_bits: int = USUAL_RSA_BITS) -> None:
        if rsa_bits not in RSA_BITS:
            raise ValueError("rsa_bits must be from 2,048 to 16,384")
        self._rsa_bits = rsa_bits
        self._keys: dict[tuple[str, bytes], _Good] = {}

    def __call__(self, alg: str, key: bytes, signed: bytes, signature: bytes) -> bool:
        good = self._keys.get((alg, key))
        if good is None:
            good = self._keys[alg, key] = _parsed(alg, key, self._rsa_bits)
        return good(signed, signature)

    def forget(self) -> None:
        """Drops all keys: those of bundles that were replaced."""
        self._keys = {}


def _spki(alg: str, key: bytes, rsa_bits: int) -> bytes | None:
    """The key as SubjectPublicKeyInfo, or None if the algorithm can't use it."""
    name, room, told = alg.encode(), bytearray(SPKI_ROOM), Told()
    status: int = quick.svid_key_spki(
        key, len(key), name, len(name), rsa_bits, address(room), SPKI_ROOM, address(told)
    )
    if status == NO_MEMORY:
        raise no_memory()
    return bytes(room[: told.len]) if status == OK else None


def _parsed(alg: str, key: bytes, rsa_bits: int) -> _Good:
    der = _spki(alg, key, rsa_bits)
    if der is None:
        return _never
    try:
        public = load_der_public_key(der)
    except (ValueError, UnsupportedAlgorithm):  # (a point that is not on its curve)
        return _never
    if isinstance(public, ec.EllipticCurvePublicKey):
        return _elliptic(alg, public)
    return _rsa(alg, public) if isinstance(public, rsa.RSAPublicKey) else _never


def _never(_signed: bytes, _signature: bytes) -> bool:
    return False


def _elliptic(alg: str, public: ec.EllipticCurvePublicKey) -> _Good:
    size, (hashed, algorithm) = (public.curve.key_size + 7) // 8, _HASHES[alg[2:]]
    scheme = ec.ECDSA(utils.Prehashed(algorithm))

    def good(signed: bytes, signature: bytes) -> bool:
        if len(signature) != 2 * size:
            return False
        r, s = _number(signature[:size]), _number(signature[size:])
        try:
            public.verify(utils.encode_dss_signature(r, s), hashed(signed).digest(), scheme)
        except InvalidSignature:
            return False
        return True

    return good


def _rsa(alg: str, public: rsa.RSAPublicKey) -> _Good:
    size, (hashed, algorithm) = (public.key_size + 7) // 8, _HASHES[alg[2:]]
    prehashed = utils.Prehashed(algorithm)
    scheme: padding.AsymmetricPadding = padding.PKCS1v15()
    if alg.startswith("PS"):
        scheme = padding.PSS(padding.MGF1(algorithm), algorithm.digest_size)

    def good(signed: bytes, signature: bytes) -> bool:
        # OpenSSL takes a shorter one for PSS (RFC 8017, section 8.1.2, does not).
        if len(signature) != size:
            return False
        try:
            public.verify(signature, hashed(signed).digest(), scheme, prehashed)
        except InvalidSignature:
            return False
        return True

    return good


def _number(data: bytes) -> int:
    return int.from_bytes(data, "big")
