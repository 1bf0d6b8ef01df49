"""Whether a key made the signature of a token, by the package `cryptography`. A busy service reads each key once, and keeps it by its
algorithm and JSON text, as packages/python/svid/_signatures.py does."""
import base64
from cryptography.exceptions import InvalidSignature, UnsupportedAlgorithm
from cryptography.hazmat.primitives import hashes
from cryptography.hazmat.primitives.asymmetric import ec, padding, utils
from cryptography.hazmat.primitives.serialization import load_der_public_key
from svid import Refused, key_spki

HASHES = {"256": hashes.SHA256(), "384": hashes.SHA384(), "512": hashes.SHA512()}


def decoded(text):
    """The bytes of a base64url text without padding. Bits behind the last byte must be 0."""
    data = base64.urlsafe_b64decode(text + "=" * (-len(text) % 4))
    if base64.urlsafe_b64encode(data).rstrip(b"=").decode() != text:
        raise ValueError("no base64url")
    return data


def number(data):
    return int.from_bytes(data, "big")


def by_curve(alg, key, signed, signature):
    half = (key.curve.key_size + 7) // 8
    if len(signature) != 2 * half:
        return False
    pair = utils.encode_dss_signature(number(signature[:half]), number(signature[half:]))
    key.verify(pair, signed, ec.ECDSA(HASHES[alg[2:]]))
    return True


def by_rsa(alg, key, signed, signature):
    digest = HASHES[alg[2:]]
    # (for PSS, OpenSSL takes a signature that lacks the zeros at its beginning: RFC 8017, section 8.1.2, does not)
    if len(signature) != (key.key_size + 7) // 8:
        return False
    how = padding.PSS(padding.MGF1(digest), digest.digest_size) if alg.startswith("PS") else padding.PKCS1v15()
    key.verify(signature, signed, how, digest)
    return True


def verifies(alg, jwk, token):
    """Whether the key `jwk`, as JSON, made the token's signature with the algorithm of this name."""
    signed, _, signature = token.rpartition(b".")
    try:
        # (this refuses a point that is not on the curve)
        key = load_der_public_key(key_spki(jwk, alg))
        alg = alg.decode()
        return (by_curve if alg.startswith("ES") else by_rsa)(alg, key, signed, decoded(signature.decode()))
    except (InvalidSignature, Refused, UnsupportedAlgorithm, ValueError):
        return False
