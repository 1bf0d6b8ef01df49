//! Signatures by OpenSSL.

use std::collections::HashMap;
use std::fmt;
use std::sync::{PoisonError, RwLock};

use openssl::bn::BigNum;
use openssl::ec::EcKey;
use openssl::ecdsa::EcdsaSig;
use openssl::error::ErrorStack;
use openssl::hash::MessageDigest;
use openssl::pkey::{PKey, Public};
use openssl::rsa::Padding;
use openssl::sha::{sha256, sha384, sha512};
use openssl::sign::{RsaPssSaltlen, Verifier};

use super::{Unverified, Verify};
use crate::ffi;
use crate::key::{Algorithm, Candidate, Hash, KeyError};

/// How many keys are kept parsed. There are more only if the bundles have more.
const MOST_KEYS: usize = 4096;

/// Verifies signatures by OpenSSL, with every algorithm. It keeps the keys that it has parsed.
///
/// If OpenSSL has no memory within a verification, its crate may not say so: the token is then refused as
/// [`BadSignature`](crate::Refusal::BadSignature).
pub struct OpenSsl {
    most_bits: usize,
    keys: RwLock<HashMap<Vec<u8>, Key>>,
}

#[derive(Clone)]
enum Key {
    Rsa(PKey<Public>),
    Ec(EcKey<Public>),
    /// It can't be used with the algorithm.
    Unfit,
    /// OpenSSL refuses it. That is not kept, since OpenSSL may be out of memory, and does not always say so.
    Bad,
}

impl OpenSsl {
    /// A verifier of RSA keys of 2,048 to 4,096 bits, and of EC keys.
    pub fn new() -> OpenSsl {
        OpenSsl { most_bits: ffi::USUAL_RSA_BITS, keys: RwLock::default() }
    }

    /// How many bits an RSA key may have, and never more than 16,384. A longer one made no signature. Each verification by a long key costs
    /// more, and a stranger may ask for it.
    #[must_use]
    pub fn rsa_bits(mut self, most: usize) -> OpenSsl {
        self.most_bits = most;
        self
    }

    fn key(&self, candidate: &Candidate<'_>) -> Result<Key, Unverified> {
        let (algorithm, mut name) = (candidate.algorithm().name().as_bytes(), Vec::new());
        name.try_reserve_exact(algorithm.len() + candidate.jwk().len()).map_err(|_| Unverified::NoMemory)?;
        name.extend_from_slice(algorithm);
        name.extend_from_slice(candidate.jwk());
        if let Some(key) = self.keys.read().unwrap_or_else(PoisonError::into_inner).get(&name) {
            return Ok(key.clone());
        }
        let key = self.parse(candidate)?;
        if matches!(key, Key::Bad) {
            return Ok(key);
        }
        let mut keys = self.keys.write().unwrap_or_else(PoisonError::into_inner);
        if keys.len() >= MOST_KEYS {
            keys.clear();
        }
        // (a key that is not kept is parsed again)
        if keys.try_reserve(1).is_ok() {
            keys.insert(name, key.clone());
        }
        Ok(key)
    }

    fn parse(&self, candidate: &Candidate<'_>) -> Result<Key, Unverified> {
        let spki = match candidate.spki(self.most_bits) {
            Ok(spki) => spki,
            Err(KeyError::Unfit(_)) => return Ok(Key::Unfit),
            Err(KeyError::NoMemory) => return Err(Unverified::NoMemory),
            Err(KeyError::Unexpected(_)) => return Err(Unverified::Unsupported),
        };
        let parsed = match candidate.algorithm().half() {
            Some(_) => EcKey::public_key_from_der(spki.as_ref()).map(Key::Ec),
            None => PKey::public_key_from_der(spki.as_ref()).map(Key::Rsa),
        };
        // (OpenSSL refuses a point that is not on its curve)
        parsed.or_else(|why| no(&why).map(|_| Key::Bad))
    }
}

impl Default for OpenSsl {
    fn default() -> OpenSsl {
        OpenSsl::new()
    }
}

impl fmt::Debug for OpenSsl {
    fn fmt(&self, f: &mut fmt::Formatter<'_>) -> fmt::Result {
        f.debug_struct("OpenSsl").field("most_bits", &self.most_bits).finish_non_exhaustive()
    }
}

impl Verify for OpenSsl {
    fn verify(&self, candidate: &Candidate<'_>, signed: &[u8], signature: &[u8]) -> Result<bool, Unverified> {
        let verified = match self.key(candidate)? {
            Key::Unfit | Key::Bad => return Ok(false),
            Key::Rsa(key) => by_rsa(&key, candidate.algorithm(), signed, signature),
            Key::Ec(key) => by_ec(&key, candidate.algorithm(), signed, signature),
        };
        verified.or_else(|why| no(&why))
    }
}

fn by_rsa(key: &PKey<Public>, algorithm: Algorithm, signed: &[u8], signature: &[u8]) -> Result<bool, ErrorStack> {
    // (for PSS, OpenSSL takes one that lacks the zeros at its beginning: RFC 8017, section 8.1.2, does not)
    if signature.len() != key.size() {
        return Ok(false);
    }
    let digest = match algorithm.hash() {
        Hash::Sha256 => MessageDigest::sha256(),
        Hash::Sha384 => MessageDigest::sha384(),
        Hash::Sha512 => MessageDigest::sha512(),
    };
    let mut verifier = Verifier::new(digest, key)?;
    if matches!(algorithm, Algorithm::Ps256 | Algorithm::Ps384 | Algorithm::Ps512) {
        verifier.set_rsa_padding(Padding::PKCS1_PSS)?;
        verifier.set_rsa_pss_saltlen(RsaPssSaltlen::DIGEST_LENGTH)?;
    }
    verifier.verify_oneshot(signature, signed)
}

fn by_ec(key: &EcKey<Public>, algorithm: Algorithm, signed: &[u8], signature: &[u8]) -> Result<bool, ErrorStack> {
    let half = algorithm.half().unwrap_or_default();
    let (r, s) = match (signature.get(..half), signature.get(half..)) {
        (Some(r), Some(s)) if s.len() == half => (r, s),
        _ => return Ok(false),
    };
    let numbers = EcdsaSig::from_private_components(BigNum::from_slice(r)?, BigNum::from_slice(s)?)?;
    match algorithm.hash() {
        Hash::Sha256 => numbers.verify(&sha256(signed), key),
        Hash::Sha384 => numbers.verify(&sha384(signed), key),
        Hash::Sha512 => numbers.verify(&sha512(signed), key),
    }
}

/// What an error of OpenSSL means: out of memory, or else that it takes a signature or a key for a bad one.
fn no(why: &ErrorStack) -> Result<bool, Unverified> {
    let is_memory = |reason| matches!(reason, "malloc failure" | "too many temporary variables" | "initialization error");
    match why.errors().iter().filter_map(|it| it.reason()).any(is_memory) {
        true => Err(Unverified::NoMemory),
        false => Ok(false),
    }
}
