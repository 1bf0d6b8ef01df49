//! Signatures by ring.

use ring::signature::{self, UnparsedPublicKey, VerificationAlgorithm};

use super::{Unverified, Verify};
use crate::ffi;
use crate::key::{Algorithm, Candidate, KeyError};

/// How many bytes the modulus of an RSA key may have for ring.
const MOST_MODULUS: usize = 8192 / 8;

/// Verifies signatures by ring.
///
/// ring can't do ES512, nor RSA keys of more than 8,192 bits. A token whose signature could be good by such a key alone is answered
/// [`Error::Unsupported`](crate::Error::Unsupported), and never let in.
#[derive(Debug, Clone, Copy)]
pub struct Ring {
    most_bits: usize,
}

impl Ring {
    /// A verifier of RSA keys of 2,048 to 4,096 bits, and of EC keys on P-256 and P-384.
    pub fn new() -> Ring {
        Ring { most_bits: ffi::USUAL_RSA_BITS }
    }

    /// How many bits an RSA key may have. A longer one made no signature.
    #[must_use]
    pub fn rsa_bits(mut self, most: usize) -> Ring {
        self.most_bits = most;
        self
    }
}

impl Default for Ring {
    fn default() -> Ring {
        Ring::new()
    }
}

impl Verify for Ring {
    fn verify(&self, candidate: &Candidate<'_>, signed: &[u8], signature: &[u8]) -> Result<bool, Unverified> {
        let spki = match candidate.spki(self.most_bits) {
            Ok(spki) => spki,
            Err(KeyError::Unfit(_)) => return Ok(false),
            Err(KeyError::NoMemory) => return Err(Unverified::NoMemory),
            Err(KeyError::Unexpected(_)) => return Err(Unverified::Unsupported),
        };
        let algorithm = by(candidate.algorithm()).ok_or(Unverified::Unsupported)?;
        let key = key_of(spki.as_ref()).ok_or(Unverified::Unsupported)?;
        if candidate.algorithm().half().is_none() && modulus_len(key).map_or(true, |len| len > MOST_MODULUS) {
            return Err(Unverified::Unsupported);
        }
        Ok(UnparsedPublicKey::new(algorithm, key).verify(signed, signature).is_ok())
    }
}

/// How ring verifies by an algorithm, if it does.
fn by(algorithm: Algorithm) -> Option<&'static dyn VerificationAlgorithm> {
    match algorithm {
        Algorithm::Rs256 => Some(&signature::RSA_PKCS1_2048_8192_SHA256),
        Algorithm::Rs384 => Some(&signature::RSA_PKCS1_2048_8192_SHA384),
        Algorithm::Rs512 => Some(&signature::RSA_PKCS1_2048_8192_SHA512),
        Algorithm::Ps256 => Some(&signature::RSA_PSS_2048_8192_SHA256),
        Algorithm::Ps384 => Some(&signature::RSA_PSS_2048_8192_SHA384),
        Algorithm::Ps512 => Some(&signature::RSA_PSS_2048_8192_SHA512),
        Algorithm::Es256 => Some(&signature::ECDSA_P256_SHA256_FIXED),
        Algorithm::Es384 => Some(&signature::ECDSA_P384_SHA384_FIXED),
        Algorithm::Es512 => None,
    }
}

const INTEGER: u8 = 0x02;
const BIT_STRING: u8 = 0x03;
const SEQUENCE: u8 = 0x30;

/// The key in a SubjectPublicKeyInfo (RFC 5280, section 4.1.2.7), which ring wants by itself.
fn key_of(spki: &[u8]) -> Option<&[u8]> {
    let (info, _) = value(SEQUENCE, spki)?;
    let (_, rest) = value(SEQUENCE, info)?;
    let (bits, _) = value(BIT_STRING, rest)?;
    bits.get(1..)
}

/// How many bytes the modulus of an RSA key has (RFC 8017, section A.1.1).
fn modulus_len(key: &[u8]) -> Option<usize> {
    let (numbers, _) = value(SEQUENCE, key)?;
    let (modulus, _) = value(INTEGER, numbers)?;
    let zeros = modulus.iter().take_while(|byte| **byte == 0).count();
    modulus.len().checked_sub(zeros)
}

/// The content of the value of this tag that DER begins with, and what stands after it (X.690, section 8.1).
fn value(tag: u8, der: &[u8]) -> Option<(&[u8], &[u8])> {
    let (first, rest) = der.split_first()?;
    let (short, rest) = rest.split_first()?;
    let (len, rest) = match short {
        0..=0x7f => (usize::from(*short), rest),
        0x81..=0x83 => {
            let count = usize::from(short & 0x7f);
            let len = rest.get(..count)?.iter().fold(0, |len, byte| len << 8 | usize::from(*byte));
            (len, rest.get(count..)?)
        }
        _ => return None,
    };
    let content = (rest.get(..len)?, rest.get(len..)?);
    (*first == tag).then_some(content)
}

#[cfg(test)]
mod tests {
    use super::*;

    #[test]
    fn values_of_any_length() {
        for len in [0, 127, 128, 255, 256, 65_535, 65_536] {
            let mut der = vec![SEQUENCE];
            match len {
                0..=127 => der.push(len as u8),
                128..=255 => der.extend([0x81, len as u8]),
                256..=65_535 => der.extend([0x82, (len >> 8) as u8, len as u8]),
                _ => der.extend([0x83, (len >> 16) as u8, (len >> 8) as u8, len as u8]),
            }
            der.extend(vec![7; len]);
            assert_eq!(value(SEQUENCE, &der).map(|(content, rest)| (content.len(), rest.len())), Some((len, 0)));
            assert_eq!(value(INTEGER, &der), None);
            assert_eq!(value(SEQUENCE, &der[..der.len() - 1]), None);
            der.push(9);
            assert_eq!(value(SEQUENCE, &der).map(|(content, rest)| (content.len(), rest)), Some((len, &[9][..])));
        }
    }
}
