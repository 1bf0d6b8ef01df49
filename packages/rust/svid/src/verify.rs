//! Verifying the signature of a token.

use crate::key::Candidate;

#[cfg(feature = "openssl")]
pub(crate) mod openssl;
#[cfg(feature = "ring")]
pub(crate) mod ring;

/// Verifies signatures by a library of cryptography. [`OpenSsl`](crate::OpenSsl) and [`Ring`](crate::Ring) are such.
///
/// The library says which keys may have signed a token, and this answers of each whether it did. It decides nothing else.
pub trait Verify {
    /// Whether the key made this signature of these bytes, by the algorithm of the candidate. `signature` is that of the token, decoded: of
    /// ECDSA its two numbers one after the other (RFC 7518, section 3.4).
    ///
    /// # Errors
    ///
    /// Where the answer is not known. `false` is an answer: this key did not make it, or can't be used.
    fn verify(&self, candidate: &Candidate<'_>, signed: &[u8], signature: &[u8]) -> Result<bool, Unverified>;
}

/// Why a verifier does not know whether a key made a signature.
#[derive(Debug, Clone, Copy, PartialEq, Eq, Hash)]
#[non_exhaustive]
pub enum Unverified {
    /// There is no memory for it.
    NoMemory,
    /// It can't verify with this algorithm, or by a key of this size.
    Unsupported,
}

impl std::fmt::Display for Unverified {
    fn fmt(&self, f: &mut std::fmt::Formatter<'_>) -> std::fmt::Result {
        f.write_str(match self {
            Unverified::NoMemory => "there is no memory: make the call again",
            Unverified::Unsupported => "the verifier can't verify with this algorithm or by this key: use another one",
        })
    }
}

impl std::error::Error for Unverified {}

impl<V: Verify + ?Sized> Verify for &V {
    fn verify(&self, candidate: &Candidate<'_>, signed: &[u8], signature: &[u8]) -> Result<bool, Unverified> {
        (**self).verify(candidate, signed, signature)
    }
}

impl<V: Verify + ?Sized> Verify for std::sync::Arc<V> {
    fn verify(&self, candidate: &Candidate<'_>, signed: &[u8], signature: &[u8]) -> Result<bool, Unverified> {
        (**self).verify(candidate, signed, signature)
    }
}
