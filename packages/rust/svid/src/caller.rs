//! Who presents a token.

use std::fmt;

/// Who presents a token, in mode [`Bound`](crate::Mode::Bound): 32 bytes that tell it from all others.
///
/// Validators that share a store must make them alike. The packages of the other languages take the SHA-256 of the bytes that they are given,
/// as [`Caller::of`] does.
#[derive(Clone, Copy, PartialEq, Eq, Hash)]
pub struct Caller(pub [u8; 32]);

impl Caller {
    /// The SHA-256 of bytes that say who presents the token, as its address or its certificate.
    #[cfg(any(feature = "openssl", feature = "ring"))]
    pub fn of(bytes: impl AsRef<[u8]>) -> Caller {
        #[cfg(feature = "openssl")]
        return Caller(openssl::sha::sha256(bytes.as_ref()));
        #[cfg(not(feature = "openssl"))]
        {
            Caller(by_ring(bytes.as_ref()))
        }
    }
}

#[cfg(all(feature = "ring", any(test, not(feature = "openssl"))))]
fn by_ring(bytes: &[u8]) -> [u8; 32] {
    let mut digest = [0; 32];
    digest.copy_from_slice(ring::digest::digest(&ring::digest::SHA256, bytes).as_ref());
    digest
}

impl fmt::Debug for Caller {
    fn fmt(&self, f: &mut fmt::Formatter<'_>) -> fmt::Result {
        f.write_str("Caller(")?;
        self.0.iter().try_for_each(|byte| write!(f, "{byte:02x}"))?;
        f.write_str(")")
    }
}

/// That of the other packages, from Python's hashlib.sha256(b"192.0.2.1").
#[test]
#[cfg(feature = "ring")]
fn a_caller_is_a_digest() {
    for digest in [Caller::of("192.0.2.1").0, by_ring(b"192.0.2.1")] {
        assert_eq!(crate::common::hex(&digest), "37fcff24bf62035b2b08020afc08b4fecd4fcffce57ab23518e3561ff0fe76b9");
    }
}
