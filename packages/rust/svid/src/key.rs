//! Keys that may have signed a token.

use std::fmt;

use crate::error::{Error, Unexpected};
use crate::ffi::{self, Told};
use crate::words;

/// An algorithm of JWT-SVIDs (JWT-SVID, section 2.1).
#[derive(Debug, Clone, Copy, PartialEq, Eq, Hash)]
// lists:begin algorithms (written by tools/lists from lists/algorithms.toml)
pub enum Algorithm {
    /// RSASSA-PKCS1-v1_5 with SHA-256 (RFC 7518, 3.3).
    Rs256,
    /// RSASSA-PKCS1-v1_5 with SHA-384 (RFC 7518, 3.3).
    Rs384,
    /// RSASSA-PKCS1-v1_5 with SHA-512 (RFC 7518, 3.3).
    Rs512,
    /// ECDSA with SHA-256 (RFC 7518, 3.4).
    Es256,
    /// ECDSA with SHA-384 (RFC 7518, 3.4).
    Es384,
    /// ECDSA with SHA-512 (RFC 7518, 3.4).
    Es512,
    /// RSASSA-PSS with SHA-256 (RFC 7518, 3.5).
    Ps256,
    /// RSASSA-PSS with SHA-384 (RFC 7518, 3.5).
    Ps384,
    /// RSASSA-PSS with SHA-512 (RFC 7518, 3.5).
    Ps512,
}

// Each with its name, its hash, and of ECDSA how many bytes each half of a signature has.
const ROWS: [(Algorithm, &str, Hash, Option<usize>); 9] = [
    (Algorithm::Rs256, "RS256", Hash::Sha256, None),
    (Algorithm::Rs384, "RS384", Hash::Sha384, None),
    (Algorithm::Rs512, "RS512", Hash::Sha512, None),
    (Algorithm::Es256, "ES256", Hash::Sha256, Some(32)),
    (Algorithm::Es384, "ES384", Hash::Sha384, Some(48)),
    (Algorithm::Es512, "ES512", Hash::Sha512, Some(66)),
    (Algorithm::Ps256, "PS256", Hash::Sha256, None),
    (Algorithm::Ps384, "PS384", Hash::Sha384, None),
    (Algorithm::Ps512, "PS512", Hash::Sha512, None),
];
// lists:end

/// What an algorithm hashes with (FIPS 180-4).
#[derive(Debug, Clone, Copy, PartialEq, Eq, Hash)]
pub enum Hash {
    /// SHA-256.
    Sha256,
    /// SHA-384.
    Sha384,
    /// SHA-512.
    Sha512,
}

impl Algorithm {
    /// Each of them.
    pub fn all() -> impl Iterator<Item = Algorithm> {
        ROWS.iter().map(|row| row.0)
    }

    /// The name in a token's header, as "ES256".
    pub fn name(self) -> &'static str {
        self.row().1
    }

    /// What it hashes with.
    pub fn hash(self) -> Hash {
        self.row().2
    }

    /// Of ECDSA, how many bytes each of the two numbers of a signature has. RSA has none.
    pub fn half(self) -> Option<usize> {
        self.row().3
    }

    fn row(self) -> &'static (Algorithm, &'static str, Hash, Option<usize>) {
        // (each has its row: they are written from one list)
        ROWS.iter().find(|row| row.0 == self).unwrap_or(&ROWS[0])
    }

    pub(crate) fn of_name(name: &[u8]) -> Option<Algorithm> {
        ROWS.iter().find(|row| row.1.as_bytes() == name).map(|row| row.0)
    }
}

impl fmt::Display for Algorithm {
    fn fmt(&self, f: &mut fmt::Formatter<'_>) -> fmt::Result {
        f.write_str(self.name())
    }
}

/// A key that may have signed a token, by the algorithm that the token names.
#[derive(Debug, Clone, Copy, PartialEq, Eq)]
pub struct Candidate<'a> {
    algorithm: Algorithm,
    jwk: &'a [u8],
}

impl<'a> Candidate<'a> {
    /// The algorithm that the token names.
    pub fn algorithm(&self) -> Algorithm {
        self.algorithm
    }

    /// The key as JSON (RFC 7517), in UTF-8. Keep a parsed key by its algorithm and this text, and not by its `kid`, which is not unique.
    pub fn jwk(&self) -> &'a [u8] {
        self.jwk
    }

    /// The public key as SubjectPublicKeyInfo in DER (RFC 5280, section 4.1.2.7). An RSA key may have up to `most_bits` bits, and never more
    /// than 16,384: pass [`USUAL_RSA_BITS`](crate::USUAL_RSA_BITS) unless your issuers have longer ones.
    ///
    /// # Errors
    ///
    /// [`KeyError::Unfit`]: the key can't be used with the algorithm, so it made no signature. [`KeyError::NoMemory`]. It is not looked here
    /// whether a point is on its curve: your library does when it reads the key. If it refuses the key, the key made no signature.
    pub fn spki(&self, most_bits: usize) -> Result<Spki, KeyError> {
        let (mut spki, mut told) = (Spki { bytes: [0; ffi::SPKI_ROOM], len: 0 }, Told::default());
        let name = self.algorithm.name();
        // SAFETY: the two inputs are slices with their lengths, the room is an array with its length, and nothing overlaps.
        let status = unsafe {
            ffi::svid_key_spki(
                self.jwk.as_ptr(),
                self.jwk.len(),
                name.as_ptr(),
                name.len(),
                most_bits,
                spki.bytes.as_mut_ptr(),
                spki.bytes.len(),
                &mut told,
            )
        };
        if status == ffi::OK && told.len <= spki.bytes.len() {
            spki.len = told.len;
            return Ok(spki);
        }
        if status == ffi::NO_MEMORY {
            return Err(KeyError::NoMemory);
        }
        match KeyFault::ROWS.iter().find(|row| row.1 == status) {
            Some(row) => Err(KeyError::Unfit(row.0)),
            None => Err(KeyError::Unexpected(Unexpected::new(status))),
        }
    }
}

/// A public key as SubjectPublicKeyInfo in DER.
#[derive(Clone)]
pub struct Spki {
    bytes: [u8; ffi::SPKI_ROOM],
    len: usize,
}

impl AsRef<[u8]> for Spki {
    fn as_ref(&self) -> &[u8] {
        self.bytes.get(..self.len).unwrap_or_default()
    }
}

impl fmt::Debug for Spki {
    fn fmt(&self, f: &mut fmt::Formatter<'_>) -> fmt::Result {
        f.debug_tuple("Spki").field(&self.as_ref()).finish()
    }
}

/// Why there is no SubjectPublicKeyInfo of a key.
#[derive(Debug, Clone, Copy, PartialEq, Eq)]
#[non_exhaustive]
pub enum KeyError {
    /// The key can't be used with the algorithm.
    Unfit(KeyFault),
    /// There is no memory for it.
    NoMemory,
    /// The library answered what this crate does not know.
    Unexpected(Unexpected),
}

impl fmt::Display for KeyError {
    fn fmt(&self, f: &mut fmt::Formatter<'_>) -> fmt::Result {
        match self {
            KeyError::Unfit(why) => why.fmt(f),
            KeyError::NoMemory => words::write_plain(f, ffi::NO_MEMORY),
            KeyError::Unexpected(why) => why.fmt(f),
        }
    }
}

impl std::error::Error for KeyError {
    fn source(&self) -> Option<&(dyn std::error::Error + 'static)> {
        match self {
            KeyError::Unfit(why) => Some(why),
            KeyError::NoMemory => None,
            KeyError::Unexpected(why) => Some(why),
        }
    }
}

/// Why a key can't be used with an algorithm: the first that holds, in this order.
#[derive(Debug, Clone, Copy, PartialEq, Eq, Hash)]
#[non_exhaustive]
// lists:begin keys (written by tools/lists from lists/statuses.toml)
pub enum KeyFault {
    /// The key is no JSON object.
    NotObject,
    /// The key's `kty` is not the algorithm's: RSA for RS and PS, EC for ES.
    Kty,
    /// The key's `alg` is there, and is not the algorithm.
    Alg,
    /// The key's `n` is no odd number in as few bytes of base64url as hold it.
    N,
    /// The key's `n` has fewer than 2,048 bits, more than `most_bits`, or more than 16,384.
    Bits,
    /// The key's `e` is no odd number from 3 to 2^31-1 in as few bytes of base64url as hold it.
    E,
    /// The key's `crv` is not the algorithm's: P-256 for ES256, P-384 for ES384, P-521 for ES512.
    Crv,
    /// The key's `x` is not base64url of 32, 48 or 66 bytes, as the curve has it.
    X,
    /// The key's `y` is not base64url of 32, 48 or 66 bytes, as the curve has it.
    Y,
}

impl KeyFault {
    // Each with its number, and its name.
    pub(crate) const ROWS: [(KeyFault, u32, &'static str); 9] = [
        (KeyFault::NotObject, ffi::KEY_NOT_OBJECT, "NotObject"),
        (KeyFault::Kty, ffi::KEY_KTY, "Kty"),
        (KeyFault::Alg, ffi::KEY_ALG, "Alg"),
        (KeyFault::N, ffi::KEY_N, "N"),
        (KeyFault::Bits, ffi::KEY_BITS, "Bits"),
        (KeyFault::E, ffi::KEY_E, "E"),
        (KeyFault::Crv, ffi::KEY_CRV, "Crv"),
        (KeyFault::X, ffi::KEY_X, "X"),
        (KeyFault::Y, ffi::KEY_Y, "Y"),
    ];
}
// lists:end

named!(KeyFault);

/// The rows that the library writes for a token.
pub(crate) struct Rows<'a> {
    pub rest: &'a [u8],
}

impl<'a> Rows<'a> {
    fn row(&mut self) -> Option<Candidate<'a>> {
        let algorithm = Algorithm::of_name(self.text()?)?;
        Some(Candidate { algorithm, jwk: self.text()? })
    }

    /// The next field, which has its length before it.
    pub fn text(&mut self) -> Option<&'a [u8]> {
        let len = self.len()?;
        self.bytes(len)
    }

    /// A length, in four bytes.
    pub fn len(&mut self) -> Option<usize> {
        usize::try_from(u32::from_be_bytes(self.bytes(4)?.try_into().ok()?)).ok()
    }

    fn bytes(&mut self, len: usize) -> Option<&'a [u8]> {
        let (bytes, rest) = (self.rest.get(..len)?, self.rest.get(len..)?);
        self.rest = rest;
        Some(bytes)
    }
}

impl<'a> Iterator for Rows<'a> {
    type Item = Result<Candidate<'a>, Error>;

    fn next(&mut self) -> Option<Self::Item> {
        if self.rest.is_empty() {
            return None;
        }
        let row = self.row();
        if row.is_none() {
            self.rest = &[];
        }
        Some(row.ok_or_else(|| Error::unexpected(ffi::OK)))
    }
}
