//! What a record has: uses, and what tells them from each other.

use std::fmt;
use std::fs::File;
use std::io::{self, Read};

use crate::error::Error;
use crate::ffi;
use crate::id::SpiffeId;
use crate::token::Said;

/// 16 bytes that name a validator among all that share its record. Two validators of one ID accept a token twice, so take a random one for
/// each process.
#[derive(Clone, Copy, PartialEq, Eq, PartialOrd, Ord, Hash)]
pub struct ValidatorId(pub [u8; 16]);

impl ValidatorId {
    /// A random ID.
    ///
    /// # Errors
    ///
    /// What the system says where it gives no random bytes.
    pub fn random() -> io::Result<ValidatorId> {
        let mut bytes = [0; 16];
        File::open("/dev/urandom")?.read_exact(&mut bytes)?;
        Ok(ValidatorId(bytes))
    }
}

/// 32 bytes by which all uses of a token are known.
#[derive(Clone, Copy, PartialEq, Eq, PartialOrd, Ord, Hash)]
pub struct TokenKey(pub [u8; 32]);

macro_rules! hexadecimal {
    ($($kind:ident)*) => {$(
        /// Writes its hexadecimal digits.
        impl fmt::Display for $kind {
            fn fmt(&self, f: &mut fmt::Formatter<'_>) -> fmt::Result {
                self.0.iter().try_for_each(|byte| write!(f, "{byte:02x}"))
            }
        }

        impl fmt::Debug for $kind {
            fn fmt(&self, f: &mut fmt::Formatter<'_>) -> fmt::Result {
                write!(f, concat!(stringify!($kind), "({})"), self)
            }
        }
    )*};
}

hexadecimal!(ValidatorId TokenKey);

/// One entry of a record: a token was accepted, or withdrawn. Times are in seconds since 1970.
#[derive(Debug, Clone, Copy, PartialEq, Eq, Hash)]
pub struct Use {
    /// When the token expires. The entry is dropped then.
    pub expires: u64,
    /// By which all uses of the token are known.
    pub key: TokenKey,
    /// The validator that made the entry.
    pub validator_id: ValidatorId,
    /// The record's moment when the entry was made.
    pub at: u64,
    /// Whether the token was withdrawn, and not accepted.
    pub withdrawn: bool,
}

impl Use {
    /// The entry as a message, for [`Guard::take`](crate::Guard::take) of other guards. Messages are put one after the other.
    ///
    /// # Errors
    ///
    /// [`Error::NoMemory`]. [`Error::Messages`] for an entry that expires when it was made, or before, which none of a validator does: no
    /// message can tell it.
    pub fn message(&self) -> Result<[u8; ffi::BATCH_OF_LEN], Error> {
        let (exp, at, withdrawn) = (self.expires, self.at, self.withdrawn.into());
        let entry = ffi::Entry { withdrawn, exp, at, key: self.key.0, validator_id: self.validator_id.0 };
        let (mut text, mut told) = ([0; ffi::BATCH_OF_LEN], ffi::Told::default());
        // SAFETY: the entry is one, the text is an array with its length, and nothing overlaps.
        match unsafe { ffi::svid_entries_write(&entry, 1, text.as_mut_ptr(), text.len(), &mut told) } {
            ffi::OK if told.len == text.len() => Ok(text),
            status => Err(Error::of(status, &told)),
        }
    }

    pub(crate) fn of(used: &ffi::Use, withdrawn: bool) -> Use {
        Use { expires: used.exp, key: TokenKey(used.key), validator_id: ValidatorId(used.validator_id), at: used.at, withdrawn }
    }
}

/// A token that a guard accepted, or would accept.
#[derive(Debug, Clone, PartialEq, Eq)]
pub struct Accepted {
    spiffe_id: String,
    used: Use,
    says: Says,
}

/// What an accepted token says beside its subject and its expiry. It is read before the token is accepted, so that it is not lost when memory runs out.
#[derive(Debug, Clone, Default, PartialEq, Eq)]
pub(crate) struct Says {
    audience: String,
    key_id: String,
    payload: Vec<u8>,
}

impl Says {
    /// Reads a token for a service of these names.
    pub fn of(token: &[u8], own: &[String]) -> Result<Says, Error> {
        let (said, mut payload, mut told) = (Said::of(token)?, Vec::new(), ffi::Told::default());
        let written = ffi::written(&mut payload, &mut told, |out, out_len, told| {
            // SAFETY: the token is a slice with its length, and `out` is another one, with its own.
            unsafe { ffi::svid_token_payload(token.as_ptr(), token.len(), out, out_len, told) }
        });
        payload.truncate(written.map_err(|status| Error::of(status, &told))?);
        let audience = said.audiences().find(|name| own.iter().any(|it| it == name)).unwrap_or_default();
        let copied = |text: &str| text_of(text.as_bytes(), &mut Vec::new());
        Ok(Says { audience: copied(audience)?, key_id: copied(said.key_id())?, payload })
    }

    /// All of it, for whoever asked.
    pub fn take(&mut self) -> Says {
        std::mem::take(self)
    }
}

impl Accepted {
    pub(crate) fn new(spiffe_id: String, used: Use, says: Says) -> Accepted {
        Accepted { spiffe_id, used, says }
    }

    /// The SPIFFE ID of the token's subject, as "spiffe://example.org/billing/api".
    pub fn spiffe_id(&self) -> &str {
        &self.spiffe_id
    }

    /// The trust domain of the subject, as "example.org".
    pub fn trust_domain(&self) -> &str {
        SpiffeId::parse(&self.spiffe_id).map_or("", |id| id.trust_domain())
    }

    /// The path of the subject with its first "/", as "/billing/api"; "" where it has none.
    pub fn path(&self) -> &str {
        SpiffeId::parse(&self.spiffe_id).map_or("", |id| id.path())
    }

    /// The audience of this service that the token names: the first one, if it names several.
    pub fn audience(&self) -> &str {
        &self.says.audience
    }

    /// The name of the token's key, its `kid`; "" where it has none.
    pub fn key_id(&self) -> &str {
        &self.says.key_id
    }

    /// When the token expires, in seconds since 1970.
    pub fn expires(&self) -> u64 {
        self.used.expires
    }

    /// All claims of the token, as its issuer signed them.
    ///
    /// # Errors
    ///
    /// What [`serde_json`] can't read though the token is good, such as lists that nest more than 127 deep.
    ///
    /// ```
    /// # #[cfg(feature = "openssl")] {
    /// # let bundles = include_bytes!(concat!(env!("CARGO_MANIFEST_DIR"), "/../../../examples/bundles.json"));
    /// # let token = include_str!(concat!(env!("CARGO_MANIFEST_DIR"), "/../../../examples/token.txt")).trim();
    /// # let guard = svid::Guard::open(&svid::Options::new(["ledger"]).any_life(), bundles, svid::OpenSsl::new())?;
    /// let accepted = guard.check(token)?;
    /// assert_eq!(accepted.claims().unwrap()["sub"], "spiffe://example.org/billing/api");
    /// # }
    /// # Ok::<(), svid::Error>(())
    /// ```
    pub fn claims(&self) -> Result<serde_json::Map<String, serde_json::Value>, serde_json::Error> {
        serde_json::from_slice(&self.says.payload)
    }

    /// What the record has gained; of a token that was only judged, what it would gain.
    pub fn used(&self) -> &Use {
        &self.used
    }
}

/// How large a record is.
#[derive(Debug, Clone, Copy, PartialEq, Eq)]
#[non_exhaustive]
pub struct Size {
    /// The time that the record has seen, in seconds since 1970.
    pub moment: u64,
    /// How many uses it has. Withdrawals count too.
    pub uses: usize,
}

/// Text that the library wrote, which is UTF-8. Where there is no memory for it, it takes the spare.
pub(crate) fn text_of(bytes: &[u8], spare: &mut Vec<u8>) -> Result<String, Error> {
    let text = ffi::copied(bytes).or_else(|_| {
        let mut text = std::mem::take(spare);
        text.clear();
        match bytes.len() > text.capacity() {
            true => Err(Error::NoMemory),
            false => {
                text.extend_from_slice(bytes);
                Ok(text)
            }
        }
    })?;
    String::from_utf8(text).map_err(|_| Error::unexpected(ffi::OK))
}
