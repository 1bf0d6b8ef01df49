//! A token that is presented: it is read once, for all calls about it.

use std::ops::Range;

use crate::error::Error;
use crate::ffi::{self, Handle, Told};
use crate::key::Rows;
use crate::record::Says;
use crate::refusal::Refusal;
use crate::token::Said;
use crate::verify::{Unverified, Verify};

/// How much room is there at first for what a verifier needs of a token: enough for most bundles.
const ROOM: usize = 4096;

/// A token that the library has read, and the key that made its signature.
#[derive(Debug)]
pub(crate) struct OpenToken<'a> {
    pub raw: Handle,
    text: &'a [u8],
    /// What it says, for the caller once it is accepted.
    pub says: Says,
    /// What `svid_validator_ask_token` writes.
    pub rows: Vec<u8>,
    /// Which bundles were asked for its keys: as many were replaced before these.
    pub edition: Option<u64>,
    shown: Option<Shown>,
    /// The verifier can't verify by one of the keys. (Where another one made the signature, nobody asks.)
    pub is_unsupported: bool,
}

/// Which key made which signature over how many bytes of the token. The first and the last stand in the rows.
#[derive(Debug, Clone)]
struct Shown {
    key: Range<usize>,
    input: usize,
    signature: Range<usize>,
}

/// A key, what it signed, and the signature; all are empty where no key did.
pub(crate) struct Evidence<'a> {
    pub key: &'a [u8],
    pub input: &'a [u8],
    pub signature: &'a [u8],
}

impl<'a> OpenToken<'a> {
    /// Reads a token for a service of these names.
    pub fn read(text: &'a [u8], own: &[String]) -> Result<OpenToken<'a>, Error> {
        let (says, rows, mut told) = (Says::of(text, own)?, Vec::new(), Told::default());
        let mut token = OpenToken { raw: Handle::CLOSED, text, says, rows, edition: None, shown: None, is_unsupported: false };
        ffi::grow(&mut token.rows, ROOM).map_err(|_| Error::NoMemory)?;
        // SAFETY: the handle is closed, the text is a slice with its length, and nothing overlaps.
        let status = unsafe { ffi::svid_token_open(&mut token.raw, text.as_ptr(), text.len(), &mut told) };
        match status {
            ffi::OK => Ok(token),
            status => Err(Error::of(status, &told)),
        }
    }

    /// Looks for the key that made the signature, among those of the rows, which have this length.
    pub fn look(&mut self, len: usize, verifier: &(impl Verify + ?Sized)) -> Result<(), Error> {
        (self.shown, self.is_unsupported) = (None, false);
        if len == 0 {
            return Ok(());
        }
        let unknown = || Error::unexpected(ffi::OK);
        let rows = self.rows.get(..len).ok_or_else(unknown)?;
        let mut rest = Rows { rest: rows };
        let input = rest.len().ok_or_else(unknown)?;
        let (signed, signature) = (self.text.get(..input).ok_or_else(unknown)?, rest.text().ok_or_else(unknown)?);
        let at = |rest: &Rows<'_>, of: &[u8]| len - rest.rest.len() - of.len()..len - rest.rest.len();
        let signature_at = at(&rest, signature);
        while let Some(candidate) = rest.next() {
            let candidate = candidate?;
            match verifier.verify(&candidate, signed, signature) {
                Ok(true) => {
                    self.shown = Some(Shown { key: at(&rest, candidate.jwk()), input, signature: signature_at });
                    return Ok(());
                }
                Ok(false) => {}
                Err(Unverified::NoMemory) => return Err(Error::NoMemory),
                Err(Unverified::Unsupported) => self.is_unsupported = true,
            }
        }
        Ok(())
    }

    /// What it says.
    pub fn said(&self) -> Result<Said, Error> {
        Said::of(self.text)
    }

    /// Why it is not accepted: by a verifier that does not know whether a key made its signature, want of that is no bad signature.
    pub fn why(&self, why: Error) -> Error {
        match why {
            Error::Refused(Refusal::BadSignature) if self.is_unsupported => Error::Unsupported,
            why => why,
        }
    }

    /// The handle of the token, and what a key has signed.
    pub fn lent(&mut self) -> (&mut Handle, Evidence<'_>) {
        let rows = &self.rows;
        let of = |range: &Range<usize>| rows.get(range.clone()).unwrap_or_default();
        let evidence = match &self.shown {
            Some(it) => Evidence { key: of(&it.key), input: self.text.get(..it.input).unwrap_or_default(), signature: of(&it.signature) },
            None => Evidence { key: &[], input: &[], signature: &[] },
        };
        (&mut self.raw, evidence)
    }
}

impl Drop for OpenToken<'_> {
    fn drop(&mut self) {
        // SAFETY: this is the last call with the handle. (It does nothing to one that was not opened.)
        unsafe { ffi::svid_token_close(&mut self.raw) }
    }
}
