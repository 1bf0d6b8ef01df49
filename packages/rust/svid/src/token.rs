//! What a token says.

use crate::error::Error;
use crate::ffi::{self, Told};
use crate::key::Algorithm;
use crate::record::TokenKey;

/// What a token says, for a log, say, or to withdraw it. Nobody has vouched for it: no signature, time or audience was looked at.
///
/// ```
/// let token = include_str!(concat!(env!("CARGO_MANIFEST_DIR"), "/../../../examples/token.txt")).trim();
/// let said = svid::Said::of(token)?;
/// assert_eq!((said.subject(), said.expires()), ("spiffe://example.org/billing/api", 4102444800));
/// # Ok::<(), svid::Error>(())
/// ```
#[derive(Debug, Clone, PartialEq, Eq)]
pub struct Said {
    key: TokenKey,
    expires: u64,
    algorithm: Algorithm,
    text: String,
    lens: Vec<usize>,
}

impl Said {
    /// Reads a token.
    ///
    /// # Errors
    ///
    /// [`Error::Refused`] by a reason from [`TooLong`](crate::Refusal::TooLong) to [`Jti`](crate::Refusal::Jti); [`Error::NoMemory`].
    pub fn of(token: impl AsRef<[u8]>) -> Result<Said, Error> {
        let (token, mut text, mut lens) = (token.as_ref(), Vec::new(), Vec::new());
        let (mut said, mut told) = (ffi::Said::default(), Told::default());
        loop {
            // SAFETY: the token is a slice with its length; the two rooms are others, with theirs; and nothing overlaps.
            let status = unsafe {
                ffi::svid_token_says(
                    token.as_ptr(),
                    token.len(),
                    &mut said,
                    lens.as_mut_ptr(),
                    lens.len(),
                    text.as_mut_ptr(),
                    text.len(),
                    &mut told,
                )
            };
            match status {
                ffi::OK => break,
                ffi::TOO_SHORT if told.len > text.len() || said.texts > lens.len() => {
                    ffi::grow(&mut text, told.len).map_err(|_| Error::NoMemory)?;
                    let more = said.texts.saturating_sub(lens.len());
                    lens.try_reserve_exact(more).map_err(|_| Error::NoMemory)?;
                    lens.resize(lens.len() + more, 0);
                }
                status => return Err(Error::of(status, &told)),
            }
        }
        text.truncate(told.len);
        lens.truncate(said.texts);
        let unknown = || Error::unexpected(ffi::OK);
        let text = String::from_utf8(text).map_err(|_| unknown())?;
        let mut made = Said { key: TokenKey(said.key), expires: said.exp, algorithm: Algorithm::Rs256, text, lens };
        made.algorithm = Algorithm::of_name(made.part(0).as_bytes()).ok_or_else(unknown)?;
        Ok(made)
    }

    /// The key that identifies the token.
    pub fn key(&self) -> TokenKey {
        self.key
    }

    /// When the token expires, in seconds since 1970.
    pub fn expires(&self) -> u64 {
        self.expires
    }

    /// The algorithm that it names.
    pub fn algorithm(&self) -> Algorithm {
        self.algorithm
    }

    /// Its subject, a SPIFFE ID.
    pub fn subject(&self) -> &str {
        self.part(1)
    }

    /// The trust domain of the subject.
    pub fn trust_domain(&self) -> &str {
        self.part(2)
    }

    /// The name of its key; "" if it has none.
    pub fn key_id(&self) -> &str {
        self.part(3)
    }

    /// Its audiences.
    pub fn audiences(&self) -> impl Iterator<Item = &str> {
        // (a stranger's token may have thousands: each is taken where the one before ends)
        let mut end = self.lens.iter().take(4).fold(0usize, |sum, len| sum.saturating_add(*len));
        self.lens.iter().skip(4).map(move |len| {
            let from = end;
            end = from.saturating_add(*len);
            self.text.get(from..end).unwrap_or("")
        })
    }

    fn part(&self, number: usize) -> &str {
        let from = self.lens.iter().take(number).fold(0usize, |sum, len| sum.saturating_add(*len));
        let end = self.lens.get(number).and_then(|len| from.checked_add(*len));
        end.and_then(|end| self.text.get(from..end)).unwrap_or("")
    }
}
