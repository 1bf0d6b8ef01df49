//! The bearer token of a request (RFC 6750), and what to answer to one that has none.

use std::fmt;

use crate::error::Error;
use crate::ffi::{self, Bearer};
use crate::refusal::Refusal;

/// Finds the one bearer token of a request by the values of all its header fields `Authorization` (docs/FORMATS.md, "Bearer token of a
/// request"). It does not read the token.
///
/// # Errors
///
/// Why the request has none.
///
/// ```
/// assert_eq!(svid::bearer_token([b"Bearer a.b.c"]), Ok(&b"a.b.c"[..]));
/// assert_eq!(svid::bearer_token::<&[u8]>([]).unwrap_err().status(), 401);
/// ```
pub fn bearer_token<'a, V: AsRef<[u8]> + ?Sized + 'a>(values: impl IntoIterator<Item = &'a V>) -> Result<&'a [u8], Denied> {
    let mut values = values.into_iter();
    let first = values.next().map(AsRef::as_ref);
    let fields = first.map_or(0, |_| values.fold(1u64, |count, _| count.saturating_add(1)));
    let (value, mut found) = (first.unwrap_or_default(), Bearer::default());
    // SAFETY: the input is a slice with its length, and `found` is written alone.
    let status = unsafe { ffi::svid_bearer_token(fields, value.as_ptr(), value.len(), &mut found) };
    if let Some(row) = BearerFault::ROWS.iter().find(|row| row.1 == status) {
        return Err(Denied::NoToken(row.0));
    }
    if status != ffi::OK {
        return Err(Refusal::of_status(status).map_or_else(|| Error::unexpected(status), Error::Refused).into());
    }
    let token = found.at.checked_add(found.len).and_then(|end| value.get(found.at..end));
    token.ok_or_else(|| Error::unexpected(status).into())
}

/// Why a request is not let in, and the answer that is due.
#[derive(Debug, Clone, Copy, PartialEq, Eq)]
#[non_exhaustive]
pub enum Denied {
    /// It has not exactly one bearer token.
    NoToken(BearerFault),
    /// Its token is refused.
    Refused(Refusal),
    /// Its token is good, and no pattern allows its caller. It is not used up.
    NotAllowed,
    /// There is no answer about its token: it was not accepted, and is not refused.
    Failed(Error),
}

impl Denied {
    /// The status of the answer: 401, 403 for a caller who may not call, or 503 for a failure of this service.
    pub fn status(&self) -> u16 {
        match self {
            Denied::NoToken(_) | Denied::Refused(_) => 401,
            Denied::NotAllowed => 403,
            Denied::Failed(_) => 503,
        }
    }

    /// The header `WWW-Authenticate` of the answer, where it has one (RFC 6750, section 3).
    pub fn challenge(&self) -> Option<&'static str> {
        match self {
            Denied::NoToken(BearerFault::Several | BearerFault::Spelling) => {
                Some("Bearer error=\"invalid_request\", error_description=\"NotBearer\"")
            }
            Denied::NoToken(_) => Some("Bearer realm=\"svid\""),
            Denied::Refused(why) => Some(why.challenge()),
            Denied::NotAllowed => Some("Bearer error=\"insufficient_scope\", error_description=\"NotAllowed\""),
            Denied::Failed(_) => None,
        }
    }

    /// The header `Retry-After` of the answer in seconds, where the client may try the same token again.
    pub fn retry_after(&self) -> Option<u16> {
        matches!(self, Denied::Failed(_)).then_some(1)
    }

    /// The word by which the client hears why: the `reason` of the [body](Denied::body).
    pub fn reason(&self) -> &'static str {
        match self {
            Denied::NoToken(BearerFault::Absent) => "NoToken",
            Denied::NoToken(_) => "NotBearer",
            Denied::Refused(why) => why.name(),
            Denied::NotAllowed => "NotAllowed",
            Denied::Failed(why) => why.reason(),
        }
    }

    /// The body of the answer, as JSON: `Content-Type: application/json`.
    ///
    /// ```
    /// let denied = svid::bearer_token::<&[u8]>([]).unwrap_err();
    /// assert_eq!(denied.body(), "{\"reason\":\"NoToken\",\"result\":\"refused\"}\n");
    /// ```
    pub fn body(&self) -> String {
        let result = if matches!(self, Denied::Failed(_)) { "unavailable" } else { "refused" };
        format!("{{\"reason\":\"{}\",\"result\":\"{result}\"}}\n", self.reason())
    }

    /// The whole answer. Nobody may keep it (`Cache-Control: no-store`).
    #[cfg(feature = "http")]
    pub fn response<B: From<String>>(&self) -> http::Response<B> {
        let mut response = http::Response::new(B::from(self.body()));
        *response.status_mut() = http::StatusCode::from_u16(self.status()).unwrap_or(http::StatusCode::SERVICE_UNAVAILABLE);
        let headers = response.headers_mut();
        headers.insert(http::header::CACHE_CONTROL, http::HeaderValue::from_static("no-store"));
        headers.insert(http::header::CONTENT_TYPE, http::HeaderValue::from_static("application/json"));
        if let Some(text) = self.challenge() {
            headers.insert(http::header::WWW_AUTHENTICATE, http::HeaderValue::from_static(text));
        }
        if let Some(seconds) = self.retry_after() {
            headers.insert(http::header::RETRY_AFTER, seconds.into());
        }
        response
    }
}

impl From<Error> for Denied {
    fn from(why: Error) -> Denied {
        match why {
            Error::Refused(why) => Denied::Refused(why),
            Error::NotAllowed => Denied::NotAllowed,
            why => Denied::Failed(why),
        }
    }
}

impl fmt::Display for Denied {
    fn fmt(&self, f: &mut fmt::Formatter<'_>) -> fmt::Result {
        match self {
            Denied::NoToken(why) => why.fmt(f),
            Denied::Refused(why) => why.fmt(f),
            Denied::NotAllowed => Error::NotAllowed.fmt(f),
            Denied::Failed(why) => why.fmt(f),
        }
    }
}

impl std::error::Error for Denied {
    fn source(&self) -> Option<&(dyn std::error::Error + 'static)> {
        match self {
            Denied::NoToken(why) => Some(why),
            Denied::Refused(why) => Some(why),
            Denied::NotAllowed => None,
            Denied::Failed(why) => Some(why),
        }
    }
}

/// Why a request has no bearer token: the first that holds, in this order.
#[derive(Debug, Clone, Copy, PartialEq, Eq, Hash)]
#[non_exhaustive]
// lists:begin bearer (written by tools/lists from lists/statuses.toml)
pub enum BearerFault {
    /// The request has no header field Authorization.
    Absent,
    /// The request has more than one header field Authorization.
    Several,
    /// The header field Authorization has another scheme than Bearer.
    Scheme,
    /// In the header field Authorization, Bearer is not followed by one token.
    Spelling,
}

impl BearerFault {
    // Each with its number, and its name.
    pub(crate) const ROWS: [(BearerFault, u32, &'static str); 4] = [
        (BearerFault::Absent, ffi::BEARER_ABSENT, "Absent"),
        (BearerFault::Several, ffi::BEARER_SEVERAL, "Several"),
        (BearerFault::Scheme, ffi::BEARER_SCHEME, "Scheme"),
        (BearerFault::Spelling, ffi::BEARER_SPELLING, "Spelling"),
    ];
}
// lists:end

named!(BearerFault);
