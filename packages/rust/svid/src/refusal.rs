//! Why a token is refused.

use std::fmt;

use crate::ffi;

// What a refusal is called and says.
struct Row {
    refusal: Refusal,
    status: u32,
    name: &'static str,
    sentence: &'static str,
    challenge: &'static str,
}

macro_rules! rows {
    ($($name:ident $status:ident $sentence:literal)*) => {
        [$(Row {
            refusal: Refusal::$name,
            status: ffi::$status,
            name: stringify!($name),
            sentence: $sentence,
            challenge: concat!("Bearer error=\"invalid_token\", error_description=\"", stringify!($name), "\""),
        }),*]
    };
}

/// Why a token is refused. A token gets the first reason that holds, in this order.
///
/// A refusal has nothing of the token in its text, so you can log it.
///
/// ```
/// use svid::Refusal;
///
/// assert_eq!(Refusal::Replayed.name(), "Replayed");
/// assert_eq!(Refusal::Typ.to_string(), r#"Typ: `typ` is there, and is neither "JWT" nor "JOSE"."#);
/// assert_eq!(Refusal::all().last(), Some(Refusal::Replayed));
/// ```
#[derive(Debug, Clone, Copy, PartialEq, Eq, PartialOrd, Ord, Hash)]
#[non_exhaustive]
// lists:begin refusals (written by tools/lists from lists/refusals.toml)
pub enum Refusal {
    /// The token has more than 65,536 bytes.
    TooLong,
    /// The token has not exactly two periods.
    NotThreeParts,
    /// The header is not base64url.
    HeaderSpelling,
    /// The header is no JSON object.
    HeaderNotObject,
    /// The header has a member `crit`.
    Crit,
    /// `alg` is none of the nine algorithms RS256 to RS512, ES256 to ES512 and PS256 to PS512.
    Alg,
    /// `typ` is there, and is neither "JWT" nor "JOSE".
    Typ,
    /// `kid` is there, and is no string.
    Kid,
    /// The payload is not base64url.
    PayloadSpelling,
    /// The payload is no JSON object.
    PayloadNotObject,
    /// The signature is empty, or not base64url.
    SignatureSpelling,
    /// `sub` is no SPIFFE ID.
    Sub,
    /// `aud` is neither a string nor a list of one or more strings.
    Aud,
    /// `exp` is no whole number from 0 to 2^64-1, written with digits alone.
    Exp,
    /// `nbf` is there, and is no whole number from 0 to 2^64-1.
    Nbf,
    /// `jti` is there, and is no string.
    Jti,
    /// No value of `aud` is one of the validator's audiences.
    NotAudience,
    /// The token has expired: `exp` is not greater than the record's moment.
    Expired,
    /// The token is not valid yet: `nbf` is greater than the record's moment.
    NotYet,
    /// The token expires more than `longest` seconds past the record's moment.
    TooLongLived,
    /// The bundles have no trust domain of this name.
    UnknownDomain,
    /// The trust domain has no key that fits `alg` and `kid`.
    NoKey,
    /// No key among the first 3 that fit made the signature.
    BadSignature,
    /// The token was withdrawn.
    Withdrawn,
    /// The token was accepted before, here or by a validator whose messages were taken.
    Replayed,
}

// Each with its number and its sentence, in their order.
const ROWS: [Row; 25] = rows! {
    TooLong TOO_LONG "The token has more than 65,536 bytes."
    NotThreeParts NOT_THREE_PARTS "The token has not exactly two periods."
    HeaderSpelling HEADER_SPELLING "The header is not base64url."
    HeaderNotObject HEADER_NOT_OBJECT "The header is no JSON object."
    Crit CRIT "The header has a member `crit`."
    Alg ALG "`alg` is none of the nine algorithms RS256 to RS512, ES256 to ES512 and PS256 to PS512."
    Typ TYP "`typ` is there, and is neither \"JWT\" nor \"JOSE\"."
    Kid KID "`kid` is there, and is no string."
    PayloadSpelling PAYLOAD_SPELLING "The payload is not base64url."
    PayloadNotObject PAYLOAD_NOT_OBJECT "The payload is no JSON object."
    SignatureSpelling SIGNATURE_SPELLING "The signature is empty, or not base64url."
    Sub SUB "`sub` is no SPIFFE ID."
    Aud AUD "`aud` is neither a string nor a list of one or more strings."
    Exp EXP "`exp` is no whole number from 0 to 2^64-1, written with digits alone."
    Nbf NBF "`nbf` is there, and is no whole number from 0 to 2^64-1."
    Jti JTI "`jti` is there, and is no string."
    NotAudience NOT_AUDIENCE "No value of `aud` is one of the validator's audiences."
    Expired EXPIRED "The token has expired: `exp` is not greater than the record's moment."
    NotYet NOT_YET "The token is not valid yet: `nbf` is greater than the record's moment."
    TooLongLived TOO_LONG_LIVED "The token expires more than `longest` seconds past the record's moment."
    UnknownDomain UNKNOWN_DOMAIN "The bundles have no trust domain of this name."
    NoKey NO_KEY "The trust domain has no key that fits `alg` and `kid`."
    BadSignature BAD_SIGNATURE "No key among the first 3 that fit made the signature."
    Withdrawn WITHDRAWN "The token was withdrawn."
    Replayed REPLAYED "The token was accepted before, here or by a validator whose messages were taken."
};
// lists:end

impl Refusal {
    /// All refusals, in the order in which the validator looks for them.
    pub fn all() -> impl Iterator<Item = Refusal> {
        ROWS.iter().map(|row| row.refusal)
    }

    /// The name that the program `svid` prints, as "Replayed".
    pub fn name(self) -> &'static str {
        self.row().name
    }

    /// One sentence for people, as "The token was withdrawn."
    pub fn sentence(self) -> &'static str {
        self.row().sentence
    }

    // The header WWW-Authenticate of a request whose token is refused (RFC 6750, section 3).
    pub(crate) fn challenge(self) -> &'static str {
        self.row().challenge
    }

    pub(crate) fn of_status(status: u32) -> Option<Refusal> {
        ROWS.iter().find(|row| row.status == status).map(|row| row.refusal)
    }

    fn row(self) -> &'static Row {
        // (each refusal has its row: they are written from one list)
        ROWS.iter().find(|row| row.refusal == self).unwrap_or(&ROWS[0])
    }
}

impl fmt::Display for Refusal {
    fn fmt(&self, f: &mut fmt::Formatter<'_>) -> fmt::Result {
        write!(f, "{}: {}", self.name(), self.sentence())
    }
}

impl std::error::Error for Refusal {}
