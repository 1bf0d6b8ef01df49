//! Who may call: patterns of SPIFFE IDs.

use std::fmt;

use crate::error::Unexpected;
use crate::ffi::{self, Id};
use crate::words;
use crate::SpiffeId;

/// A pattern of SPIFFE IDs (docs/FORMATS.md, "Patterns of IDs"): "spiffe://example.org/billing/api" allows that ID,
/// "spiffe://example.org/billing/*" all IDs below the path, by whole segments, and "spiffe://example.org" all of the trust domain.
///
/// Ask before a token is used up: by the subject that [`Said`](crate::Said) has, and then judge the token of another caller.
///
/// ```
/// let below = svid::Pattern::parse("spiffe://example.org/billing/*").unwrap();
/// let id = svid::SpiffeId::parse("spiffe://example.org/billing/api").unwrap();
/// assert_eq!(below.allows(&id), Ok(true));
/// ```
#[derive(Debug, Clone, PartialEq, Eq, Hash)]
pub struct Pattern<'a> {
    text: &'a str,
}

impl<'a> Pattern<'a> {
    /// Reads a pattern.
    ///
    /// # Errors
    ///
    /// [`PatternError::Bad`]: the text is none. [`PatternError::NoMemory`].
    pub fn parse(text: &'a str) -> Result<Pattern<'a>, PatternError> {
        ask(text, "spiffe://example.org").map(|_| Pattern { text })
    }

    /// Whether it allows an ID.
    ///
    /// # Errors
    ///
    /// [`PatternError::NoMemory`].
    pub fn allows(&self, id: &SpiffeId<'_>) -> Result<bool, PatternError> {
        ask(self.text, id.as_str())
    }

    /// Its text.
    pub fn as_str(&self) -> &'a str {
        self.text
    }
}

fn ask(pattern: &str, id: &str) -> Result<bool, PatternError> {
    let mut out = Id::default();
    // SAFETY: both inputs are slices with their lengths, and `out` is written alone.
    let status = unsafe { ffi::svid_id_allows(pattern.as_ptr(), pattern.len(), id.as_ptr(), id.len(), &mut out) };
    match status {
        ffi::OK => Ok(true),
        ffi::NOT_ALLOWED => Ok(false),
        ffi::NO_MEMORY => Err(PatternError::NoMemory),
        _ => match PatternFault::ROWS.iter().find(|row| row.1 == status) {
            Some(row) => Err(PatternError::Bad { fault: row.0, offset: out.offset }),
            None => Err(PatternError::Unexpected(Unexpected::new(status))),
        },
    }
}

/// Why a text is no pattern.
#[derive(Debug, Clone, PartialEq, Eq)]
#[non_exhaustive]
pub enum PatternError {
    /// The ID in it is none.
    Bad {
        /// What is wrong.
        fault: PatternFault,
        /// The byte of the text, counted from 0; 0 for a fault of the whole.
        offset: usize,
    },
    /// Memory was refused.
    NoMemory,
    /// The library answered what it never should.
    Unexpected(Unexpected),
}

impl fmt::Display for PatternError {
    fn fmt(&self, f: &mut fmt::Formatter<'_>) -> fmt::Result {
        match self {
            PatternError::Bad { fault, offset } => write!(f, "no pattern of SPIFFE IDs (byte {offset}): {}", fault.says()),
            PatternError::NoMemory => words::write_plain(f, ffi::NO_MEMORY),
            PatternError::Unexpected(why) => why.fmt(f),
        }
    }
}

impl std::error::Error for PatternError {}

/// What is wrong with a text that is no pattern.
#[derive(Debug, Clone, Copy, PartialEq, Eq, Hash)]
#[non_exhaustive]
// lists:begin patterns (written by tools/lists from lists/statuses.toml)
pub enum PatternFault {
    /// The ID in the pattern has more than 2,048 bytes.
    TooLong,
    /// The pattern does not begin with spiffe://.
    Scheme,
    /// The trust domain name of the pattern is empty.
    DomainEmpty,
    /// The pattern has a byte that may not stand in a trust domain name.
    DomainByte,
    /// The pattern has a trust domain name of more than 255 bytes.
    DomainLong,
    /// The pattern has an empty segment.
    SegmentEmpty,
    /// The pattern has a segment that is one or two periods.
    SegmentDots,
    /// The pattern has a byte that may not stand in a path segment.
    PathByte,
}

impl PatternFault {
    // Each with its number, and its name.
    pub(crate) const ROWS: [(PatternFault, u32, &'static str); 8] = [
        (PatternFault::TooLong, ffi::PATTERN_TOO_LONG, "TooLong"),
        (PatternFault::Scheme, ffi::PATTERN_SCHEME, "Scheme"),
        (PatternFault::DomainEmpty, ffi::PATTERN_DOMAIN_EMPTY, "DomainEmpty"),
        (PatternFault::DomainByte, ffi::PATTERN_DOMAIN_BYTE, "DomainByte"),
        (PatternFault::DomainLong, ffi::PATTERN_DOMAIN_LONG, "DomainLong"),
        (PatternFault::SegmentEmpty, ffi::PATTERN_SEGMENT_EMPTY, "SegmentEmpty"),
        (PatternFault::SegmentDots, ffi::PATTERN_SEGMENT_DOTS, "SegmentDots"),
        (PatternFault::PathByte, ffi::PATTERN_PATH_BYTE, "PathByte"),
    ];
}
// lists:end

named!(PatternFault);
