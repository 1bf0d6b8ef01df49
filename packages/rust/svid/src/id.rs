//! SPIFFE IDs.

use std::fmt;

use crate::ffi::{self, Id};

/// A SPIFFE ID (SPIFFE-ID, section 2): the name of a workload in a trust domain.
///
/// ```
/// let id = svid::SpiffeId::parse("spiffe://example.org/billing/api").unwrap();
/// assert_eq!((id.trust_domain(), id.path()), ("example.org", "/billing/api"));
///
/// let why = svid::SpiffeId::parse("spiffe://example.org/..").unwrap_err();
/// assert_eq!((why.fault, why.offset), (svid::IdFault::SegmentDots, 21));
/// ```
#[derive(Debug, Clone, Copy, PartialEq, Eq, Hash)]
pub struct SpiffeId<'a> {
    text: &'a str,
    trust_domain: &'a str,
    path: &'a str,
}

impl<'a> SpiffeId<'a> {
    /// Reads a SPIFFE ID.
    ///
    /// # Errors
    ///
    /// Why the text is none, and where.
    pub fn parse(text: &'a str) -> Result<SpiffeId<'a>, IdError> {
        let mut id = Id::default();
        // SAFETY: the input is a slice with its length, and `id` is written alone.
        let status = unsafe { ffi::svid_id_parse(text.as_ptr(), text.len(), &mut id) };
        if let Some(row) = IdFault::ROWS.iter().find(|row| row.1 == status) {
            return Err(IdError { fault: row.0, offset: id.offset });
        }
        // (the two parts are the end of the text; `get` looks whether that is so)
        let path = text.len().checked_sub(id.path_len);
        let domain = path.and_then(|path| path.checked_sub(id.domain_len));
        let parts = path.zip(domain).and_then(|(path, domain)| text.get(path..).zip(text.get(domain..path)));
        match parts {
            Some((path, trust_domain)) if status == ffi::OK => Ok(SpiffeId { text, trust_domain, path }),
            _ => Err(IdError { fault: IdFault::Scheme, offset: 0 }),
        }
    }

    /// The whole ID.
    pub fn as_str(&self) -> &'a str {
        self.text
    }

    /// The name of the trust domain, as "example.org".
    pub fn trust_domain(&self) -> &'a str {
        self.trust_domain
    }

    /// The path with its first "/", as "/billing/api"; "" where it has none.
    pub fn path(&self) -> &'a str {
        self.path
    }
}

impl fmt::Display for SpiffeId<'_> {
    fn fmt(&self, f: &mut fmt::Formatter<'_>) -> fmt::Result {
        f.write_str(self.text)
    }
}

/// Why a text is no SPIFFE ID, and where.
#[derive(Debug, Clone, Copy, PartialEq, Eq)]
#[non_exhaustive]
pub struct IdError {
    /// What is wrong.
    pub fault: IdFault,
    /// The byte of the text, counted from 0; 0 for a fault of the whole.
    pub offset: usize,
}

impl fmt::Display for IdError {
    fn fmt(&self, f: &mut fmt::Formatter<'_>) -> fmt::Result {
        write!(f, "no SPIFFE ID (byte {}): {}", self.offset, self.fault.says())
    }
}

impl std::error::Error for IdError {}

/// What is wrong with a text that is no SPIFFE ID.
#[derive(Debug, Clone, Copy, PartialEq, Eq, Hash)]
#[non_exhaustive]
// lists:begin ids (written by tools/lists from lists/statuses.toml)
pub enum IdFault {
    /// The ID has more than 2,048 bytes.
    TooLong,
    /// The ID does not begin with spiffe://.
    Scheme,
    /// The trust domain name of the ID is empty.
    DomainEmpty,
    /// The ID has a byte that may not stand in a trust domain name.
    DomainByte,
    /// The ID has a trust domain name of more than 255 bytes.
    DomainLong,
    /// The ID has an empty segment.
    SegmentEmpty,
    /// The ID has a segment that is one or two periods.
    SegmentDots,
    /// The ID has a byte that may not stand in a path segment.
    PathByte,
}

impl IdFault {
    // Each with its number, and its name.
    pub(crate) const ROWS: [(IdFault, u32, &'static str); 8] = [
        (IdFault::TooLong, ffi::ID_TOO_LONG, "TooLong"),
        (IdFault::Scheme, ffi::ID_SCHEME, "Scheme"),
        (IdFault::DomainEmpty, ffi::ID_DOMAIN_EMPTY, "DomainEmpty"),
        (IdFault::DomainByte, ffi::ID_DOMAIN_BYTE, "DomainByte"),
        (IdFault::DomainLong, ffi::ID_DOMAIN_LONG, "DomainLong"),
        (IdFault::SegmentEmpty, ffi::ID_SEGMENT_EMPTY, "SegmentEmpty"),
        (IdFault::SegmentDots, ffi::ID_SEGMENT_DOTS, "SegmentDots"),
        (IdFault::PathByte, ffi::ID_PATH_BYTE, "PathByte"),
    ];
}
// lists:end

named!(IdFault);
