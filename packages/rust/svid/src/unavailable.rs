//! Why there is no answer about a token for now.

use std::fmt;

use crate::ffi;
use crate::words;

/// Why a guard has no answer about a token for now, or is to get none. Nothing is wrong with the token: its client may try again.
#[derive(Clone, Copy, PartialEq, Eq)]
pub struct Unavailable {
    why: Why,
    /// The word by which a client hears it.
    reason: &'static str,
}

#[derive(Clone, Copy, PartialEq, Eq)]
enum Why {
    Status(u32),
    MayLack,
    NoBundle,
}

impl Unavailable {
    /// A keeper may lack a withdrawal.
    pub(crate) const MAY_LACK: Unavailable = Unavailable { why: Why::MayLack, reason: "NotJudged" };

    /// The bundle of the token's trust domain is to come.
    pub(crate) const NO_BUNDLE: Unavailable = Unavailable { why: Why::NoBundle, reason: "NoBundle" };

    /// The time is over. This status says what it waited for.
    pub(crate) fn late(told_as: u32) -> Unavailable {
        Unavailable { why: Why::Status(ffi::LATE), reason: reason_of(told_as) }
    }

    pub(crate) fn reason(self) -> &'static str {
        self.reason
    }

    pub(crate) fn of_status(status: u32) -> Option<Unavailable> {
        match status {
            ffi::CLAIM_FAR | ffi::CLAIM_DEAF | ffi::LATE | ffi::NOT_KEPT | ffi::LEFT | ffi::ENDED..=ffi::DEAF => {
                Some(Unavailable { why: Why::Status(status), reason: reason_of(status) })
            }
            _ => None,
        }
    }
}

/// The word by which a client hears why a token was not judged, by the status.
pub(crate) fn reason_of(status: u32) -> &'static str {
    match status {
        // lists:begin reasons (written by tools/lists from lists/statuses.toml)
        ffi::NO_MEMORY => "NoMemory",
        ffi::JUMP => "ClockJump",
        ffi::CLAIM_FAR => "NotClaimed",
        ffi::CLAIM_DEAF => "EntriesLost",
        ffi::NOT_KEPT => "NotKept",
        ffi::ENDED..=ffi::DEAF => "NotReady",
        // lists:end
        _ => "NotJudged",
    }
}

impl fmt::Display for Unavailable {
    fn fmt(&self, f: &mut fmt::Formatter<'_>) -> fmt::Result {
        match self.why {
            Why::Status(status) => words::write_plain(f, status),
            Why::NoBundle => f.write_str("the bundle of the token's trust domain was not read yet"),
            Why::MayLack => {
                f.write_str("the token is withdrawn here, but the state folder or the group's store may not have that: withdraw it again")
            }
        }
    }
}

impl fmt::Debug for Unavailable {
    fn fmt(&self, f: &mut fmt::Formatter<'_>) -> fmt::Result {
        write!(f, "Unavailable({self})")
    }
}

impl std::error::Error for Unavailable {}
