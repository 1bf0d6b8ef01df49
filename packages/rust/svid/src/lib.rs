//! `svid` checks SPIFFE JWT-SVIDs, the bearer tokens by which workloads identify themselves, and accepts each of them once. It verifies the
//! signature, the audience and the times, and it remembers which tokens were used until they expire.
//!
//! This crate is over a C library whose functions are proved to meet their contracts. It carries bytes, waits, and calls the library; the
//! library decides. Signatures are verified by OpenSSL (feature `openssl`) or ring (feature `ring`), or by a [`Verify`] of your own.
//!
//! - [`Guard`] is what a service has, for any number of threads. [`Options::mode`] says how often it accepts a token.
//! - [`Sources`] say where the trust bundles come from. The guard follows them.
//! - [`Store`] is the trait of a store that guards share, which you write over the client of your database. `PostgresStore` (feature `postgres`)
//!   is one.
//! - [`Journal`] keeps a record over restarts and crashes.
//! - [`LogMember`] is for a group that has nothing but a log.
//! - [`Refusal`] says why a token is refused, and [`Error`] why there is no answer.
//!
//! ```
//! # #[cfg(feature = "testing")] {
//! use svid::{testing::Issuer, Error, Guard, OpenSsl, Options, Refusal};
//!
//! let issuer = Issuer::new("example.org");
//! let token = issuer.token("/billing/api", "ledger");
//! let guard = Guard::open(&Options::new(["ledger"]), issuer.bundles(), OpenSsl::new())?;
//! assert_eq!(guard.check(&token)?.spiffe_id(), "spiffe://example.org/billing/api");
//! assert_eq!(guard.check(&token), Err(Error::Refused(Refusal::Replayed)));
//! # }
//! # Ok::<(), svid::Error>(())
//! ```
//!
//! It needs Linux on x86-64 or aarch64, where the C library is in the crate. Elsewhere `LIBSVID_DIR` names the folder of a `libsvid.a`.
//!
//! No call panics, whatever it is given, but for those of the module `testing`. A call that has no memory says so, except where [`Options`],
//! [`Sources`] and `Debug` make texts, where a guard or a [`LogMember`] is opened, where a guard follows other sources or begins a thread, where bundles
//! or a state folder are read and a write begins, in a `PostgresStore`, and within the crates of others.
#![deny(missing_docs)]
#![deny(unsafe_op_in_unsafe_fn)]
#![deny(clippy::undocumented_unsafe_blocks)]
#![warn(missing_debug_implementations)]
#![cfg_attr(docsrs, feature(doc_auto_cfg))]

#[cfg(test)]
extern crate self as svid;

#[cfg(test)]
#[path = "../tests/common/mod.rs"]
mod common;

#[macro_use]
mod named;

mod bearer;
mod bundles;
mod caller;
mod claims;
#[cfg(feature = "https")]
mod endpoint;
mod error;
mod ffi;
mod follower;
mod guard;
mod handle;
mod id;
mod journal;
mod key;
mod local;
mod log_member;
mod looks;
mod moment;
mod open_token;
mod options;
mod paths;
mod pattern;
#[cfg(feature = "postgres")]
mod postgres;
mod record;
mod refusal;
mod requests;
mod sources;
mod store;
#[cfg(any(test, feature = "testing"))]
pub mod testing;
mod token;
mod twice;
mod unavailable;
mod verify;
mod words;
#[cfg(feature = "workload")]
mod workload;

use std::panic::catch_unwind;
use std::thread::{self, JoinHandle};
use std::time::{Duration, Instant, SystemTime, UNIX_EPOCH};

pub use crate::bearer::{bearer_token, BearerFault, Denied};
pub use crate::caller::Caller;
pub use crate::error::{BundlesFault, DocumentFault, Error, MessageFault, MessagesError, OptionsFault, SourceFault, Unexpected};
pub use crate::guard::Guard;
pub use crate::id::{IdError, IdFault, SpiffeId};
pub use crate::journal::{Journal, JournalError};
pub use crate::key::{Algorithm, Candidate, Hash, KeyError, KeyFault, Spki};
pub use crate::log_member::{Fate, LogMember, LogPosition, LogStart, Order, Reading};
pub use crate::options::{Mode, Options};
pub use crate::pattern::{Pattern, PatternError, PatternFault};
pub use crate::record::{Accepted, Size, TokenKey, Use, ValidatorId};
pub use crate::refusal::Refusal;
pub use crate::sources::Sources;
pub use crate::store::{Claim, Found, Store, StoreError, WITHDRAWN};
pub use crate::token::Said;
pub use crate::unavailable::Unavailable;
pub use crate::verify::{Unverified, Verify};

#[cfg(feature = "postgres")]
pub use crate::postgres::{PostgresError, PostgresStore};
#[cfg(feature = "openssl")]
pub use crate::verify::openssl::OpenSsl;
#[cfg(feature = "ring")]
pub use crate::verify::ring::Ring;

/// How many keys are tried for a token (docs/FORMATS.md, "Candidates").
pub const MOST_CANDIDATES: usize = ffi::MOST_CANDIDATES;

/// How many bits an RSA key may have, unless a verifier is made with another limit.
pub const USUAL_RSA_BITS: usize = ffi::USUAL_RSA_BITS;

/// The time of the system's clock, in whole seconds since 1970.
///
/// # Errors
///
/// [`Error::NoClock`] if it is before 1970.
pub fn now() -> Result<u64, Error> {
    let since = SystemTime::now().duration_since(UNIX_EPOCH);
    since.map(|it| it.as_secs()).map_err(|_| Error::NoClock)
}

/// How long whoever drops a guard or a state folder waits for what is under way, at the most.
const ENDING: Duration = Duration::from_secs(5);

/// Waits until something has ended, but at most until `end`.
fn waits_for(what: &str, end: Instant, has_ended: impl Fn() -> bool) {
    let mut pause = Duration::from_micros(50);
    while !has_ended() {
        if Instant::now() >= end {
            // (a logger must not end who drops something)
            let _ =
                catch_unwind(|| log::warn!("{what} has not ended, and goes on: the disk or the file does not answer, or who is warned"));
            return;
        }
        thread::sleep(pause);
        pause = (2 * pause).min(Duration::from_millis(10));
    }
}

/// The same of threads. (One may drop what it works for, and does not wait for itself then.)
fn waits_for_all(what: &str, threads: impl IntoIterator<Item = JoinHandle<()>>) {
    let end = Instant::now() + ENDING;
    for it in threads {
        waits_for(what, end, || it.is_finished() || it.thread().id() == thread::current().id());
        if it.is_finished() {
            // (it panics nowhere; if it did, there would be nothing left to wait for)
            let _ = it.join();
        }
    }
}

/// Whether the library that was linked is of the version that this crate knows.
fn same_version() -> Result<(), Error> {
    // SAFETY: the call takes nothing.
    let version = unsafe { ffi::svid_version() };
    match version / 10_000 {
        ffi::MAJOR => Ok(()),
        _ => Err(Error::unexpected(version)),
    }
}
