//! What a service tests its own use of this crate with: an issuer of tokens, a clock, and a store in memory. Tests alone should have the feature
//! `testing`: name it among the dev-dependencies.
//!
//! ```
//! use svid::testing::{Clock, Issuer};
//! use svid::{Guard, OpenSsl, Options};
//!
//! let clock = Clock::new();
//! let issuer = Issuer::new("example.org").clock(&clock);
//! let guard = Guard::open(&Options::new(["ledger"]).clock(clock.reader()), issuer.bundles(), OpenSsl::new())?;
//! assert!(guard.check(issuer.token("/billing/api", "ledger")).is_ok());
//! # Ok::<(), svid::Error>(())
//! ```

mod clock;
#[cfg(feature = "testing")]
mod issuer;
mod memory_store;

pub use self::clock::Clock;
#[cfg(feature = "testing")]
pub use self::issuer::{Issuer, Wrong};
pub use self::memory_store::MemoryStore;
