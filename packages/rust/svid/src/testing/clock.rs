//! A clock that a test sets.

use std::sync::atomic::{AtomicU64, Ordering};
use std::sync::Arc;

/// A clock that a test sets, in whole seconds since 1970. Its clones show the same time.
///
/// ```
/// let clock = svid::testing::Clock::at(1_767_225_600);
/// let options = svid::Options::new(["ledger"]).clock(clock.reader());
/// clock.advance(60);
/// assert_eq!(clock.now(), 1_767_225_660);
/// ```
#[derive(Debug, Clone)]
pub struct Clock(Arc<AtomicU64>);

impl Clock {
    /// A clock that stands still at the time of the system's clock.
    pub fn new() -> Clock {
        Clock::at(crate::now().unwrap_or(0))
    }

    /// A clock that stands still at this time.
    pub fn at(seconds: u64) -> Clock {
        Clock(Arc::new(AtomicU64::new(seconds)))
    }

    /// Its time.
    pub fn now(&self) -> u64 {
        self.0.load(Ordering::Acquire)
    }

    /// Sets it.
    pub fn set(&self, seconds: u64) {
        self.0.store(seconds, Ordering::Release);
    }

    /// Lets it go ahead.
    pub fn advance(&self, seconds: u64) {
        self.0.fetch_add(seconds, Ordering::AcqRel);
    }

    /// What reads it, for [`Options::clock`](crate::Options::clock) and [`MemoryStore::clock`](super::MemoryStore::clock).
    pub fn reader(&self) -> impl Fn() -> u64 + Send + Sync + 'static {
        let clock = self.clone();
        move || clock.now()
    }
}

impl Default for Clock {
    fn default() -> Clock {
        Clock::new()
    }
}
