//! A store in memory.

use std::collections::HashMap;
use std::fmt;
use std::sync::{Mutex, PoisonError};

use crate::ffi;
use crate::record::TokenKey;
use crate::store::{Claim, Found, Store, StoreError, WITHDRAWN};

/// A store in the memory of one process.
///
/// ```
/// use svid::testing::MemoryStore;
/// use svid::{Claim, Store, TokenKey};
///
/// let (store, key) = (MemoryStore::new(), TokenKey([7; 32]));
/// let claims = [[1; 32], [2; 32]].map(|owner| Claim { key, owner, expires: 4_102_444_800 });
/// let found = store.put(&claims)?;
/// assert_eq!((found[0].owner, found[1].owner), ([1; 32], [1; 32]));
/// # Ok::<(), svid::StoreError>(())
/// ```
pub struct MemoryStore {
    clock: Box<dyn Fn() -> u64 + Send + Sync>,
    margin: u64,
    lasts: u64,
    held: Mutex<Held>,
}

#[derive(Default)]
struct Held {
    /// The owner of each key, and until when it has it.
    entries: HashMap<TokenKey, ([u8; 32], u64)>,
    withdrawn: Vec<(TokenKey, u64)>,
    losses: u64,
    deaf: u64,
}

impl MemoryStore {
    /// An empty store, by the clock of the system. It keeps an entry for 60 seconds after its token has expired.
    pub fn new() -> MemoryStore {
        MemoryStore { clock: Box::new(|| crate::now().unwrap_or(0)), margin: 60, lasts: 3600, held: Mutex::default() }
    }

    /// Gives it another clock, in seconds since 1970.
    #[must_use]
    pub fn clock(mut self, clock: impl Fn() -> u64 + Send + Sync + 'static) -> MemoryStore {
        self.clock = Box::new(clock);
        self
    }

    /// For how many seconds an entry stays after its token has expired.
    #[must_use]
    pub fn margin(mut self, seconds: u64) -> MemoryStore {
        self.margin = seconds;
        self
    }

    /// How many seconds a token may live that is claimed. Without it, 3,600.
    #[must_use]
    pub fn lasts(mut self, seconds: u64) -> MemoryStore {
        self.lasts = seconds;
        self
    }

    /// Loses all entries, as a server does that crashes.
    pub fn lose(&self) {
        let (mut held, time) = (self.held(), (self.clock)());
        held.entries.clear();
        held.withdrawn.clear();
        held.losses += 1;
        // SAFETY: the call takes numbers alone.
        held.deaf = unsafe { ffi::svid_claim_deaf(time, self.lasts, held.deaf) };
    }

    fn held(&self) -> std::sync::MutexGuard<'_, Held> {
        self.held.lock().unwrap_or_else(PoisonError::into_inner)
    }

    fn until(&self, expires: u64) -> u64 {
        // SAFETY: the call takes numbers alone.
        unsafe { ffi::svid_claim_until(expires, self.margin) }
    }
}

impl Store for MemoryStore {
    fn put(&self, claims: &[Claim]) -> Result<Vec<Found>, StoreError> {
        let (mut held, time, mut found) = (self.held(), (self.clock)(), Vec::new());
        held.entries.try_reserve(claims.len())?;
        found.try_reserve_exact(claims.len())?;
        for claim in claims {
            let entry = held.entries.entry(claim.key).or_insert((claim.owner, 0));
            if entry.1 <= time {
                *entry = (claim.owner, self.until(claim.expires));
            }
            let owner = entry.0;
            found.push(Found { owner, time, deaf: held.deaf });
        }
        Ok(found)
    }

    fn withdraw(&self, key: TokenKey, expires: u64) -> Result<(), StoreError> {
        let mut held = self.held();
        held.entries.try_reserve(1)?;
        held.withdrawn.try_reserve(1)?;
        held.withdrawn.push((key, expires));
        let entry = held.entries.entry(key).or_insert((WITHDRAWN, 0));
        *entry = (WITHDRAWN, entry.1.max(self.until(expires)));
        Ok(())
    }

    fn withdrawals(&self, after: &str) -> Result<(Vec<(TokenKey, u64)>, String), StoreError> {
        let held = self.held();
        let known = after.strip_prefix(&format!("{}.", held.losses)).and_then(|it| it.parse().ok());
        let from = known.filter(|from| *from <= held.withdrawn.len()).unwrap_or(0);
        let last = format!("{}.{}", held.losses, held.withdrawn.len());
        Ok((held.withdrawn[from..].to_vec(), last))
    }
}

impl Default for MemoryStore {
    fn default() -> MemoryStore {
        MemoryStore::new()
    }
}

impl fmt::Debug for MemoryStore {
    fn fmt(&self, f: &mut fmt::Formatter<'_>) -> fmt::Result {
        f.debug_struct("MemoryStore").field("entries", &self.held().entries.len()).finish_non_exhaustive()
    }
}
