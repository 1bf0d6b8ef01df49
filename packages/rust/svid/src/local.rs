//! The claims of a guard that is alone, in a folder: mode bound without a store.
//!
//! The folder is a state folder, of the form of that of svidd in this mode: an entry is two uses. Each has a half of the owner as its validator
//! ID, and that of the second half is a withdrawal. A folder that is removed, or put back from an older copy, has lost claims, and nothing tells
//! that.

#[cfg(test)]
mod tests;

use std::collections::HashMap;
use std::fmt;
use std::path::Path;
use std::sync::{Arc, Mutex, MutexGuard, PoisonError};
use std::thread;
use std::time::{Duration, Instant};

use crate::error::Error;
use crate::ffi::{self, Entry, Part, Told};
use crate::journal::{Journal, JournalError};
use crate::options::{Now, Options, Warns};
use crate::record::TokenKey;
use crate::store::{Claim, Found, Store, StoreError, WITHDRAWN};
use crate::twice;

const HALF: usize = WITHDRAWN.len() / 2;
const MINUTE: u64 = 60;
/// How many seconds the clock may step back, and the least margin beside that (svidd has the same).
const STEP_BACK: u64 = 60;
const LEAST_MARGIN: u64 = 60;
// These keys stand for what the store says of itself. No token has one of them, as they are no digest that anybody knows a text of.
/// Its use tells a time that the clock had.
const TIME: TokenKey = TokenKey([0; 32]);
/// Its use expires when the store's deafness ends.
const DEAF: TokenKey = {
    let mut key = [0; 32];
    key[31] = 1;
    TokenKey(key)
};

/// A store of one guard.
pub(crate) struct LocalStore {
    journal: Mutex<Option<Arc<Journal>>>,
    held: Mutex<Held>,
    lasts: u64,
    margin: u64,
    wait: Duration,
    now: Arc<Now>,
    warns: Arc<Warns>,
}

#[derive(Default)]
struct Held {
    entries: HashMap<TokenKey, Kept>,
    /// Of the last time that what is over was dropped.
    minute: Option<u64>,
    /// The greatest time that the clock had.
    latest: u64,
    deaf: u64,
}

/// It is kept once the disk has it.
#[derive(Clone, Copy)]
struct Kept {
    owner: [u8; 32],
    at: u64,
    until: u64,
    is_kept: bool,
}

impl LocalStore {
    /// Opens the folder, and reads it.
    pub fn open(folder: &Path, options: &Options) -> Result<Arc<LocalStore>, JournalError> {
        let (mut journal, mut held) = (Journal::open(folder)?, Held::default());
        journal.load(|messages| held.take(messages)).map_err(JournalError::Guard)?;
        Ok(Arc::new(LocalStore {
            journal: Mutex::new(Some(Arc::new(journal))),
            held: Mutex::new(held),
            lasts: options.lasts(),
            margin: options.ahead.max(LEAST_MARGIN).saturating_add(STEP_BACK),
            wait: options.wait,
            now: Arc::clone(&options.now),
            warns: Arc::clone(&options.warns),
        }))
    }

    /// Lets go of the folder, once no call has it in its hands.
    pub fn close(&self) {
        let journal = self.journal.lock().unwrap_or_else(PoisonError::into_inner).take();
        if let Some(journal) = journal {
            crate::waits_for("a call on the folder of claims", Instant::now() + crate::ENDING, || Arc::strong_count(&journal) == 1);
        }
    }

    fn held(&self) -> MutexGuard<'_, Held> {
        self.held.lock().unwrap_or_else(PoisonError::into_inner)
    }

    fn journal(&self) -> Option<Arc<Journal>> {
        self.journal.lock().unwrap_or_else(PoisonError::into_inner).clone()
    }

    /// Tells a time, for as long as an entry may live that was dropped by then.
    fn time(&self, now: u64) -> Entry {
        let exp = now.saturating_add(1).saturating_add(self.lasts).saturating_add(self.margin);
        Entry { exp, at: now, ..Entry::default() }
    }

    /// Replaces what the folder has by what is there now.
    fn snapshot(&self) -> Result<(), JournalError> {
        let (mut rest, mut begins) = (Vec::new(), true);
        let piece = |part: &mut Part, room: &mut [u8]| {
            if std::mem::take(&mut begins) {
                // (now, since those that were appended before must be among them)
                let held = self.held();
                rest.try_reserve_exact(2 * held.entries.len() + 2).map_err(|_| Error::NoMemory)?;
                rest.push(self.time(held.latest));
                if held.deaf > held.latest {
                    rest.push(Entry { exp: held.deaf, at: held.latest, key: DEAF.0, ..Entry::default() });
                }
                rest.extend(held.entries.iter().flat_map(|(key, it)| it.uses(*key)));
            }
            let count = rest.len().min(room.len() / ffi::BATCH_OF_LEN);
            let (these, mut told) = (rest.split_off(rest.len() - count), Told::default());
            // SAFETY: both are slices with their lengths, and nothing overlaps.
            let status = unsafe { ffi::svid_entries_write(these.as_ptr(), count, room.as_mut_ptr(), room.len(), &mut told) };
            part.done = rest.is_empty().into();
            if status == ffi::OK {
                Ok(told.len)
            } else {
                Err(Error::of(status, &told))
            }
        };
        self.journal().map_or(Ok(()), |journal| journal.snapshot(piece))
    }
}

impl Held {
    /// Takes messages of the folder.
    fn take(&mut self, messages: &[u8]) -> Result<(), Error> {
        let mut entries = Vec::new();
        twice::read(messages, &mut entries)?;
        for it in entries {
            self.latest = self.latest.max(it.at);
            let key = TokenKey(it.key);
            if key == DEAF {
                self.deaf = self.deaf.max(it.exp);
            } else if key != TIME {
                let one = Kept { owner: WITHDRAWN, at: it.at, until: it.exp, is_kept: true };
                let entry = self.entry(key, it.at, one)?;
                let from = if it.withdrawn == 0 { 0 } else { HALF };
                entry.owner[from..from + HALF].copy_from_slice(&it.validator_id);
            }
        }
        Ok(())
    }

    /// What stands under a key, or else this one. What is over by then leaves its key to the next one.
    fn entry(&mut self, key: TokenKey, now: u64, one: Kept) -> Result<&mut Kept, Error> {
        self.entries.try_reserve(1).map_err(|_| Error::NoMemory)?;
        let entry = self.entries.entry(key).or_insert(one);
        if entry.until <= now {
            *entry = one;
        }
        Ok(entry)
    }
}

impl Kept {
    /// The uses that tell it.
    fn uses(&self, key: TokenKey) -> [Entry; 2] {
        let mut both = [0, 1].map(|withdrawn| Entry { withdrawn, exp: self.until, at: self.at, key: key.0, validator_id: [0; HALF] });
        let (first, second) = self.owner.split_at(HALF);
        both[0].validator_id.copy_from_slice(first);
        both[1].validator_id.copy_from_slice(second);
        both
    }
}

// What a call leaves that panics is whole: what is not on the disk is put there again.
impl std::panic::UnwindSafe for LocalStore {}
impl std::panic::RefUnwindSafe for LocalStore {}

impl fmt::Debug for LocalStore {
    fn fmt(&self, f: &mut fmt::Formatter<'_>) -> fmt::Result {
        f.debug_struct("LocalStore").field("lasts", &self.lasts).field("margin", &self.margin).finish_non_exhaustive()
    }
}

/// The handle by which a thread can take a snapshot.
pub(crate) struct Local(pub Arc<LocalStore>);

impl Store for Local {
    fn put(&self, claims: &[Claim]) -> Result<Vec<Found>, StoreError> {
        let (store, now) = (&self.0, (self.0.now)()?);
        let (mut told, mut found, mut lacking) = (Vec::new(), Vec::new(), Vec::new());
        let is_due = {
            let mut held = store.held();
            if now.saturating_add(STEP_BACK) < held.latest {
                // (what was dropped may be live)
                // SAFETY: the call takes numbers alone.
                held.deaf = unsafe { ffi::svid_claim_deaf(held.latest, store.lasts, held.deaf) };
                held.latest = now;
                told.push(Entry { exp: held.deaf, at: now, key: DEAF.0, ..Entry::default() });
            }
            held.latest = held.latest.max(now);
            let deaf = held.deaf;
            for it in claims {
                // SAFETY: the call takes numbers alone.
                let until = unsafe { ffi::svid_claim_until(it.expires, store.margin) };
                let one = Kept { owner: it.owner, at: now, until, is_kept: until <= now };
                // (no message tells a use that is over; nobody accepts the token, so nothing need stay)
                let entry = *held.entry(it.key, now, one)?;
                found.push(Found { owner: entry.owner, time: now, deaf });
                if !entry.is_kept {
                    told.extend(entry.uses(it.key));
                    lacking.push(it.key);
                }
            }
            held.minute != Some(now / MINUTE)
        };
        if is_due {
            told.push(store.time(now));
        }
        let journal = store.journal().ok_or("the store of claims is closed")?;
        if !told.is_empty() {
            journal.append(&twice::written(&told)?, store.wait)?;
        }
        let mut held = store.held();
        for key in &lacking {
            held.entries.entry(*key).and_modify(|it| it.is_kept = true);
        }
        if is_due {
            held.minute = Some(now / MINUTE);
            held.entries.retain(|_, it| it.until > now);
        }
        drop(held);
        if journal.wants_snapshot() {
            let store = Arc::clone(store);
            let takes = move || {
                if let Err(why) = store.snapshot() {
                    (store.warns)(&format_args!("the folder of claims has no new snapshot: {why}"));
                }
            };
            thread::Builder::new().name("svid-snapshot".to_owned()).spawn(takes)?;
        }
        Ok(found)
    }

    /// What was claimed before, the record of the one guard knows to be withdrawn.
    fn withdraw(&self, key: TokenKey, expires: u64) -> Result<(), StoreError> {
        self.put(&[Claim { key, owner: WITHDRAWN, expires }]).map(|_| ())
    }
}
