//! When a store's withdrawals were read, and who waits until they are read again.

use std::sync::{Condvar, Mutex, MutexGuard, PoisonError};
use std::time::Duration;

use crate::moment::Moment;

// lists:begin looks (written by tools/lists from lists/postgres.toml)
pub const MOST_UNLOOKED: u64 = 7_000;
// lists:end
/// How long after the withdrawals were read they are read again.
const EVERY: Duration = Duration::from_secs(1);

/// The looks at a store's withdrawals. One thread makes them, one after the other. It makes one a second, so that the last one is old only where the
/// process was stopped, or the machine suspended: tokens may have been withdrawn meanwhile.
pub(crate) struct Looks {
    state: Mutex<State>,
    changes: Condvar,
}

struct State {
    /// How many calls of the store have begun, and when the last one did.
    begun: u64,
    began: Option<Moment>,
    /// The last one that has read all, or failed, and when it began.
    over: u64,
    looked: Option<Moment>,
    /// The last one that a request waits for.
    wanted: u64,
    every: Duration,
    is_closing: bool,
}

impl State {
    fn is_due(&self, now: &Moment) -> bool {
        self.looked.map_or(false, |it| is_old(it, now))
    }
}

/// Whether a look that began then was too long ago.
fn is_old(begun: Moment, now: &Moment) -> bool {
    begun.is_older_than(Duration::from_millis(MOST_UNLOOKED), now)
}

impl Looks {
    pub fn new() -> Looks {
        let state = State { begun: 0, began: None, over: 0, looked: None, wanted: 0, every: EVERY, is_closing: false };
        Looks { state: Mutex::new(state), changes: Condvar::new() }
    }

    /// A call of the store begins.
    pub fn begin(&self, now: Moment) {
        let mut state = self.state();
        state.begun += 1;
        state.began = Some(now);
    }

    /// The last call has read all that there was, or has failed.
    pub fn end(&self) {
        let mut state = self.state();
        state.over = state.begun;
        state.looked = state.began;
        self.changes.notify_all();
    }

    /// Waits until the next look is due, or a request waits for it. False at the end.
    pub fn pause(&self) -> bool {
        let state = self.state();
        let every = state.every;
        let waits = self.changes.wait_timeout_while(state, every, |it| !it.is_closing && it.wanted <= it.begun);
        !waits.unwrap_or_else(PoisonError::into_inner).0.is_closing
    }

    /// Waits for a look, where one is due for a token that comes now, but at most so long. What the store was asked before the process was stopped
    /// does not count.
    pub fn wait(&self, now: Moment, most: Duration) {
        let mut state = self.state();
        if !state.is_due(&now) {
            return;
        }
        let one = state.begun + u64::from(state.began.map_or(false, |it| is_old(it, &now)));
        if state.wanted < one {
            state.wanted = one;
            self.changes.notify_all();
        }
        let waits = self.changes.wait_timeout_while(state, most, |it| it.over < one && !it.is_closing);
        let mut state = waits.unwrap_or_else(PoisonError::into_inner).0;
        if state.is_due(&now) {
            // (who comes next does not wait for a store that hangs)
            state.looked = Some(now);
        }
    }

    /// Nobody looks any more, and nobody waits for that.
    pub fn close(&self) {
        self.state().is_closing = true;
        self.changes.notify_all();
    }

    /// Lets the next look begin now, and no other one by itself.
    #[cfg(test)]
    pub fn rest(&self) {
        self.state().every = Duration::from_secs(100_000);
        self.wake();
    }

    /// Whether nobody waits for a look, and none is made.
    #[cfg(test)]
    pub fn is_at_rest(&self) -> bool {
        let state = self.state();
        state.over == state.begun && state.wanted <= state.over
    }

    /// Lets the next look begin now.
    #[cfg(test)]
    pub fn wake(&self) {
        let mut state = self.state();
        state.wanted = state.begun + 1;
        self.changes.notify_all();
    }

    /// Whether a request waits for a look that has not begun.
    #[cfg(test)]
    pub fn is_wanted(&self) -> bool {
        let state = self.state();
        state.wanted > state.begun
    }

    fn state(&self) -> MutexGuard<'_, State> {
        self.state.lock().unwrap_or_else(PoisonError::into_inner)
    }
}
