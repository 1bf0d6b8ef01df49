//! Claims on their way to the store of a group. Threads of their own put them, many in a call.

use std::panic::{catch_unwind, AssertUnwindSafe};
use std::sync::{Arc, Condvar, Mutex, MutexGuard, PoisonError, Weak};
use std::thread;
use std::time::{Duration, Instant};

use crate::error::Error;
use crate::ffi::{self, Pacing};
use crate::looks::Looks;
use crate::record::TokenKey;
use crate::requests::{Report, Requests};
use crate::store::{Claim, Found, Store, StoreError};

/// How many claims share a call.
const MOST: usize = 256;
/// For how long a thread waits at once.
const LONGEST: Duration = Duration::from_secs(60);

/// A clock that only goes ahead, in milliseconds.
#[derive(Debug, Clone, Copy)]
pub(crate) struct Clock(Instant);

impl Clock {
    pub fn new() -> Clock {
        Clock(Instant::now())
    }

    pub fn up(&self) -> u64 {
        u64::try_from(self.0.elapsed().as_millis()).unwrap_or(u64::MAX)
    }
}

/// A claim that is due.
#[derive(Debug, Clone, Copy)]
pub(crate) struct Due {
    /// The number of the request that it is for.
    pub number: u64,
    pub used: ffi::Use,
}

/// The claims of a guard. The library says when a call to the store goes out.
pub(crate) struct Claims {
    store: Arc<dyn Store>,
    clock: Clock,
    gate: Mutex<Gate>,
    /// There are claims to put, or the end has come.
    comes: Condvar,
    /// The guard knows that the store is there, and that its withdrawals are read.
    announced: Condvar,
    /// The withdrawals of the store are read.
    hears: bool,
    /// When they were.
    pub looks: Looks,
}

struct Gate {
    waiting: Vec<Due>,
    /// Those without an answer, and when they are put again.
    later: Vec<(u64, Due)>,
    /// When the store is asked again if it is there, where it was not.
    asks_at: Option<u64>,
    pacing: Pacing,
    /// How many threads wait for claims.
    idle: usize,
    /// Whether the store is to say that it is there.
    asks: bool,
    /// Since when the store does not answer claims.
    silent: Option<Instant>,
    /// Since when its withdrawals are not read, or are being read.
    unheard: Option<Instant>,
    deaf: u64,
    is_there: bool,
    is_heard: bool,
    is_announced: bool,
    is_closing: bool,
}

/// What one call puts: the claims, and what they are for.
#[derive(Default)]
struct Batch {
    dues: Vec<Due>,
    claims: Vec<Claim>,
}

/// What is known of the store.
pub(crate) struct Known {
    pub is_there: bool,
    /// Its withdrawals were read to the end once, where they are to be.
    pub is_heard: bool,
    pub deaf: u64,
    /// It has not answered claims, or has told no withdrawals, for longer than a request waits.
    pub is_away: bool,
}

impl Claims {
    pub fn new(store: Arc<dyn Store>, clock: Clock, hears: bool) -> Arc<Claims> {
        let gate = Gate {
            waiting: Vec::new(),
            later: Vec::new(),
            asks_at: None,
            pacing: Pacing::FIRST,
            idle: 0,
            asks: true,
            silent: None,
            unheard: None,
            deaf: 0,
            is_there: false,
            is_heard: !hears,
            is_announced: false,
            is_closing: false,
        };
        let (gate, comes, announced) = (Mutex::new(gate), Condvar::new(), Condvar::new());
        Arc::new(Claims { store, clock, gate, comes, announced, hears, looks: Looks::new() })
    }

    /// Begins to put claims, and waits until the store answers, but at most for `wait`.
    pub fn begin(self: &Arc<Claims>, requests: &Weak<Requests>, wait: Duration) -> Result<(), Error> {
        self.grow(requests)?;
        if self.hears {
            let (claims, requests) = (Arc::clone(self), Weak::clone(requests));
            let made = thread::Builder::new().name("svid-withdrawals".to_owned()).spawn(move || claims.listen(&requests));
            made.map_err(|_| Error::NoMemory)?;
        }
        let waits = self.announced.wait_timeout_while(self.gate(), wait, |gate| !gate.is_announced || !gate.is_heard);
        drop(waits);
        Ok(())
    }

    /// Puts a claim, and again until the store answers or the claim is not to go out.
    pub fn add(&self, due: Due) -> Result<(), Error> {
        let mut gate = self.gate();
        gate.waiting.try_reserve(1).map_err(|_| Error::NoMemory)?;
        gate.waiting.push(due);
        self.comes.notify_one();
        Ok(())
    }

    /// Withdraws a token in the background, and tells how that went.
    pub fn withdraw(&self, key: TokenKey, expires: u64, report: Report) {
        let (store, other) = (Arc::clone(&self.store), report.clone());
        let work = move || {
            let done = catch_unwind(AssertUnwindSafe(|| store.withdraw(key, expires))).unwrap_or_else(|_| Err(panicked()));
            report.tell_of_store(done);
        };
        if let Err(why) = thread::Builder::new().name("svid-withdraw".to_owned()).spawn(work) {
            other.tell_of_store(Err(why.into()));
        }
    }

    /// What is known of the store. If it does not answer, it is asked again.
    pub fn look(&self, wait: Duration) -> Known {
        let mut gate = self.gate();
        if gate.silent.is_some() {
            gate.asks = true;
            self.comes.notify_one();
        }
        let is_away = gate.silent.iter().chain(&gate.unheard).any(|since| since.elapsed() > wait);
        Known { is_there: gate.is_there, is_heard: gate.is_heard, deaf: gate.deaf, is_away }
    }

    /// Lets the threads end. Waits for nothing, since the store may not answer.
    pub fn close(&self) {
        self.gate().is_closing = true;
        self.looks.close();
        self.comes.notify_all();
        self.announced.notify_all();
    }

    /// Reads the withdrawals of the store once a second, until the end.
    fn listen(&self, requests: &Weak<Requests>) {
        let (mut position, mut last) = (String::new(), String::new());
        while let Some(guard) = requests.upgrade() {
            // (neither the store nor the clock may end this thread)
            let read = catch_unwind(AssertUnwindSafe(|| self.hear(&guard, &mut position))).unwrap_or_else(|_| Err(panicked()));
            if read.is_ok() && !std::mem::replace(&mut self.gate().is_heard, true) {
                guard.reached();
                self.announced.notify_all();
            }
            let why = read.err().map_or_else(String::new, |why| why.to_string());
            if !why.is_empty() && why != last {
                guard.warn(&format_args!("the withdrawals of the group's store can't be read: {why}"));
            }
            last = why;
            drop(guard);
            self.looks.end();
            if !self.looks.pause() {
                return;
            }
        }
    }

    /// Reads the withdrawals that came after a position, which follows.
    fn hear(&self, guard: &Requests, position: &mut String) -> Result<(), StoreError> {
        while !self.gate().is_closing {
            self.gate().unheard.get_or_insert_with(Instant::now);
            self.looks.begin(guard.moment()?);
            let (withdrawn, last) = self.store.withdrawals(position)?;
            for (key, expires) in withdrawn {
                guard.hears(key, expires)?;
            }
            self.gate().unheard = None;
            if last == *position {
                break;
            }
            *position = last;
        }
        Ok(())
    }

    fn grow(self: &Arc<Claims>, requests: &Weak<Requests>) -> Result<(), Error> {
        let (claims, requests) = (Arc::clone(self), Weak::clone(requests));
        let made = thread::Builder::new().name("svid-claims".to_owned()).spawn(move || claims.work(&requests));
        made.map(drop).map_err(|_| Error::NoMemory)
    }

    /// Puts claims until the end. One thread more than calls are under way does so.
    fn work(self: &Arc<Claims>, requests: &Weak<Requests>) {
        let mut batch = Batch::default();
        while self.next(requests, &mut batch) {
            let put = catch_unwind(AssertUnwindSafe(|| self.store.put(&batch.claims))).unwrap_or_else(|_| Err(panicked()));
            match put {
                Ok(found) if found.len() == batch.dues.len() => self.answered(requests, &batch.dues, &found),
                Ok(found) => {
                    let why = format!("{} claims have {} answers", batch.dues.len(), found.len());
                    self.failed(requests, &batch.dues, &why.into());
                }
                Err(why) => self.failed(requests, &batch.dues, &why),
            }
        }
    }

    /// Waits for the claims of the next call, until it is to go out. False at the end.
    fn next(self: &Arc<Claims>, requests: &Weak<Requests>, batch: &mut Batch) -> bool {
        let mut gate = self.gate();
        gate.idle += 1;
        while !gate.is_closing && !self.take(&mut gate, requests, batch) {
            gate = match self.pause(&gate) {
                None => self.comes.wait(gate).unwrap_or_else(PoisonError::into_inner),
                Some(pause) => self.comes.wait_timeout(gate, pause).unwrap_or_else(PoisonError::into_inner).0,
            };
        }
        gate.idle -= 1;
        let (is_closing, is_last) = (gate.is_closing, gate.idle == 0);
        drop(gate);
        if !is_closing && is_last {
            // (where the system has no other thread, claims wait for this one)
            let _ = self.grow(requests);
        }
        !is_closing
    }

    /// Takes the claims that go out now. False if no call is to go out.
    fn take(&self, gate: &mut Gate, requests: &Weak<Requests>, batch: &mut Batch) -> bool {
        let moment = self.clock.up();
        let Gate { waiting, later, .. } = gate;
        if waiting.try_reserve(later.len()).is_ok() {
            later.retain(|(when, due)| {
                let is_over = *when <= moment;
                if is_over {
                    waiting.push(*due);
                }
                !is_over
            });
        }
        if gate.asks_at.map_or(false, |when| when <= moment) {
            gate.asks_at = None;
            gate.asks |= !gate.is_there;
        }
        let count = gate.waiting.len() as u64 + u64::from(gate.asks);
        // SAFETY: the pacing is lent to this call alone.
        if unsafe { ffi::svid_pacing_may_send(&gate.pacing, moment, count) } == 0 {
            return false;
        }
        batch.dues.clear();
        batch.claims.clear();
        let most = gate.waiting.len().min(MOST);
        if batch.dues.try_reserve(most).is_ok() && batch.claims.try_reserve(most).is_ok() {
            let requests = requests.upgrade();
            for due in gate.waiting.drain(..most) {
                if let Some(claim) = requests.as_ref().and_then(|it| it.send(&due)) {
                    batch.dues.push(due);
                    batch.claims.push(claim);
                }
            }
        }
        if batch.claims.is_empty() && !gate.asks {
            return false;
        }
        gate.asks = false;
        // SAFETY: the pacing is lent to this call alone.
        unsafe { ffi::svid_pacing_sent(&mut gate.pacing, moment) };
        gate.silent.get_or_insert_with(Instant::now);
        true
    }

    /// For how long nothing is to be done.
    fn pause(&self, gate: &Gate) -> Option<Duration> {
        let mut at = gate.later.iter().map(|it| it.0).chain(gate.asks_at).min();
        if !gate.waiting.is_empty() || gate.asks {
            // SAFETY: the pacing is lent to this call alone.
            let due = unsafe { ffi::svid_pacing_due(&gate.pacing) };
            at = Some(at.map_or(due, |it| it.min(due)));
        }
        // (where there is no memory for the claims that are due, a moment passes)
        at.map(|it| Duration::from_millis(it.saturating_sub(self.clock.up()).max(1)).min(LONGEST))
    }

    /// The store has answered a call.
    fn answered(&self, requests: &Weak<Requests>, dues: &[Due], found: &[Found]) {
        let mut gate = self.gate();
        // SAFETY: the pacing is lent to this call alone.
        unsafe { ffi::svid_pacing_answered(&mut gate.pacing) };
        gate.silent = None;
        gate.deaf = found.iter().map(|it| it.deaf).fold(gate.deaf, u64::max);
        gate.is_there = true;
        let is_announced = gate.is_announced;
        drop(gate);
        if let Some(requests) = requests.upgrade() {
            if !is_announced {
                requests.reached();
                self.gate().is_announced = true;
                self.announced.notify_all();
            }
            for (due, found) in dues.iter().zip(found) {
                requests.found(due.number, found);
            }
        }
    }

    /// A call has ended without an answer: its claims are put again.
    fn failed(&self, requests: &Weak<Requests>, dues: &[Due], why: &StoreError) {
        let mut gate = self.gate();
        // SAFETY: the pacing is lent to this call alone.
        let pause = unsafe { ffi::svid_pacing_unanswered(&mut gate.pacing) };
        let when = self.clock.up().saturating_add(pause);
        gate.asks_at = Some(gate.asks_at.map_or(when, |it| it.min(when)));
        // (without memory for them, their requests are late)
        if gate.later.try_reserve(dues.len()).is_ok() {
            gate.later.extend(dues.iter().map(|due| (when, *due)));
        }
        drop(gate);
        if pause == Pacing::FIRST.pause {
            // (it had answered before)
            if let Some(requests) = requests.upgrade() {
                requests.warn(&format_args!("the group's store does not answer: {why}"));
            }
        }
    }

    /// How many claims wait for a call.
    #[cfg(test)]
    pub fn waiting(&self) -> usize {
        self.gate().waiting.len()
    }

    /// Lets the library take it that so many calls are under way.
    #[cfg(test)]
    pub fn let_be_under_way(&self, calls: u64) {
        self.gate().pacing.calls = calls;
        self.comes.notify_one();
    }

    fn gate(&self) -> MutexGuard<'_, Gate> {
        self.gate.lock().unwrap_or_else(PoisonError::into_inner)
    }
}

impl std::fmt::Debug for Claims {
    fn fmt(&self, f: &mut std::fmt::Formatter<'_>) -> std::fmt::Result {
        f.debug_struct("Claims").finish_non_exhaustive()
    }
}

fn panicked() -> StoreError {
    "the call panicked".into()
}
