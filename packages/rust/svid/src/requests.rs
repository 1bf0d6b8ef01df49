//! The requests of a guard, and their answers.
//!
//! The C library decides (svid.h, "A member"). Here stand the locks, the clocks, and what the threads of requests do that the library says is to
//! be done.

#[cfg(test)]
mod tests;

use std::fmt;
use std::sync::{Arc, Mutex, MutexGuard, PoisonError, Weak};
use std::thread;
use std::time::Duration;

use crate::bundles::Bundles;
use crate::claims::{Claims, Clock, Due};
use crate::error::Error;
use crate::ffi;
use crate::handle::{Core, Step};
use crate::journal::{Journal, JournalError};
use crate::moment::Moment;
use crate::open_token::OpenToken;
use crate::options::{HearsTwice, Mode, Now, Options, Refuses, Warns};
use crate::paths::Paths;
use crate::record::{Accepted, TokenKey, Use, ValidatorId};
use crate::store::{Claim, Found, StoreError};
use crate::twice::Twice;
use crate::unavailable::Unavailable;
use crate::verify::Verify;

/// What all threads share that answer requests.
pub(crate) struct Requests {
    core: Mutex<Core>,
    now: Arc<Now>,
    clock: Clock,
    own: Vec<String>,
    paths: Paths,
    wait: Duration,
    longest: u64,
    life: [u8; 16],
    is_bound: bool,
    /// The status whose word a client hears where its time is over.
    late: u32,
    pub(crate) claims: Option<Arc<Claims>>,
    warns: Arc<Warns>,
    refuses: Arc<Refuses>,
    twice: Arc<HearsTwice>,
    /// What the disk did not take last: the number of the request, and its use as a message.
    unkept: Mutex<Option<(u64, [u8; ffi::BATCH_OF_LEN])>>,
}

impl Requests {
    /// Opens a validator and its member, which judges no token before `begin`.
    pub fn open(options: &Options, has_disk: bool) -> Result<Arc<Requests>, Error> {
        options.fit()?;
        let paths = options.paths()?;
        let mut core = Core::open(options)?;
        let (mode, store, clock) = (options.mode, &options.store, Clock::new());
        let late = match (mode.has_claims(), has_disk) {
            (true, _) => ffi::CLAIM_FAR,
            (false, true) => ffi::NOT_KEPT,
            (false, false) => ffi::LATE,
        };
        let life = match store {
            Some(_) => ValidatorId::random().map_err(|_| Error::NoRandom)?.0,
            None => [0; 16],
        };
        core.open_member(&ffi::MemberTerms {
            mode: mode.number(),
            disk: has_disk.into(),
            store: store.is_some().into(),
            log: 0,
            wait: u64::try_from(options.wait.as_millis()).unwrap_or(u64::MAX).min(1 << 63),
            ahead: options.ahead,
            lasts: options.lasts(),
            life,
        })?;
        if let Some(rules) = options.rules()? {
            core.rules(&rules.own, &rules.callers)?;
        }
        Ok(Arc::new(Requests {
            core: Mutex::new(core),
            now: Arc::clone(&options.now),
            clock,
            own: options.own_audiences().to_vec(),
            paths,
            wait: options.wait,
            longest: options.longest,
            life,
            is_bound: mode == Mode::Bound,
            late,
            claims: store.as_ref().map(|store| Claims::new(Arc::clone(store), clock, mode != Mode::Strict)),
            warns: Arc::clone(&options.warns),
            refuses: Arc::clone(&options.refuses),
            twice: Arc::clone(&options.twice),
            unkept: Mutex::new(None),
        }))
    }

    /// The record is read: tokens are judged from now on, or once the store is there.
    pub fn begin(self: &Arc<Requests>) -> Result<(), Error> {
        self.know(0, false)?;
        self.claims.as_ref().map_or(Ok(()), |claims| claims.begin(&Arc::downgrade(self), self.wait))
    }

    /// Ends the threads that put claims.
    pub fn close(&self) {
        if let Some(claims) = &self.claims {
            claims.close();
        }
    }

    pub fn is_bound(&self) -> bool {
        self.is_bound
    }

    /// The record and its member. No thread waits for anything with it in its hands.
    pub fn core(&self) -> MutexGuard<'_, Core> {
        self.core.lock().unwrap_or_else(PoisonError::into_inner)
    }

    /// The time, in seconds since 1970.
    pub fn now(&self) -> Result<u64, Error> {
        (self.now)()
    }

    /// The time by both clocks.
    pub fn moment(&self) -> Result<Moment, Error> {
        self.now().map(Moment::of)
    }

    /// Waits until the store's withdrawals are read, where nobody has looked for long, but leaves a part of the time of a request.
    fn look(&self) -> Result<(), Error> {
        if let Some(claims) = &self.claims {
            claims.looks.wait(self.moment()?, self.wait / 4 * 3);
        }
        Ok(())
    }

    /// Whether a path needs no token.
    pub fn is_open(&self, path: &str) -> bool {
        self.paths.has(path)
    }

    /// Answers a token, and tells who hears of that why it is not accepted.
    pub fn check(
        self: &Arc<Requests>,
        text: &[u8],
        caller: [u8; 32],
        verifier: &(impl Verify + ?Sized),
        journal: Option<&Journal>,
    ) -> Result<Accepted, Error> {
        self.told(self.answer(text, caller, verifier, journal))
    }

    /// This answer. Who hears why a token is not accepted hears of it.
    pub fn told<T>(&self, answer: Result<T, Error>) -> Result<T, Error> {
        if let Err(why) = &answer {
            // (who hears of it must not let the request panic)
            let _ = std::panic::catch_unwind(std::panic::AssertUnwindSafe(|| (self.refuses)(why)));
        }
        answer
    }

    fn answer(
        self: &Arc<Requests>,
        text: &[u8],
        caller: [u8; 32],
        verifier: &(impl Verify + ?Sized),
        journal: Option<&Journal>,
    ) -> Result<Accepted, Error> {
        let mut token = self.read(text)?;
        let (number, len) = {
            let mut core = self.core();
            (core.come(self.clock.up(), caller)?, core.keys_of(&mut token))
        };
        let mut request = Request { requests: self, number, token, subject: None, is_over: false };
        self.look()?;
        request.token.look(len?, verifier)?;
        let mut step = request.ask(None, verifier)?;
        loop {
            step = match step {
                None => Some(self.next(number)?),
                Some(Step::Found(found)) => request.ask(Some(&found), verifier)?,
                Some(Step::Deed(deed)) => match (deed.what, journal, &self.claims) {
                    (ffi::DEED_JUDGE, ..) => request.ask(None, verifier)?,
                    (ffi::DEED_APPEND, Some(journal), _) => {
                        self.keep(journal, number, &deed.used)?;
                        None
                    }
                    (ffi::DEED_CLAIM, _, Some(claims)) => {
                        claims.add(Due { number, used: deed.used })?;
                        None
                    }
                    (ffi::DEED_ANSWER, ..) => {
                        request.is_over = true;
                        return request.answered(&deed);
                    }
                    _ => return Err(Error::unexpected(ffi::OK)),
                },
            };
        }
    }

    /// Says what a check would, and adds nothing.
    pub fn judge(&self, text: &[u8], verifier: &(impl Verify + ?Sized)) -> Result<Accepted, Error> {
        let mut token = self.read(text)?;
        self.look()?;
        loop {
            let len = self.core().keys_of(&mut token)?;
            token.look(len, verifier)?;
            let now = self.now()?;
            let mut core = self.core();
            if core.has_asked(&token) {
                return core.judge_read(now, &mut token);
            }
        }
    }

    /// Takes messages, and tells of the tokens that they show to be accepted twice.
    pub fn take(&self, messages: &[u8]) -> Result<(), Error> {
        let now = self.now()?;
        let twice = {
            let mut core = self.core();
            let twice = Twice::look(&mut core, messages)?;
            core.take(now, messages)?;
            twice
        };
        for key in twice.news()? {
            // (who hears of it must not let the call panic)
            let _ = std::panic::catch_unwind(std::panic::AssertUnwindSafe(|| (self.twice)(key)));
        }
        Ok(())
    }

    /// Withdraws a token, everywhere.
    pub fn withdraw(self: &Arc<Requests>, key: TokenKey, expires: u64, journal: Option<&Journal>) -> Result<Use, Error> {
        let now = self.now()?;
        let (used, number) = {
            let mut core = self.core();
            let used = core.withdraw(now, key, expires)?;
            (used, core.withdrawal_comes(self.clock.up())?)
        };
        let left = Withdrawal { requests: self, number };
        let told = |keeper| Report { to: Arc::downgrade(self), about: About::Withdrawal { number, keeper } };
        told(ffi::AT_LOG).tell(&Ok(()));
        match &self.claims {
            Some(claims) => claims.withdraw(key, expires, told(ffi::AT_STORE)),
            None => told(ffi::AT_STORE).tell(&Ok(())),
        }
        match journal {
            Some(journal) => journal.keep(&used.message()?, told(ffi::AT_DISK)),
            None => told(ffi::AT_DISK).tell(&Ok(())),
        }
        let ended = loop {
            let ended = self.core().withdrawal_ended(number);
            match ended {
                Some(ended) => break ended,
                None => self.pause()?,
            }
        };
        drop(left);
        match [ended.disk, ended.store, ended.log].contains(&ffi::MAY_LACK) {
            true => Err(Error::Unavailable(Unavailable::MAY_LACK)),
            false => Ok(used),
        }
    }

    /// The first reason why the validator is to get no tokens.
    pub fn unready(self: &Arc<Requests>, journal: Option<&Journal>) -> Option<Error> {
        let now = match self.now() {
            Ok(now) => now,
            Err(why) => return Some(why),
        };
        let ticked = self.core().tick(now);
        let known = match ticked {
            Ok(()) => self.know(now, false),
            Err(Error::Jump) => self.know(now, true),
            Err(why) => Err(why),
        };
        if let Some(journal) = journal {
            self.keep_again(journal);
        }
        known.and_then(|()| self.core().ready()).err()
    }

    /// Tells an operator something.
    pub fn warn(&self, what: &dyn fmt::Display) {
        // (who is warned must not end a thread of the guard)
        let _ = std::panic::catch_unwind(std::panic::AssertUnwindSafe(|| (self.warns)(what)));
    }

    /// Takes these trust bundles from now on. Without some of them no token has an answer.
    pub fn exchange(&self, mut bundles: Bundles, is_some: bool, mut named: Vec<String>) -> Result<(), Error> {
        // (no request comes in between, and the old ones are freed at the end, with no lock held)
        let mut core = self.core();
        core.renew(&mut bundles, is_some, &mut named)?;
        core.know_bundles()
    }

    // -- For the claims

    /// The claim of a request, if it is to go out now.
    pub fn send(&self, due: &Due) -> Option<Claim> {
        let caller = self.core().send(self.clock.up(), due.number).ok()??;
        let (mut owner, expires) = ([0; 32], due.used.exp);
        // SAFETY: each input is an array of the length that the call reads, and the owner is another one, which it writes.
        unsafe {
            match self.is_bound {
                true => ffi::svid_claim_owner_of_caller(&caller, expires, &mut owner),
                false => ffi::svid_claim_owner(&due.used.validator_id, &self.life, expires, &mut owner),
            }
        }
        Some(Claim { key: TokenKey(due.used.key), owner, expires })
    }

    /// The store has answered the claim of a request.
    pub fn found(&self, number: u64, found: &Found) {
        self.core().found(number, ffi::Found { time: found.time, deaf: found.deaf, owner: found.owner });
    }

    /// Takes a withdrawal that the store got. One of a token that has expired is over.
    pub fn hears(&self, key: TokenKey, expires: u64) -> Result<(), Error> {
        let now = self.now()?;
        match self.core().withdraw(now, key, expires) {
            Ok(_) | Err(Error::Gone) => Ok(()),
            Err(why) => Err(why),
        }
    }

    /// The store is there, or its withdrawals are read.
    pub fn reached(&self) {
        if let Err(why) = self.know(0, false) {
            self.warn(&why);
        }
    }

    // -- The way of a request

    /// Reads a token. What is none advances the record too.
    fn read<'t>(&self, text: &'t [u8]) -> Result<OpenToken<'t>, Error> {
        OpenToken::read(text, &self.own).or_else(|why| {
            let now = self.now()?;
            self.core().tick(now)?;
            Err(why)
        })
    }

    /// Waits for the next step of a request.
    fn next(&self, number: u64) -> Result<Step, Error> {
        loop {
            let step = self.core().step(self.clock.up(), number)?;
            match step {
                Some(step) => return Ok(step),
                None => self.pause()?,
            }
        }
    }

    /// Waits until this thread is called, or something is due, which is answered then.
    fn pause(&self) -> Result<(), Error> {
        let at = self.core().due()?;
        if at == ffi::NO_NUMBER {
            thread::park();
            return Ok(());
        }
        match at.saturating_sub(self.clock.up()) {
            0 => self.core().overdue(self.clock.up()),
            pause => {
                thread::park_timeout(Duration::from_millis(pause));
                Ok(())
            }
        }
    }

    /// Brings a use to the disk.
    fn keep(self: &Arc<Requests>, journal: &Journal, number: u64, used: &ffi::Use) -> Result<(), Error> {
        let message = Use::of(used, false).message()?;
        self.core().writes(number, true);
        journal.keep(&message, Report { to: Arc::downgrade(self), about: About::Use { number, message } });
        Ok(())
    }

    /// Tries again to keep the last use that the disk did not take.
    fn keep_again(self: &Arc<Requests>, journal: &Journal) {
        let unkept = self.unkept.lock().unwrap_or_else(PoisonError::into_inner).take();
        if let Some((number, message)) = unkept {
            journal.keep(&message, Report { to: Arc::downgrade(self), about: About::Use { number, message } });
        }
    }

    /// Tells the library what the validator has.
    fn know(&self, now: u64, has_jumped: bool) -> Result<(), Error> {
        let store = self.claims.as_ref().map(|claims| claims.look(self.wait));
        let lives = u128::from(now) + u128::from(self.longest);
        self.core().know(&ffi::Known {
            loaded: 1,
            opened: store.as_ref().map_or(true, |it| it.is_there).into(),
            heard: store.as_ref().map_or(true, |it| it.is_heard).into(),
            joined: 1,
            caught_up: 1,
            jumped: has_jumped.into(),
            away: store.as_ref().map_or(false, |it| it.is_away).into(),
            deaf: store.as_ref().map_or(false, |it| u128::from(it.deaf) >= lives).into(),
            ..ffi::Known::default()
        })
    }
}

// What a thread leaves that panics is whole: each call of the library is, and so is what stands beside it.
impl std::panic::UnwindSafe for Requests {}
impl std::panic::RefUnwindSafe for Requests {}

impl fmt::Debug for Requests {
    fn fmt(&self, f: &mut fmt::Formatter<'_>) -> fmt::Result {
        f.debug_struct("Requests").field("core", &self.core).field("wait", &self.wait).finish_non_exhaustive()
    }
}

/// A token on its way to an answer.
struct Request<'a, 't> {
    requests: &'a Requests,
    number: u64,
    token: OpenToken<'t>,
    subject: Option<String>,
    is_over: bool,
}

impl Request<'_, '_> {
    /// Lets the library judge the token, with what the store has found, if it has. Gives the next step, if that is known.
    fn ask(&mut self, found: Option<&ffi::Found>, verifier: &(impl Verify + ?Sized)) -> Result<Option<Step>, Error> {
        loop {
            // (the time of a clock is read without the lock)
            let now = self.requests.now()?;
            let mut core = self.requests.core();
            if core.has_asked(&self.token) {
                let up = self.requests.clock.up();
                let subject = core.judge_request(now, up, self.number, &mut self.token, found)?;
                self.subject = subject.or_else(|| self.subject.take());
                let step = core.step(up, self.number);
                self.is_over = matches!(step, Ok(Some(Step::Deed(deed))) if deed.what == ffi::DEED_ANSWER);
                return step;
            }
            let len = core.keys_of(&mut self.token)?;
            drop(core);
            self.token.look(len, verifier)?;
        }
    }

    /// What an answer says.
    fn answered(&mut self, deed: &ffi::Deed) -> Result<Accepted, Error> {
        let why = match (deed.status(), self.subject.take()) {
            (ffi::OK, Some(subject)) => return Ok(Accepted::new(subject, Use::of(&deed.used, false), self.token.says.take())),
            (ffi::LATE, _) => Error::Unavailable(Unavailable::late(self.requests.late)),
            (ffi::NO_BUNDLE, _) => Error::Unavailable(Unavailable::NO_BUNDLE),
            (status, _) => Error::of(status, &ffi::Told::default()),
        };
        Err(self.token.why(why))
    }
}

impl Drop for Request<'_, '_> {
    /// Nobody waits for the answer any more.
    fn drop(&mut self) {
        if !self.is_over {
            // (whatever fails here, nobody is left to be told)
            let _ = self.requests.core().leave(self.requests.clock.up(), self.number);
        }
    }
}

/// A withdrawal that somebody waits for.
struct Withdrawal<'a> {
    requests: &'a Requests,
    number: u64,
}

impl Drop for Withdrawal<'_> {
    fn drop(&mut self) {
        self.requests.core().leave_withdrawal(self.number);
    }
}

/// Tells a request or a withdrawal that a keeper has its entry, or may not have it.
#[derive(Clone)]
pub(crate) struct Report {
    to: Weak<Requests>,
    about: About,
}

#[derive(Clone, Copy)]
enum About {
    Use { number: u64, message: [u8; ffi::BATCH_OF_LEN] },
    Withdrawal { number: u64, keeper: u64 },
}

impl Report {
    /// How a write to the state folder went.
    pub fn tell(self, ended: &Result<(), JournalError>) {
        let requests = match self.to.upgrade() {
            Some(requests) => requests,
            None => return,
        };
        if let Err(why) = ended {
            requests.warn(&format_args!("the state folder did not keep an entry: {why}"));
        }
        let (up, mut core) = (requests.clock.up(), requests.core());
        let told = match self.about {
            About::Use { number, message } => {
                core.writes(number, false);
                let unkept = if ended.is_ok() { None } else { Some((number, message)) };
                *requests.unkept.lock().unwrap_or_else(PoisonError::into_inner) = unkept;
                core.wrote(up, number, ended.is_ok())
            }
            About::Withdrawal { number, keeper } => core.withdrawal_told(number, keeper, ended.is_ok()),
        };
        drop(core);
        if let Err(why) = told {
            requests.warn(&why);
        }
    }

    /// How a withdrawal at the store went.
    pub fn tell_of_store(self, ended: Result<(), StoreError>) {
        let (requests, number, keeper) = match (self.to.upgrade(), self.about) {
            (Some(requests), About::Withdrawal { number, keeper }) => (requests, number, keeper),
            _ => return,
        };
        if let Err(why) = &ended {
            requests.warn(&format_args!("the group's store did not take a withdrawal: {why}"));
        }
        let told = requests.core().withdrawal_told(number, keeper, ended.is_ok());
        if let Err(why) = told {
            requests.warn(&why);
        }
    }
}
