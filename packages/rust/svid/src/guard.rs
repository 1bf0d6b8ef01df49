//! What a service has: a validator that threads share.

use std::sync::{Arc, Mutex, PoisonError};
use std::thread::{self, JoinHandle};

use crate::bearer::{bearer_token, Denied};
use crate::caller::Caller;
use crate::error::{Error, OptionsFault};
use crate::ffi;
use crate::follower::Follower;
use crate::id::SpiffeId;
use crate::journal::{Journal, JournalError};
use crate::local::{Local, LocalStore};
use crate::options::{Mode, Options};
use crate::pattern::{Pattern, PatternError};
use crate::record::{Accepted, Size, TokenKey, Use, ValidatorId};
use crate::requests::Requests;
use crate::sources::Sources;
use crate::token::Said;
use crate::verify::Verify;

/// Checks JWT-SVIDs, and remembers which were used or withdrawn until they expire. This memory is its *record*. Any number of threads may share a
/// guard. Its lock is held for some microseconds: tokens are read and signatures are verified without it.
///
/// [`Options::mode`] says how often it accepts a token. [`Guard::with_journal`] keeps what it accepts over restarts and crashes. The C library
/// decides which request is answered, when, and what has to be on the disk or in the store before. A check blocks its thread until then, but at
/// most for [`Options::wait`].
///
/// Tokens are judged at the record's *moment*, the greatest time that it has seen, so a clock that is set back makes no expired token good. After
/// `fork`, only one of the two processes may go on with a guard.
///
/// ```
/// # #[cfg(feature = "testing")] {
/// use svid::{testing::Issuer, Guard, OpenSsl, Options};
///
/// let issuer = Issuer::new("example.org");
/// let guard = Guard::open(&Options::new(["ledger"]), issuer.bundles(), OpenSsl::new())?;
/// let header = format!("Bearer {}", issuer.token("/billing/api", "ledger"));
/// assert_eq!(guard.admit([&header]).unwrap().path(), "/billing/api");
///
/// let denied = guard.admit([&header]).unwrap_err();
/// assert_eq!(denied.status(), 401);
/// assert_eq!(denied.challenge(), Some(r#"Bearer error="invalid_token", error_description="Replayed""#));
/// # }
/// # Ok::<(), svid::Error>(())
/// ```
#[derive(Debug)]
pub struct Guard<V> {
    pub(crate) requests: Arc<Requests>,
    verifier: V,
    pub(crate) journal: Option<Arc<Journal>>,
    local: Option<Arc<LocalStore>>,
    snapshot: Mutex<Option<JoinHandle<()>>>, // the last thread that took one
    follower: Mutex<Option<Follower>>,
}

impl<V> Guard<V> {
    /// Opens a guard with an empty record, which follows these sources of trust bundles until it is dropped. It reads what can be read now. With a
    /// store it waits until that answers, but at most for [`Options::wait`].
    ///
    /// # Errors
    ///
    /// [`Error::Options`]; [`Error::Bundles`] and [`Error::TooMuch`] for bundles that never change; [`Error::NoMemory`]; and [`Error::NoRandom`]
    /// where the options have no validator ID.
    pub fn open(options: &Options, bundles: impl Into<Sources>, verifier: V) -> Result<Guard<V>, Error> {
        let requests = Requests::open(options, false)?;
        Guard { requests, verifier, journal: None, local: None, snapshot: Mutex::new(None), follower: Mutex::new(None) }
            .begun(bundles.into())
    }

    fn begun(self, bundles: Sources) -> Result<Guard<V>, Error> {
        self.follow(bundles)?;
        self.requests.begin().map(|()| self)
    }

    /// Opens a guard whose record is that of a state folder, and has its ID. No token that [`Guard::check`] accepted in mode
    /// [`Once`](crate::Mode::Once) is accepted again after a crash, a restart or a loss of power: the answer comes once the disk has the use. So
    /// does that of [`Guard::withdraw`] in each mode. In mode [`Bound`](crate::Mode::Bound) without a store, its folder `claims` has which caller used a
    /// token first, for this guard alone. What [`Guard::take`] got is kept from the next snapshot on. The guard takes snapshots by
    /// itself.
    ///
    /// To drop the guard waits for what is on its way to the disk, for some seconds at most. Until a disk that hangs answers, its folder stays held.
    ///
    /// # Errors
    ///
    /// [`JournalError::Guard`] with what [`Guard::open`] and [`Guard::take`] answer; and those of a write, as [`JournalError::Io`].
    ///
    /// ```
    /// # #[cfg(feature = "testing")] {
    /// # let issuer = svid::testing::Issuer::new("example.org");
    /// # let token = issuer.token("/billing/api", "ledger");
    /// # let folder = std::env::temp_dir().join(format!("svid-doc-guard-{}", std::process::id()));
    /// use svid::{Error, Guard, Journal, OpenSsl, Options, Refusal};
    ///
    /// let open = || Guard::with_journal(&Options::new(["ledger"]), issuer.bundles(), OpenSsl::new(), Journal::open(&folder)?);
    /// let guard = open()?;
    /// assert!(guard.check(&token).is_ok());
    /// drop(guard);
    /// assert_eq!(open()?.check(&token), Err(Error::Refused(Refusal::Replayed)));
    /// # std::fs::remove_dir_all(&folder)?;
    /// # }
    /// # Ok::<(), Box<dyn std::error::Error>>(())
    /// ```
    pub fn with_journal(
        options: &Options,
        bundles: impl Into<Sources>,
        verifier: V,
        mut journal: Journal,
    ) -> Result<Guard<V>, JournalError> {
        let mut options = options.clone().validator_id(journal.validator_id());
        let local = match (options.mode, &options.store) {
            (Mode::Bound, None) => Some(LocalStore::open(&journal.path("claims"), &options)?),
            _ => None,
        };
        if let Some(store) = &local {
            options = options.store(Arc::new(Local(Arc::clone(store))));
        }
        let requests = Requests::open(&options, true).map_err(JournalError::Guard)?;
        journal.load(|messages| requests.core().take(requests.now()?, messages)).map_err(JournalError::Guard)?;
        if journal.wants_snapshot() {
            journal.snapshot(|part, room| requests.core().piece(part, room))?;
        }
        let journal = Some(Arc::new(journal));
        let guard = Guard { requests, verifier, journal, local, snapshot: Mutex::new(None), follower: Mutex::new(None) };
        guard.begun(bundles.into()).map_err(JournalError::Guard)
    }

    /// Follows these sources of trust bundles from now on, and no others. The record stays. Until they can be read, the last good bundles stay of
    /// those trust domains that they name. No check waits while bundles are read.
    ///
    /// # Errors
    ///
    /// [`Error::Options`], [`Error::Bundles`], [`Error::TooMuch`], [`Error::NoMemory`]: the guard goes on with the sources before.
    pub fn follow(&self, sources: impl Into<Sources>) -> Result<(), Error> {
        let sources = sources.into();
        sources.check()?;
        let mut follower = self.follower.lock().unwrap_or_else(PoisonError::into_inner);
        Follower::begin(&self.requests, sources, &mut follower)
    }

    /// The ID of this guard among those that share its record: that of its state folder, if it has one.
    pub fn validator_id(&self) -> ValidatorId {
        self.requests.core().validator_id()
    }

    /// Takes messages of other guards, or a record that was saved: no token that they tell of is accepted here, if it was not accepted before.
    /// Taking a message twice, or in another order, makes no difference. [`Options::twice`] hears of a token that they show to be accepted twice.
    ///
    /// # Errors
    ///
    /// [`Error::TooFar`], [`Error::Messages`], [`Error::TooMuch`]: nothing was taken. [`Error::NoMemory`]: a part may be taken, and you can take
    /// the same messages again. [`Error::Jump`], [`Error::NoClock`].
    pub fn take(&self, messages: impl AsRef<[u8]>) -> Result<(), Error> {
        self.requests.take(messages.as_ref())
    }

    /// The whole record as messages, for other guards or to save it.
    ///
    /// # Errors
    ///
    /// [`Error::NoMemory`].
    pub fn tell(&self) -> Result<Vec<u8>, Error> {
        self.requests.core().tell()
    }

    /// The summary of the record: a message of the same length for all, for a guard that is to [`answer`](Guard::answer) what is missing here.
    ///
    /// # Errors
    ///
    /// [`Error::NoMemory`].
    pub fn summary(&self) -> Result<Vec<u8>, Error> {
        self.requests.core().summary()
    }

    /// Answers the summary of another guard: messages with the uses that it may lack. The record advances to the summary's moment.
    ///
    /// # Errors
    ///
    /// [`Error::NotSummary`], [`Error::TooFar`], [`Error::Messages`], [`Error::TooMuch`], [`Error::NoMemory`], [`Error::Jump`],
    /// [`Error::NoClock`].
    pub fn answer(&self, summary: impl AsRef<[u8]>) -> Result<Vec<u8>, Error> {
        let now = self.requests.now()?;
        self.requests.core().answer(now, summary.as_ref())
    }

    /// The record's moment, and how many uses it has. It looks at none of them.
    ///
    /// # Errors
    ///
    /// [`Error::Unexpected`].
    pub fn size(&self) -> Result<Size, Error> {
        self.requests.core().size()
    }

    /// Withdraws the token with this key, which expires at `expires`, here, in the state folder and in the store: it is refused as
    /// [`Withdrawn`](crate::Refusal::Withdrawn) from now on. [`Said::of`] has the key of a token. Where validators share no store, send the
    /// [`message`](Use::message) of the use to the others.
    ///
    /// # Errors
    ///
    /// [`Error::Unavailable`] if the state folder or the store may lack it: withdraw it again. [`Error::Gone`] if the token has expired;
    /// [`Error::Jump`], [`Error::NoMemory`], [`Error::NoClock`].
    pub fn withdraw(&self, key: TokenKey, expires: u64) -> Result<Use, Error> {
        let used = self.requests.withdraw(key, expires, self.journal.as_deref());
        self.tidy();
        used
    }

    /// The first reason why no tokens are to be sent to this guard, as [`Error::Unavailable`]; `None` if it is ready. Ask it for the readiness probe
    /// of the service. A look also asks a store again that does not answer, and tries to keep again what the state folder did not take.
    ///
    /// ```
    /// # let guard = svid::Guard::open(&svid::Options::new(["ledger"]), b"{}", ())?;
    /// assert_eq!(guard.unready(), None);
    /// # Ok::<(), svid::Error>(())
    /// ```
    pub fn unready(&self) -> Option<Error> {
        self.requests.unready(self.journal.as_deref())
    }

    /// Takes a snapshot in the background, if one is due.
    fn tidy(&self) {
        let journal = match &self.journal {
            Some(journal) if journal.wants_snapshot() => Arc::clone(journal),
            _ => return,
        };
        let mut last = match self.snapshot.try_lock() {
            Ok(last) => last,
            Err(_) => return,
        };
        if last.as_ref().map_or(false, |it| !it.is_finished()) {
            return;
        }
        let requests = Arc::clone(&self.requests);
        let takes = move || {
            if let Err(why) = journal.snapshot(|part, room| requests.core().piece(part, room)) {
                requests.warn(&format_args!("the state folder has no new snapshot: {why}"));
            }
        };
        match thread::Builder::new().name("svid-snapshot".to_owned()).spawn(takes) {
            Ok(thread) => *last = Some(thread),
            Err(why) => self.requests.warn(&format_args!("the state folder has no new snapshot: {why}")),
        }
    }
}

impl<V: Verify> Guard<V> {
    /// Accepts a token, as [`Options::mode`] says.
    ///
    /// # Errors
    ///
    /// [`Error::Refused`] by the first reason that holds. [`Error::NotAllowed`] for a good token of who may not call. [`Error::Unavailable`] if the
    /// state folder or the store fails, or takes longer than [`Options::wait`]; and before the bundle of its trust domain was read. [`Error::Jump`],
    /// [`Error::NoMemory`], [`Error::NoClock`], [`Error::Unsupported`]. [`Error::Options`] in mode [`Bound`](crate::Mode::Bound). The token was
    /// not accepted then.
    pub fn check(&self, token: impl AsRef<[u8]>) -> Result<Accepted, Error> {
        self.accept(token.as_ref(), None)
    }

    /// Accepts a token that `caller` presents, in mode [`Bound`](crate::Mode::Bound).
    ///
    /// # Errors
    ///
    /// Those of [`Guard::check`]; [`Error::Options`] in another mode.
    pub fn check_from(&self, caller: Caller, token: impl AsRef<[u8]>) -> Result<Accepted, Error> {
        self.accept(token.as_ref(), Some(caller))
    }

    /// Says what a check would in mode [`Reuse`](crate::Mode::Reuse), and uses nothing up. Nobody hears of it.
    ///
    /// # Errors
    ///
    /// [`Error::Refused`] by the first reason that holds; [`Error::Unavailable`] before the bundle of its trust domain was read; [`Error::Jump`],
    /// [`Error::NoMemory`], [`Error::NoClock`], [`Error::Unsupported`].
    pub fn judge(&self, token: impl AsRef<[u8]>) -> Result<Accepted, Error> {
        self.requests.judge(token.as_ref(), &self.verifier)
    }

    fn accept(&self, token: &[u8], caller: Option<Caller>) -> Result<Accepted, Error> {
        if caller.is_some() != self.requests.is_bound() {
            return Err(Error::Options(OptionsFault::Presenter));
        }
        let caller = caller.map_or([0; 32], |it| it.0);
        let accepted = self.requests.check(token, caller, &self.verifier, self.journal.as_deref());
        self.tidy();
        accepted
    }

    /// Lets a request in by its one bearer token, which it accepts as a check does, or says what to answer. `values` are those of all header fields
    /// `Authorization` of the request.
    ///
    /// # Errors
    ///
    /// Why the request is not let in: [`Denied::status`] and [`Denied::challenge`] are the answer that is due.
    pub fn admit<'a, A: AsRef<[u8]> + ?Sized + 'a>(&self, values: impl IntoIterator<Item = &'a A>) -> Result<Accepted, Denied> {
        Ok(self.check(self.bearer(values)?)?)
    }

    /// The one bearer token of a request. Of a refused one, who hears of that hears too.
    fn bearer<'a, A: AsRef<[u8]> + ?Sized + 'a>(&self, values: impl IntoIterator<Item = &'a A>) -> Result<&'a [u8], Denied> {
        match bearer_token(values) {
            Err(Denied::Refused(why)) => Ok(self.requests.told(Err(Error::Refused(why)))?),
            found => found,
        }
    }

    /// The same in mode [`Bound`](crate::Mode::Bound). `caller` says of the request who presents its token.
    ///
    /// # Errors
    ///
    /// As those of [`Guard::admit`].
    ///
    /// ```
    /// # #[cfg(feature = "testing")] {
    /// # let issuer = svid::testing::Issuer::new("example.org");
    /// # let token = issuer.token("/billing/api", "ledger");
    /// # let header = format!("Bearer {token}");
    /// use svid::{testing::MemoryStore, Caller, Guard, Mode, OpenSsl, Options};
    ///
    /// let options = Options::new(["ledger"]).mode(Mode::Bound).store(std::sync::Arc::new(MemoryStore::new()));
    /// let guard = Guard::open(&options, issuer.bundles(), OpenSsl::new())?;
    /// let (owner, thief) = (|| Caller::of("192.0.2.1"), || Caller::of("192.0.2.2"));
    /// assert!(guard.admit_from(owner, [&header]).is_ok());
    /// assert!(guard.admit_from(owner, [&header]).is_ok());
    /// assert_eq!(guard.admit_from(thief, [&header]).unwrap_err().status(), 401);
    /// # }
    /// # Ok::<(), svid::Error>(())
    /// ```
    pub fn admit_from<'a, A>(&self, caller: impl FnOnce() -> Caller, values: impl IntoIterator<Item = &'a A>) -> Result<Accepted, Denied>
    where
        A: AsRef<[u8]> + ?Sized + 'a,
    {
        Ok(self.check_from(caller(), self.bearer(values)?)?)
    }

    /// As [`Guard::admit`], of a request. `None` where its path needs no token ([`Options::open_paths`]).
    ///
    /// # Errors
    ///
    /// As those of [`Guard::admit`].
    #[cfg(feature = "http")]
    pub fn admit_request<B>(&self, request: &http::Request<B>) -> Result<Option<Accepted>, Denied> {
        match self.requests.is_open(request.uri().path()) {
            true => Ok(None),
            false => self.admit(request.headers().get_all(http::header::AUTHORIZATION)).map(Some),
        }
    }

    /// Whether a path needs no token ([`Options::open_paths`]).
    pub fn is_open(&self, path: &str) -> bool {
        self.requests.is_open(path)
    }

    /// As [`Guard::admit`], where only the IDs that one of the patterns allows may call. The token of another caller is judged, and is not used up:
    /// of a good one the answer is [`Denied::NotAllowed`]. No pattern at all lets nobody in. [`Options::callers`] does so for all requests.
    ///
    /// # Errors
    ///
    /// As those of [`Guard::admit`].
    ///
    /// ```
    /// # #[cfg(feature = "testing")] {
    /// # let issuer = svid::testing::Issuer::new("example.org");
    /// # let token = issuer.token("/billing/api", "ledger");
    /// # let guard = svid::Guard::open(&svid::Options::new(["ledger"]), issuer.bundles(), svid::OpenSsl::new())?;
    /// # let header = format!("Bearer {token}");
    /// let billing = [svid::Pattern::parse("spiffe://example.org/billing/*").unwrap()];
    /// let web = [svid::Pattern::parse("spiffe://example.org/web").unwrap()];
    /// assert_eq!(guard.admit_only(&web, [&header]).unwrap_err().status(), 403);
    /// assert!(guard.admit_only(&billing, [&header]).is_ok());
    /// # }
    /// # Ok::<(), svid::Error>(())
    /// ```
    pub fn admit_only<'a, A>(&self, callers: &[Pattern<'_>], values: impl IntoIterator<Item = &'a A>) -> Result<Accepted, Denied>
    where
        A: AsRef<[u8]> + ?Sized + 'a,
    {
        let token = self.bearer(values)?;
        match self.requests.told(may_call(callers, token))? {
            true => Ok(self.check(token)?),
            false => Ok(self.requests.told(self.judge(token).and(Err(Error::NotAllowed)))?),
        }
    }
}

/// Whether one of the patterns allows the subject of a token.
fn may_call(callers: &[Pattern<'_>], token: &[u8]) -> Result<bool, Error> {
    let said = Said::of(token)?;
    let caller = SpiffeId::parse(said.subject()).map_err(|_| Error::unexpected(ffi::OK))?;
    for pattern in callers {
        match pattern.allows(&caller) {
            Ok(true) => return Ok(true),
            Ok(false) => {}
            Err(PatternError::Unexpected(why)) => return Err(Error::Unexpected(why)),
            Err(_) => return Err(Error::NoMemory),
        }
    }
    Ok(false)
}

impl<V> Drop for Guard<V> {
    fn drop(&mut self) {
        self.requests.close();
        if let Some(local) = &self.local {
            local.close();
        }
        drop(self.follower.get_mut().unwrap_or_else(PoisonError::into_inner).take());
        crate::waits_for_all("a snapshot of the state folder", self.snapshot.get_mut().unwrap_or_else(PoisonError::into_inner).take());
    }
}
