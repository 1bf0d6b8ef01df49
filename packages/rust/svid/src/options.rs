//! What a guard is for.

use std::fmt;
use std::sync::Arc;
use std::time::Duration;

use crate::error::{Error, OptionsFault};
use crate::ffi;
use crate::paths::Paths;
use crate::pattern::{Pattern, PatternError};
use crate::record::{TokenKey, ValidatorId};
use crate::store::Store;

/// How many seconds a token may still live, where no option says so.
const USUAL_LONGEST: u64 = 3600;

/// How often a guard accepts a token.
#[derive(Debug, Clone, Copy, PartialEq, Eq, Hash, Default)]
#[non_exhaustive]
pub enum Mode {
    /// Once by this guard. With a journal, no later start accepts it again.
    #[default]
    Once,
    /// Once by all guards that share the store.
    Strict,
    /// Again and again, but from one caller alone, by all guards that share the store.
    Bound,
    /// Again and again.
    Reuse,
}

impl Mode {
    pub(crate) fn number(self) -> u64 {
        match self {
            Mode::Once => ffi::MODE_ONCE,
            Mode::Strict => ffi::MODE_STRICT,
            Mode::Bound => ffi::MODE_BOUND,
            Mode::Reuse => ffi::MODE_REUSE,
        }
    }

    /// Whether tokens are claimed in a store.
    pub(crate) fn has_claims(self) -> bool {
        matches!(self, Mode::Strict | Mode::Bound)
    }
}

/// Hears what goes wrong beside a check.
pub(crate) type Warns = dyn Fn(&dyn fmt::Display) + Send + Sync;
/// Hears of each token that is not accepted.
pub(crate) type Refuses = dyn Fn(&Error) + Send + Sync;
/// Hears of a token that several guards accepted.
pub(crate) type HearsTwice = dyn Fn(TokenKey) + Send + Sync;
/// Gives the time in seconds since 1970.
pub(crate) type Now = dyn Fn() -> Result<u64, Error> + Send + Sync;

/// What a guard is given for its whole life. All times are in seconds.
///
/// ```
/// let options = svid::Options::new(["ledger"]).longest(900).step(86_400);
/// ```
#[derive(Clone)]
pub struct Options {
    audiences: Vec<String>,
    pub(crate) longest: u64,
    pub(crate) ahead: u64,
    pub(crate) step: u64,
    validator_id: Option<ValidatorId>,
    pub(crate) mode: Mode,
    pub(crate) store: Option<Arc<dyn Store>>,
    callers: Option<Vec<String>>,
    pub(crate) wait: Duration,
    pub(crate) warns: Arc<Warns>,
    pub(crate) refuses: Arc<Refuses>,
    pub(crate) twice: Arc<HearsTwice>,
    pub(crate) now: Arc<Now>,
    open_paths: Vec<String>,
}

impl Options {
    /// Options of a guard with these audiences: this service's own names. A token is for it if one of them is in `aud`. No audience at all is a
    /// fault.
    pub fn new<A: Into<String>>(audiences: impl IntoIterator<Item = A>) -> Options {
        Options {
            audiences: audiences.into_iter().map(Into::into).collect(),
            longest: USUAL_LONGEST,
            ahead: 30,
            step: u64::MAX,
            validator_id: None,
            mode: Mode::Once,
            store: None,
            callers: None,
            wait: Duration::from_secs(2),
            warns: Arc::new(|what| log::warn!("{what}")),
            refuses: Arc::new(|why| log::info!("a token is not accepted: {why}")),
            twice: Arc::new(|key| log::warn!("several guards accepted the token {key}: it may be stolen, or its client sent it twice")),
            now: Arc::new(crate::now),
            open_paths: Vec::new(),
        }
    }

    /// A token that expires more than so many seconds past the record's moment is refused as [`TooLongLived`](crate::Refusal::TooLongLived).
    /// Without it, 3,600. It bounds how long a use stays in the record. [`Options::any_life`] sets no limit.
    #[must_use]
    pub fn longest(mut self, seconds: u64) -> Options {
        self.longest = seconds;
        self
    }

    /// A token may expire at any time, so the record may grow without a limit.
    #[must_use]
    pub fn any_life(self) -> Options {
        self.longest(u64::MAX)
    }

    /// How many seconds the clocks of the group may differ: so far past `now` a message's moment may lie, and the time of a store. Without it, 30.
    #[must_use]
    pub fn ahead(mut self, seconds: u64) -> Options {
        self.ahead = seconds;
        self
    }

    /// A `now` more than so many seconds past the record's moment is answered [`Error::Jump`], so that a wrong clock does not expire the record.
    /// Without it there is no limit. Set it to more than the longest time without a call.
    #[must_use]
    pub fn step(mut self, seconds: u64) -> Options {
        self.step = seconds;
        self
    }

    /// The ID of the validator. Without it, a random one.
    #[must_use]
    pub fn validator_id(mut self, validator_id: ValidatorId) -> Options {
        self.validator_id = Some(validator_id);
        self
    }

    /// How often a [`Guard`](crate::Guard) accepts a token. Without it, once.
    #[must_use]
    pub fn mode(mut self, mode: Mode) -> Options {
        self.mode = mode;
        self
    }

    /// The store of the group. In the modes [`Strict`](Mode::Strict) and [`Bound`](Mode::Bound) each token is claimed there, and in all modes but
    /// strict its [withdrawals](Store::withdrawals) are read.
    #[must_use]
    pub fn store(mut self, store: Arc<dyn Store>) -> Options {
        self.store = Some(store);
        self
    }

    /// Who may call: [`Pattern`]s of SPIFFE IDs. A [`Guard`](crate::Guard) answers [`Error::NotAllowed`] to a good token of another caller, and
    /// does not use it up. Without it all may call. No pattern at all is a fault.
    #[must_use]
    pub fn callers<P: Into<String>>(mut self, patterns: impl IntoIterator<Item = P>) -> Options {
        self.callers = Some(patterns.into_iter().map(Into::into).collect());
        self
    }

    /// How long a check or a withdrawal of a [`Guard`](crate::Guard) may take, until it answers [`Error::Unavailable`]. Without it, two seconds.
    #[must_use]
    pub fn wait(mut self, wait: Duration) -> Options {
        self.wait = wait;
        self
    }

    /// Hears what an operator should read: that the store does not answer, that the state folder stores nothing, or that a bundle can't be read.
    /// Threads of the guard call it, so let it return at once, and call the guard from nowhere in it. Without it, warnings of the crate `log`.
    #[must_use]
    pub fn warns(mut self, hears: impl Fn(&dyn fmt::Display) + Send + Sync + 'static) -> Options {
        self.warns = Arc::new(hears);
        self
    }

    /// Hears why a token is not accepted, of each one. The thread of the check calls it, so let it return at once. No error has anything of
    /// the token in it. Without it, lines of the level info of the crate `log`.
    #[must_use]
    pub fn refuses(mut self, hears: impl Fn(&Error) + Send + Sync + 'static) -> Options {
        self.refuses = Arc::new(hears);
        self
    }

    /// Hears the key of a token that several guards accepted, once, when [`Guard::take`](crate::Guard::take) learns that. Of messages of more than
    /// 4 MiB it hears nothing. Without it, warnings of the crate `log`.
    #[must_use]
    pub fn twice(mut self, hears: impl Fn(TokenKey) + Send + Sync + 'static) -> Options {
        self.twice = Arc::new(hears);
        self
    }

    /// The clock by which tokens are judged, in seconds since 1970, for tests. Without it, [`now`](crate::now). [`Options::wait`] goes by the
    /// system's own clock.
    #[must_use]
    pub fn clock(mut self, now: impl Fn() -> u64 + Send + Sync + 'static) -> Options {
        self.now = Arc::new(move || Ok(now()));
        self
    }

    /// Paths of requests that need no token: "/healthz" is that path alone, and "/static/*" each path below "/static". A path is listed in
    /// letters, digits and `-._~`, decoded. A request whose path could be read in two ways is on no list.
    #[must_use]
    pub fn open_paths<P: Into<String>>(mut self, paths: impl IntoIterator<Item = P>) -> Options {
        self.open_paths = paths.into_iter().map(Into::into).collect();
        self
    }

    /// Whether a guard can have these options.
    pub(crate) fn fit(&self) -> Result<(), Error> {
        let fault = |why| Err(Error::Options(why));
        if self.audiences.is_empty() {
            return fault(OptionsFault::NoAudience);
        }
        if self.mode.has_claims() && self.store.is_none() {
            return fault(OptionsFault::Store);
        }
        if self.wait < Duration::from_millis(1) {
            return fault(OptionsFault::Wait);
        }
        let callers = match &self.callers {
            Some(callers) => callers,
            None => return Ok(()),
        };
        if callers.is_empty() {
            return fault(OptionsFault::Callers);
        }
        for (number, it) in callers.iter().enumerate() {
            match Pattern::parse(it) {
                Ok(_) => {}
                Err(PatternError::Bad { fault: why, .. }) => return fault(OptionsFault::Caller { number, fault: why }),
                Err(PatternError::NoMemory) => return Err(Error::NoMemory),
                Err(PatternError::Unexpected(why)) => return Err(Error::Unexpected(why)),
            }
        }
        match self.audiences.iter().any(|it| it.is_empty() || it.contains('\n')) {
            true => fault(OptionsFault::Audience),
            false => Ok(()),
        }
    }

    /// Whether a member of a log can have these options.
    pub(crate) fn fit_a_log(&self) -> Result<(), Error> {
        match self.mode != Mode::Once || self.store.is_some() || self.callers.is_some() {
            true => Err(Error::Options(OptionsFault::Guard)),
            false => self.fit(),
        }
    }

    /// How many seconds a claim may live once it is made.
    pub(crate) fn lasts(&self) -> u64 {
        self.longest.saturating_add(self.ahead.saturating_mul(2))
    }

    /// The audiences and who may call, each as lines, if not all may.
    pub(crate) fn rules(&self) -> Result<Option<Rules>, Error> {
        match &self.callers {
            Some(callers) => Ok(Some(Rules { own: lines(&self.audiences)?, callers: lines(callers)? })),
            None => Ok(None),
        }
    }

    /// Which paths need no token.
    pub(crate) fn paths(&self) -> Result<Paths, Error> {
        Paths::of(&self.open_paths).map_err(|number| Error::Options(OptionsFault::Path { number }))
    }

    /// The names of this service.
    pub(crate) fn own_audiences(&self) -> &[String] {
        &self.audiences
    }

    pub(crate) fn own_id(&self) -> Result<ValidatorId, Error> {
        self.validator_id.map_or_else(|| ValidatorId::random().map_err(|_| Error::NoRandom), Ok)
    }
}

// (nothing in it changes but in the store, whose contract says so: it is called again after a panic)
impl std::panic::UnwindSafe for Options {}
impl std::panic::RefUnwindSafe for Options {}

impl fmt::Debug for Options {
    fn fmt(&self, f: &mut fmt::Formatter<'_>) -> fmt::Result {
        f.debug_struct("Options")
            .field("audiences", &self.audiences)
            .field("longest", &self.longest)
            .field("ahead", &self.ahead)
            .field("step", &self.step)
            .field("validator_id", &self.validator_id)
            .field("mode", &self.mode)
            .field("callers", &self.callers)
            .field("wait", &self.wait)
            .finish_non_exhaustive()
    }
}

/// Audiences and patterns of who may call, each as lines.
pub(crate) struct Rules {
    pub own: Vec<u8>,
    pub callers: Vec<u8>,
}

/// Texts as lines.
fn lines(texts: &[String]) -> Result<Vec<u8>, Error> {
    let mut all = Vec::new();
    for it in texts {
        all.try_reserve(it.len() + 1).map_err(|_| Error::NoMemory)?;
        all.extend_from_slice(it.as_bytes());
        all.push(b'\n');
    }
    Ok(all)
}

/// Audiences as the library takes them: their texts one after the other, and the length of each.
pub(crate) struct Audiences {
    pub text: Vec<u8>,
    pub lens: Vec<usize>,
}

impl Audiences {
    pub fn of(options: &Options) -> Result<Audiences, Error> {
        let mut own = Audiences { text: Vec::new(), lens: Vec::new() };
        for name in &options.audiences {
            own.text.try_reserve(name.len()).map_err(|_| Error::NoMemory)?;
            own.lens.try_reserve(1).map_err(|_| Error::NoMemory)?;
            own.text.extend_from_slice(name.as_bytes());
            own.lens.push(name.len());
        }
        Ok(own)
    }

    pub fn terms(options: &Options, validator_id: ValidatorId) -> ffi::Terms {
        ffi::Terms { longest: options.longest, ahead: options.ahead, step: options.step, validator_id: validator_id.0 }
    }
}
