//! A member of a group that has nothing but a log.

use crate::bundles::Bundles;
use crate::error::{Error, MessagesError};
use crate::ffi::{self, Told};
use crate::handle::{cut, done, Core};
use crate::open_token::OpenToken;
use crate::options::Options;
use crate::record::{Accepted, Use};
use crate::verify::Verify;

/// How many uses of a value are read at once.
const MOST: usize = 64;

/// Checks JWT-SVIDs in a group whose members share nothing but a log. Each token is accepted once in the whole group. Where the members can share
/// a [`Store`](crate::Store), take a [`Guard`](crate::Guard), which does the rest too.
///
/// A *log* is a list of values in one order, the same for all members. A *value* is messages, and a *claim* is the use of a token in a value. Of
/// the claims of a token, the first in the log counts. You carry the values: this type reads no log itself. To check a token:
///
/// 1. [`LogMember::judge`] refuses it, or gives its claim: [`Accepted::used`].
/// 2. Put the claim's [`message`](Use::message) at the end of the log, as a value or as a part of one.
/// 3. Read the values of the log in their order by [`LogMember::read`]. Accept the token if the fate of its claim is [`Fate::Accepted`]: once for
///    each claim that you put, since an earlier claim with the same bytes may stand in the log too.
///
/// The members have different validator IDs and the same [`Options::longest`] and [`Options::ahead`]. Every `now` is the time of the call in seconds
/// since 1970, as [`now`](crate::now) has it.
///
/// To withdraw a token, put the message of a [`Use`] with `withdrawn` into the log. To restart, save [`LogMember::mark`], [`LogMember::beside`] and
/// [`LogMember::tell`] of one moment. Open the next member with the first two, and let it [`take`](LogMember::take) the third.
///
/// ```
/// # #[cfg(feature = "testing")] {
/// # let issuer = svid::testing::Issuer::new("example.org");
/// # let token = issuer.token("/billing/api", "ledger");
/// use svid::{now, Error, Fate, LogMember, LogStart, OpenSsl, Options, Refusal};
///
/// let mut log: Vec<Vec<u8>> = Vec::new(); // here in memory; members share theirs
/// let mut member = LogMember::open(&Options::new(["ledger"]), issuer.bundles(), OpenSsl::new(), &LogStart::default())?;
///
/// let claim = *member.judge(now()?, &token)?.used();
/// log.push(claim.message()?.to_vec());
///
/// let mut fates = Vec::new();
/// for (position, value) in (1..).zip(&log) {
///     while !member.read(now()?, position, value, &mut fates)?.is_whole {}
/// }
/// assert_eq!(fates, [(claim, Fate::Accepted)]);
/// assert_eq!(member.judge(now()?, &token), Err(Error::Refused(Refusal::Replayed)));
/// # }
/// # Ok::<(), svid::Error>(())
/// ```
#[derive(Debug)]
pub struct LogMember<V> {
    core: Core,
    own: Vec<String>,
    verifier: V,
}

/// Where a member is in its log.
#[derive(Debug, Clone, Copy, Default, PartialEq, Eq, Hash)]
pub struct LogPosition {
    /// The position of the last value that it has read to its end. Positions are counted from 1, without gaps.
    pub passed: u64,
    /// How many uses of the value after that one it has read.
    pub begun: usize,
    /// Before this moment it accepts nothing, in seconds since 1970: values are missing whose uses may live.
    pub deaf: u64,
}

/// Where a member begins to read its log. The default is the start of a log that has no value.
#[derive(Debug, Clone, Copy, Default)]
pub struct LogStart<'a> {
    /// That of a [`LogMember::mark`]. Without one, `passed` is the position before the first value that the log still has: 0 if it has all. If it has
    /// not, uses of the values up to there may live: then `deaf` is the moment by which they have all expired.
    pub position: LogPosition,
    /// The position of the last value in the log, or a later one: an earlier life of this member may have read up to there. It accepts nothing up
    /// to there.
    pub ready: u64,
    /// What [`LogMember::beside`] gave at that position, or no bytes.
    pub beside: &'a [u8],
}

/// What becomes of a use that stands in a log.
#[derive(Debug, Clone, Copy, PartialEq, Eq, Hash)]
#[non_exhaustive]
pub enum Fate {
    /// The first claim of its token, and this member's own: it accepts the token. The record has the use.
    Accepted,
    /// The first claim of its token, which this member does not accept: it is of another validator, or stands at [`LogStart::ready`] or before
    /// it, or the member is deaf. The record has the use.
    First,
    /// A withdrawal. The record has it.
    Withdrawal,
    /// It was made more than [`Options::ahead`] past `now`. It counts as a claim, and nobody that sees it as early accepts it.
    TooFarAhead,
    /// It has expired.
    Expired,
    /// The token was withdrawn.
    Withdrawn,
    /// The record has a use of the token, or a claim before it in the log has its key.
    Replayed,
}

impl Fate {
    fn of(number: u64) -> Result<Fate, Error> {
        const EXPIRED: u64 = ffi::EXPIRED as u64;
        const WITHDRAWN: u64 = ffi::WITHDRAWN as u64;
        const REPLAYED: u64 = ffi::REPLAYED as u64;
        match number {
            ffi::FATE_ACCEPTED => Ok(Fate::Accepted),
            ffi::FATE_FIRST => Ok(Fate::First),
            ffi::FATE_WITHDRAWAL => Ok(Fate::Withdrawal),
            ffi::FATE_TOO_FAR_AHEAD => Ok(Fate::TooFarAhead),
            EXPIRED => Ok(Fate::Expired),
            WITHDRAWN => Ok(Fate::Withdrawn),
            REPLAYED => Ok(Fate::Replayed),
            _ => Err(Error::unexpected(ffi::OK)),
        }
    }
}

/// How a value follows on those that were read.
#[derive(Debug, Clone, Copy, PartialEq, Eq, Hash)]
#[non_exhaustive]
pub enum Order {
    /// It was read before. Nothing happened.
    Again,
    /// It is the next one.
    Next,
    /// Values before it are missing: the member accepts nothing until all uses in them have expired.
    Gap,
}

/// What was read of a value.
#[derive(Debug, Clone, Copy, PartialEq, Eq)]
#[non_exhaustive]
pub struct Reading {
    /// How the value follows on those that were read.
    pub order: Order,
    /// The number of the first use of the value that this call read, counted from 0.
    pub from: usize,
    /// Whether nothing is left of the value. Else read the same value again: the member goes on.
    pub is_whole: bool,
    /// Why the value is no messages. It has no uses then, for every member alike, and is read to its end.
    pub fault: Option<MessagesError>,
}

impl<V> LogMember<V> {
    /// Opens a member with an empty record, which reads its log from `start` on. `bundles` are trust bundles as JSON: an object from trust domain
    /// names to JWK sets. Of the options it has audiences, `longest`, `ahead`, `step` and the validator ID.
    ///
    /// # Errors
    ///
    /// [`Error::Options`]: also for a mode, a store and callers, which a guard alone has. [`Error::Bundles`], [`Error::TooMuch`],
    /// [`Error::NoMemory`]; [`Error::Messages`] for claims beside a record that are none; and [`Error::NoRandom`] where the options have no
    /// validator ID.
    pub fn open(options: &Options, bundles: impl AsRef<[u8]>, verifier: V, start: &LogStart<'_>) -> Result<LogMember<V>, Error> {
        options.fit_a_log()?;
        let own = options.own_audiences().to_vec();
        let mut member = LogMember { core: Core::open(options)?, own, verifier };
        member.renew(bundles)?;
        let LogPosition { passed, begun, deaf } = start.position;
        let (mark, beside, mut told) = (ffi::Mark { passed, begun, deaf }, start.beside, Told::default());
        let raw = &mut member.core.raw;
        // SAFETY: the handle is open, the claims are a slice with its length, and nothing overlaps.
        let status = unsafe { ffi::svid_validator_log(raw, &mark, start.ready, options.lasts(), beside.as_ptr(), beside.len(), &mut told) };
        done(status, &told).map(|()| member)
    }

    /// Exchanges the trust bundles. The record stays.
    ///
    /// # Errors
    ///
    /// [`Error::Bundles`], [`Error::TooMuch`], [`Error::NoMemory`]: the member goes on with the bundles before.
    pub fn renew(&mut self, bundles: impl AsRef<[u8]>) -> Result<(), Error> {
        self.core.renew(&mut Bundles::read(bundles.as_ref())?, true, &mut Vec::new())
    }

    /// Reads uses of the value at this position, and adds each with its fate to `fates`. Positions are counted from 1. Call it with the same
    /// value until [`Reading::is_whole`]: each call reads some uses, so that claims among them end soon. A use counts as `withdrawn` here if its fate
    /// is [`Fate::Withdrawal`].
    ///
    /// Before each use the record advances to `now`, and to the time of the use unless it is too far ahead.
    ///
    /// # Errors
    ///
    /// [`Error::Jump`]: call again with `now` 0, which advances nothing. With `now` 0 it means that values are missing before this one,
    /// for which the clock must be right. [`Error::NoMemory`]: call again with the same value.
    pub fn read(&mut self, now: u64, position: u64, value: impl AsRef<[u8]>, fates: &mut Vec<(Use, Fate)>) -> Result<Reading, Error> {
        let (value, mut told) = (value.as_ref(), Told::default());
        let (mut out, mut reading) = ([ffi::Fate::default(); MOST], ffi::Reading::default());
        // (before the call, so that none is read that can't be told)
        fates.try_reserve(MOST).map_err(|_| Error::NoMemory)?;
        // SAFETY: the handle is open, the value is a slice with its length, `out` is an array with its length, and nothing overlaps.
        let status = unsafe {
            ffi::svid_validator_read(
                &mut self.core.raw,
                now,
                position,
                value.as_ptr(),
                value.len(),
                out.as_mut_ptr(),
                out.len(),
                &mut reading,
                &mut told,
            )
        };
        for it in out.get(..reading.count).unwrap_or_default() {
            fates.push((Use::of(&it.used, it.fate == ffi::FATE_WITHDRAWAL), Fate::of(it.fate)?));
        }
        let order = match reading.order {
            ffi::ORDER_AGAIN => Order::Again,
            ffi::ORDER_NEXT => Order::Next,
            ffi::ORDER_GAP => Order::Gap,
            _ => return Err(Error::unexpected(status)),
        };
        let (is_whole, fault) = match (done(status, &told), status) {
            (Ok(()), _) => (true, None),
            (Err(Error::Messages(why)), _) => (true, Some(why)),
            (_, ffi::TOO_SHORT) => (false, None),
            // (it returns what was read; the next call goes on)
            (Err(Error::NoMemory), _) if reading.count > 0 => (false, None),
            (Err(why), _) => return Err(why),
        };
        Ok(Reading { order, from: reading.from, is_whole, fault })
    }

    /// Where it is in its log, and whether it accepts claims: it has read up to [`LogStart::ready`], and is not deaf.
    ///
    /// # Errors
    ///
    /// [`Error::Unexpected`].
    pub fn mark(&mut self) -> Result<(LogPosition, bool), Error> {
        let (mut mark, mut told) = (ffi::Mark::default(), Told::default());
        // SAFETY: the handle is open, and nothing overlaps.
        let status = unsafe { ffi::svid_validator_mark(&mut self.core.raw, &mut mark, &mut told) };
        let ffi::Mark { passed, begun, deaf } = mark;
        done(status, &told).map(|()| (LogPosition { passed, begun, deaf }, told.more == 1))
    }

    /// Lets it accept claims though values of the log are missing. A token whose claim was among them may be accepted twice.
    ///
    /// # Errors
    ///
    /// [`Error::Unexpected`].
    pub fn go_on(&mut self) -> Result<(), Error> {
        let mut told = Told::default();
        // SAFETY: the handle is open, and nothing overlaps.
        let status = unsafe { ffi::svid_validator_go_on(&mut self.core.raw, &mut told) };
        done(status, &told)
    }

    /// The claims beside the record as messages: those of the log that count, and that the record has not.
    ///
    /// # Errors
    ///
    /// [`Error::NoMemory`].
    pub fn beside(&mut self) -> Result<Vec<u8>, Error> {
        let (raw, mut text, mut told) = (&mut self.core.raw, Vec::new(), Told::default());
        let written = ffi::written(&mut text, &mut told, |out, out_len, told| {
            // SAFETY: the handle is open, and `out` is the text's room with its length.
            unsafe { ffi::svid_validator_beside(raw, out, out_len, told) }
        });
        cut(text, written, &told)
    }

    /// Takes messages, or a record that was saved at the position of the start or later. The record advances to `now`.
    ///
    /// # Errors
    ///
    /// Those of [`Guard::take`](crate::Guard::take) but [`Error::NoClock`].
    pub fn take(&mut self, now: u64, messages: impl AsRef<[u8]>) -> Result<(), Error> {
        self.core.take(now, messages.as_ref())
    }

    /// The whole record as messages.
    ///
    /// # Errors
    ///
    /// [`Error::NoMemory`].
    pub fn tell(&mut self) -> Result<Vec<u8>, Error> {
        self.core.tell()
    }
}

impl<V: Verify> LogMember<V> {
    /// Judges a token. The record advances to `now`, and gains no use: that in the answer is the claim to put into the log.
    ///
    /// # Errors
    ///
    /// [`Error::Refused`] by the first reason that holds; [`Error::Jump`], [`Error::NoMemory`], [`Error::Unsupported`].
    pub fn judge(&mut self, now: u64, token: impl AsRef<[u8]>) -> Result<Accepted, Error> {
        // (what is no token advances the record too)
        let mut token = OpenToken::read(token.as_ref(), &self.own).or_else(|why| self.core.tick(now).and(Err(why)))?;
        let len = self.core.keys_of(&mut token)?;
        token.look(len, &self.verifier)?;
        self.core.judge_read(now, &mut token)
    }
}
