//! What a call answers that does not do what it was asked for.

use std::fmt;

use crate::ffi::{self, Told};
use crate::pattern::PatternFault;
use crate::refusal::Refusal;
use crate::unavailable::{self, Unavailable};
use crate::words;

/// Why a call did nothing. Whatever the error of a check is, the token was not accepted.
///
/// Each method lists the errors that it may return.
#[derive(Debug, Clone, Copy, PartialEq, Eq)]
#[non_exhaustive]
pub enum Error {
    /// The token is refused. This is an answer about the token, and all others say that there is none.
    Refused(Refusal),
    /// The token is good, and its subject may not call ([`Options::callers`](crate::Options::callers)). It is not used up.
    NotAllowed,
    /// There is no answer for now: the state folder or the store failed, or it took too long. Answer with status 503.
    Unavailable(Unavailable),
    /// The options can't be, or are not for this call.
    Options(OptionsFault),
    /// There is no memory for the call. Nothing was accepted: you can make the call again.
    NoMemory,
    /// The clock is more than `step` seconds past the record's moment. If it is right, the guard was idle for longer than `step`: take its
    /// record into a new one.
    Jump,
    /// The messages tell of a time more than `ahead` seconds past the clock. None of them was taken.
    TooFar,
    /// The token has expired, so there is nothing to withdraw.
    Gone,
    /// The verifier can't verify with this algorithm or by this key, and no other key made the signature. Use another verifier.
    Unsupported,
    /// The trust bundles can't be read. A guard keeps those that it has.
    Bundles(BundlesFault),
    /// The bytes are no messages. None of them was taken.
    Messages(MessagesError),
    /// The bytes are messages, but not one summary.
    NotSummary,
    /// The bytes are more than 67,108,864: cut the messages.
    TooMuch,
    /// The system's clock is before 1970.
    NoClock,
    /// The system gives no random bytes for a validator ID.
    NoRandom,
    /// The library answered what this crate does not know: it is of another version.
    Unexpected(Unexpected),
}

impl Error {
    /// Why the token is refused, if this is a refusal.
    pub fn refusal(self) -> Option<Refusal> {
        match self {
            Error::Refused(why) => Some(why),
            _ => None,
        }
    }

    /// The error of a status that is not OK.
    pub(crate) fn of(status: u32, told: &Told) -> Error {
        if let Some(why) = Refusal::of_status(status) {
            return Error::Refused(why);
        }
        if let Some(why) = Unavailable::of_status(status) {
            return Error::Unavailable(why);
        }
        if let Some(row) = MessageFault::ROWS.iter().find(|row| row.1 == status) {
            return Error::Messages(MessagesError { fault: row.0, message: told.message, offset: told.offset });
        }
        match status {
            ffi::NOT_ALLOWED => Error::NotAllowed,
            ffi::NO_MEMORY => Error::NoMemory,
            ffi::TOO_MUCH => Error::TooMuch,
            ffi::NOT_SUMMARY => Error::NotSummary,
            ffi::GONE => Error::Gone,
            ffi::TOO_FAR => Error::TooFar,
            ffi::JUMP => Error::Jump,
            ffi::BUNDLES_NOT_OBJECT => Error::Bundles(BundlesFault::NotObject),
            ffi::BUNDLES_DOMAIN => Error::Bundles(BundlesFault::Domain { number: told.offset }),
            ffi::BUNDLES_KEYS => Error::Bundles(BundlesFault::Keys { number: told.offset }),
            ffi::BUNDLES_UNNAMED => Error::Bundles(BundlesFault::Unnamed),
            _ => Error::unexpected(status),
        }
    }

    /// The error of a status of a call that joins documents of bundles.
    pub(crate) fn of_documents(status: u32, told: &Told) -> Error {
        let fault = match status {
            ffi::BUNDLES_NOT_OBJECT => DocumentFault::NotObject,
            ffi::BUNDLES_DOMAIN => DocumentFault::Domain,
            ffi::BUNDLES_KEYS => DocumentFault::Keys,
            ffi::BUNDLES_UNNAMED => DocumentFault::Unnamed,
            ffi::BUNDLES_TWICE => DocumentFault::Twice,
            status => return Error::of(status, told),
        };
        // (the library counts them from 1)
        Error::Bundles(BundlesFault::Document { number: told.input.saturating_sub(1), fault })
    }

    /// The word by which a client hears of an error that says nothing of its token.
    pub(crate) fn reason(self) -> &'static str {
        match self {
            Error::NoMemory => unavailable::reason_of(ffi::NO_MEMORY),
            Error::Jump => unavailable::reason_of(ffi::JUMP),
            Error::Unavailable(why) => why.reason(),
            _ => unavailable::reason_of(ffi::LATE),
        }
    }

    pub(crate) fn unexpected(status: u32) -> Error {
        Error::Unexpected(Unexpected::new(status))
    }
}

impl From<Refusal> for Error {
    fn from(why: Refusal) -> Error {
        Error::Refused(why)
    }
}

impl fmt::Display for Error {
    fn fmt(&self, f: &mut fmt::Formatter<'_>) -> fmt::Result {
        match self {
            Error::Refused(why) => why.fmt(f),
            Error::NotAllowed => f.write_str("NotAllowed: the caller's SPIFFE ID is not among those that may call"),
            Error::Unavailable(why) => why.fmt(f),
            Error::Options(why) => why.fmt(f),
            Error::NoMemory => words::write_plain(f, ffi::NO_MEMORY),
            Error::Jump => words::write_plain(f, ffi::JUMP),
            Error::TooFar => words::write_plain(f, ffi::TOO_FAR),
            Error::Gone => words::write_plain(f, ffi::GONE),
            Error::Unsupported => f.write_str("the verifier can't verify with this algorithm or by this key: use another one"),
            Error::Bundles(why) => why.fmt(f),
            Error::Messages(why) => why.fmt(f),
            Error::NotSummary => words::write_plain(f, ffi::NOT_SUMMARY),
            Error::TooMuch => words::write_plain(f, ffi::TOO_MUCH),
            Error::NoClock => f.write_str("the system's clock is before 1970: set it"),
            Error::NoRandom => f.write_str("the system gives no random bytes: read them from another source, and choose a validator ID"),
            Error::Unexpected(why) => why.fmt(f),
        }
    }
}

impl std::error::Error for Error {
    fn source(&self) -> Option<&(dyn std::error::Error + 'static)> {
        match self {
            Error::Refused(why) => Some(why),
            Error::Unavailable(why) => Some(why),
            Error::Options(why) => Some(why),
            Error::Bundles(why) => Some(why),
            Error::Messages(why) => Some(why),
            Error::Unexpected(why) => Some(why),
            _ => None,
        }
    }
}

/// Why options can't be, or are not for a call.
#[derive(Debug, Clone, Copy, PartialEq, Eq)]
#[non_exhaustive]
pub enum OptionsFault {
    /// There is no store in a mode that wants one.
    Store,
    /// The time that a check may take is less than a millisecond.
    Wait,
    /// The list of callers is empty.
    Callers,
    /// One of the callers is no pattern.
    Caller {
        /// Which one: the first is number 0.
        number: usize,
        /// What is wrong with it.
        fault: PatternFault,
    },
    /// Where callers are given, an audience is empty, or has a line feed.
    Audience,
    /// Who presents a token is given in another mode than bound, or is not given in that mode.
    Presenter,
    /// There is no audience.
    NoAudience,
    /// The options are for a [`Guard`](crate::Guard): a [`LogMember`](crate::LogMember) has no mode, store or callers.
    Guard,
    /// One of the open paths is none.
    Path {
        /// Which one: the first is number 0.
        number: usize,
    },
    /// A source of bundles is none.
    Source(SourceFault),
}

impl fmt::Display for OptionsFault {
    fn fmt(&self, f: &mut fmt::Formatter<'_>) -> fmt::Result {
        f.write_str(match self {
            OptionsFault::Store => "there is no store: give one in the modes strict and bound, or in bound a state folder",
            OptionsFault::Wait => "a check has less than a millisecond: let wait be longer",
            OptionsFault::Callers => "callers is empty: name who may call, or leave it out to let all call",
            OptionsFault::Caller { number, fault } => return write!(f, "number {number} of the callers, counted from 0: {}", fault.says()),
            OptionsFault::Audience => "an audience is empty or has a line feed: with callers, let each be one line",
            OptionsFault::Presenter => "the mode and the call don't fit: say who presents the token in mode bound, and in no other one",
            OptionsFault::NoAudience => "there is no audience, so no token is for this service: give its names",
            OptionsFault::Guard => "the options have a mode, a store, or callers: give them to a guard",
            OptionsFault::Path { number } => {
                return write!(
                    f,
                    "number {number} of the open paths, counted from 0, is none: write /PATH, or /PATH/* for all below it, in letters, digits \
                     and - . _ ~, decoded, and without empty segments, . and .."
                );
            }
            OptionsFault::Source(why) => return why.fmt(f),
        })
    }
}

impl std::error::Error for OptionsFault {}

/// Why a source of bundles is none. `number` counts the sources of [`Sources`](crate::Sources) from 0.
#[derive(Debug, Clone, Copy, PartialEq, Eq)]
#[non_exhaustive]
pub enum SourceFault {
    /// There is no source.
    None,
    /// Its trust domain name is none.
    Domain {
        /// Which source.
        number: usize,
    },
    /// An earlier source has the same trust domain, or there are two that name their trust domains themselves: folders, or a Workload API.
    Twice {
        /// Which source.
        number: usize,
    },
    /// Its address is not `https://HOST/PATH`.
    Address {
        /// Which source.
        number: usize,
    },
    /// The SPIFFE ID of its server is none with a path.
    ServerId {
        /// Which source.
        number: usize,
    },
    /// Its server is known by its own bundle, and there is no file with a first one.
    First {
        /// Which source.
        number: usize,
    },
    /// Its address is that of no Workload API.
    Workload {
        /// Which source.
        number: usize,
    },
}

impl fmt::Display for SourceFault {
    fn fmt(&self, f: &mut fmt::Formatter<'_>) -> fmt::Result {
        let (number, what) = match self {
            SourceFault::None => return f.write_str("there is no source of bundles: name a file, a folder or an address"),
            SourceFault::Domain { number } => {
                (number, "its trust domain name is none: write 1 to 255 letters of a to z, digits, '.', '-' and '_'")
            }
            SourceFault::Twice { number } => (number, "an earlier one is of the same trust domain, or names its own too: give each once"),
            SourceFault::Address { number } => (number, "its address is none: write https://HOST/PATH"),
            SourceFault::ServerId { number } => (number, "the SPIFFE ID of its server is none: write spiffe://DOMAIN/PATH"),
            SourceFault::First { number } => (number, "its server is known by its own bundle: give a file with a first one"),
            SourceFault::Workload { number } => (
                number,
                "its address is none: write unix:///run/spire/agent.sock or tcp://127.0.0.1:8081, or set SPIFFE_ENDPOINT_SOCKET to it",
            ),
        };
        write!(f, "number {number} of the sources of bundles, counted from 0: {what}")
    }
}

impl std::error::Error for SourceFault {}

/// Why trust bundles can't be read. Names are counted from 0, in the rising order of their bytes.
#[derive(Debug, Clone, Copy, PartialEq, Eq)]
#[non_exhaustive]
pub enum BundlesFault {
    /// They are no JSON object.
    NotObject,
    /// A name is no trust domain name.
    Domain {
        /// The number of the name.
        number: usize,
    },
    /// A trust domain has no list `keys`.
    Keys {
        /// The number of its name.
        number: usize,
    },
    /// They are the bundle of one trust domain, without its name.
    Unnamed,
    /// One of the bundles of [`Sources`](crate::Sources) that never change can't be joined to the others.
    Document {
        /// Which one: the first is number 0.
        number: usize,
        /// What is wrong with it.
        fault: DocumentFault,
    },
}

impl fmt::Display for BundlesFault {
    fn fmt(&self, f: &mut fmt::Formatter<'_>) -> fmt::Result {
        let (status, number) = match self {
            BundlesFault::NotObject => return words::write_plain(f, ffi::BUNDLES_NOT_OBJECT),
            BundlesFault::Unnamed => return words::write_plain(f, ffi::BUNDLES_UNNAMED),
            BundlesFault::Document { number, fault } => {
                return words::write(f, fault.status(), format_args!(" (number {number} of the joined bundles, counted from 0)"));
            }
            BundlesFault::Domain { number } => (ffi::BUNDLES_DOMAIN, number),
            BundlesFault::Keys { number } => (ffi::BUNDLES_KEYS, number),
        };
        words::write(f, status, format_args!(" (number {number} of the names in rising order, counted from 0)"))
    }
}

impl std::error::Error for BundlesFault {}

/// Why a bundle can't be joined to others.
#[derive(Debug, Clone, Copy, PartialEq, Eq)]
#[non_exhaustive]
pub enum DocumentFault {
    /// It is no JSON object, or nests so deeply that all bundles together could not be read.
    NotObject,
    /// Its name is no trust domain name.
    Domain,
    /// It has no list `keys`.
    Keys,
    /// It is the bundle of one trust domain, without its name.
    Unnamed,
    /// An earlier bundle has the same trust domain.
    Twice,
}

impl fmt::Display for DocumentFault {
    fn fmt(&self, f: &mut fmt::Formatter<'_>) -> fmt::Result {
        words::write_plain(f, self.status())
    }
}

impl DocumentFault {
    fn status(self) -> u32 {
        match self {
            DocumentFault::NotObject => ffi::BUNDLES_NOT_OBJECT,
            DocumentFault::Domain => ffi::BUNDLES_DOMAIN,
            DocumentFault::Keys => ffi::BUNDLES_KEYS,
            DocumentFault::Unnamed => ffi::BUNDLES_UNNAMED,
            DocumentFault::Twice => ffi::BUNDLES_TWICE,
        }
    }
}

/// Where bytes stop being messages, and why.
#[derive(Debug, Clone, Copy, PartialEq, Eq)]
#[non_exhaustive]
pub struct MessagesError {
    /// What is wrong.
    pub fault: MessageFault,
    /// Which of the messages, counted from 1. It is 0 for a use.
    pub message: usize,
    /// Which byte of that message, counted from 0.
    pub offset: usize,
}

impl fmt::Display for MessagesError {
    fn fmt(&self, f: &mut fmt::Formatter<'_>) -> fmt::Result {
        let MessagesError { fault, message, offset } = self;
        let (name, says) = (fault.name(), fault.says());
        match message {
            0 => write!(f, "{name} at offset {offset}: {says}"),
            message => write!(f, "{name} in message {message} at byte {offset}: {says}"),
        }
    }
}

impl std::error::Error for MessagesError {}

/// What is wrong with bytes that are no messages.
#[derive(Debug, Clone, Copy, PartialEq, Eq, Hash)]
#[non_exhaustive]
// lists:begin messages (written by tools/lists from lists/statuses.toml)
pub enum MessageFault {
    /// The first four bytes are those of no version.
    Magic,
    /// The fifth byte is that of no kind of message of the version.
    Kind,
    /// A batch tells of too many uses.
    Count,
    /// The last byte of a use is neither 0 nor 1.
    UseKind,
    /// A use expires at its batch's moment or before it.
    UseExpired,
    /// A use was made after its batch's moment.
    UseFuture,
    /// A use is not greater than the one before it.
    UseOrder,
    /// The bytes end before the message does.
    Truncated,
}

impl MessageFault {
    // Each with its number, its name, and what is due.
    pub(crate) const ROWS: [(MessageFault, u32, &'static str, &'static str); 8] = [
        (MessageFault::Magic, ffi::MAGIC, "Magic", "4A 53 52, which is JSR, and then 02 or 01"),
        (MessageFault::Kind, ffi::KIND, "Kind", "01 for a batch, or 02 for a summary, which only version 2 has"),
        (MessageFault::Count, ffi::COUNT, "Count", "a number of at most 65,536 uses, or of 4,096 in version 1"),
        (MessageFault::UseKind, ffi::USE_KIND, "UseKind", "a use whose last byte is 00 or 01"),
        (MessageFault::UseExpired, ffi::USE_EXPIRED, "UseExpired", "a use that expires after the batch's moment"),
        (MessageFault::UseFuture, ffi::USE_FUTURE, "UseFuture", "a use that was made at the batch's moment or before it"),
        (MessageFault::UseOrder, ffi::USE_ORDER, "UseOrder", "a use that is greater than the one before it"),
        (MessageFault::Truncated, ffi::TRUNCATED, "Truncated", "the rest of the message"),
    ];
}
// lists:end

named!(MessageFault, due);

/// An answer of the library that this crate does not know.
#[derive(Debug, Clone, Copy, PartialEq, Eq)]
pub struct Unexpected {
    status: u32,
}

impl Unexpected {
    pub(crate) fn new(status: u32) -> Unexpected {
        Unexpected { status }
    }
}

impl fmt::Display for Unexpected {
    fn fmt(&self, f: &mut fmt::Formatter<'_>) -> fmt::Result {
        write!(f, "libsvid answered {}, which this crate does not know: link the libsvid.a of its release", self.status)
    }
}

impl std::error::Error for Unexpected {}

/// Whoever handles an error finds its cause, also where it became another error.
#[test]
fn causes() {
    use std::error::Error as _;
    let message = MessagesError { fault: MessageFault::Magic, message: 1, offset: 0 };
    let whys = [
        Error::Refused(Refusal::Expired),
        Error::Unavailable(Unavailable::NO_BUNDLE),
        Error::Options(OptionsFault::NoAudience),
        Error::Bundles(BundlesFault::NotObject),
        Error::Messages(message),
        Error::unexpected(7),
    ];
    for why in whys {
        assert!(why.source().is_some(), "{why}");
        for outer in [crate::JournalError::Guard(why), crate::JournalError::from(why)] {
            assert_eq!(outer.source().map(ToString::to_string), Some(why.to_string()));
        }
    }
    assert!(crate::JournalError::of(7).source().is_some());
}
