//! What a state folder answers that can't do what it was asked for.

use std::fmt;
use std::io;
use std::path::{Path, PathBuf};
use std::sync::Arc;

use crate::error::{Error, Unexpected};
use crate::ffi;
use crate::words;

/// Why a state folder can't be opened, or does not keep what it was given.
#[derive(Debug, Clone)]
#[non_exhaustive]
pub enum JournalError {
    /// Another process has the folder: stop it, or take another folder.
    Held {
        /// The folder.
        folder: PathBuf,
        /// Who has it, as its lock file says.
        holder: String,
    },
    /// A file is damaged: what was synced there has changed. No crash leaves such a file: put back a copy.
    Damaged {
        /// The file.
        file: PathBuf,
        /// The byte at which the frame begins that can't be read.
        at: u64,
    },
    /// A file is of another format: use the version that wrote it.
    OtherFormat {
        /// The file.
        file: PathBuf,
        /// The number of that format.
        format: u64,
    },
    /// A file is of an older svidd: start a newer svidd in the folder once.
    Old {
        /// The file.
        file: PathBuf,
    },
    /// The file `place`, which has the validator ID, is missing, and this file can't be read without it: put back a copy.
    NoValidatorId {
        /// The file that can't be read.
        file: PathBuf,
    },
    /// The file `place`, which has the validator ID, is not 32 hexadecimal digits: put back a copy. No file of the folder can be read without it.
    BadValidatorId {
        /// The file `place`.
        file: PathBuf,
    },
    /// The name of a new folder could not be forced to the disk, and the folder is there: mend the disk, remove the folder, which holds nothing
    /// yet, and start again.
    NameMayNotLast {
        /// The folder.
        folder: PathBuf,
        /// Why.
        why: Arc<io::Error>,
    },
    /// A call of the system failed. After a write that failed (the disk is full) a later one may succeed.
    Io {
        /// What it was about.
        file: PathBuf,
        /// Why.
        why: Arc<io::Error>,
    },
    /// A sync failed, now or before: nobody knows what the disk holds, and nothing is kept until the folder is opened again.
    Ended,
    /// The path leads elsewhere than to the folder: somebody removed or moved it, or mounted another one over it. Another process may have begun
    /// there, so nothing is kept until the folder is opened again: put it back first.
    Moved {
        /// The path.
        folder: PathBuf,
    },
    /// The disk did not answer in time. It may have the messages now, or later, or never.
    Late,
    /// So much waits for the disk that there is no room for more.
    Full,
    /// The messages are more than 16,777,187 bytes: cut them.
    TooLong,
    /// There is no memory for the call.
    NoMemory,
    /// The validator did not give its record.
    Record(Error),
    /// A guard can't be opened, or can't take what the folder has.
    Guard(Error),
    /// The library answered what this crate does not know.
    Unexpected(Unexpected),
}

impl JournalError {
    pub(crate) fn io(file: impl AsRef<Path>, why: io::Error) -> JournalError {
        if why.kind() == io::ErrorKind::OutOfMemory {
            return JournalError::NoMemory;
        }
        JournalError::Io { file: file.as_ref().to_owned(), why: Arc::new(why) }
    }

    pub(crate) fn of(status: u32) -> JournalError {
        match status {
            ffi::FOLDER_ENDED => JournalError::Ended,
            ffi::FOLDER_TOO_LONG => JournalError::TooLong,
            ffi::NO_MEMORY => JournalError::NoMemory,
            status => JournalError::Unexpected(Unexpected::new(status)),
        }
    }
}

impl fmt::Display for JournalError {
    fn fmt(&self, f: &mut fmt::Formatter<'_>) -> fmt::Result {
        match self {
            JournalError::Held { folder, holder } => {
                write!(f, "{} is held by {holder}: stop it, or take another folder", folder.display())
            }
            JournalError::Damaged { file, at } => {
                write!(f, "{} is damaged at byte {at}: what was synced there has changed: put back a copy", file.display())
            }
            JournalError::OtherFormat { file, format } => {
                write!(f, "{} has format {format}, which this version does not read: use the one that wrote it", file.display())
            }
            JournalError::Old { file } => {
                write!(f, "{} is of an older svidd: start a newer svidd in the folder once", file.display())
            }
            JournalError::NoValidatorId { file } => {
                write!(f, "the file `place` is missing, and {} can't be read without it: put back a copy", file.display())
            }
            JournalError::BadValidatorId { file } => {
                write!(f, "{} is not 32 hexadecimal digits: put back a copy: no file of the folder can be read without it", file.display())
            }
            JournalError::NameMayNotLast { folder, why } => {
                let folder = folder.display();
                write!(f, "the name of {folder} may not last ({why}): mend the disk, remove this folder, which keeps nothing yet, and start again")
            }
            JournalError::Io { file, why } => write!(f, "{}: {why}", file.display()),
            JournalError::Ended => words::write_plain(f, ffi::FOLDER_ENDED),
            JournalError::Moved { folder } => {
                write!(f, "the state folder is no longer at {}: put it back there, and start the service again", folder.display())
            }
            JournalError::Late => f.write_str("the disk did not answer in time: the messages may be kept or not"),
            JournalError::Full => f.write_str("the disk does not answer, and too much waits for it: try again later"),
            JournalError::TooLong => f.write_str("the messages are more than 16,777,187 bytes: cut them"),
            JournalError::NoMemory => words::write_plain(f, ffi::NO_MEMORY),
            JournalError::Record(why) => write!(f, "the record can't be written: {why}"),
            JournalError::Guard(why) => write!(f, "the guard can't be opened: {why}"),
            JournalError::Unexpected(why) => why.fmt(f),
        }
    }
}

impl std::error::Error for JournalError {
    fn source(&self) -> Option<&(dyn std::error::Error + 'static)> {
        match self {
            JournalError::Io { why, .. } | JournalError::NameMayNotLast { why, .. } => Some(why.as_ref()),
            JournalError::Record(why) | JournalError::Guard(why) => Some(why),
            JournalError::Unexpected(why) => Some(why),
            _ => None,
        }
    }
}

impl From<Error> for JournalError {
    fn from(why: Error) -> JournalError {
        JournalError::Record(why)
    }
}
