use crate::batch::Batch;
use crate::fault::{Fault, Reason};
use crate::summary::Summary;
use crate::token_use::take;
use std::io::{self, Write};

/// What every message begins with: `JSR`, and the version.
const MAGIC: [u8; 4] = *b"JSR\x02";

/// Where the fields stand that every message has.
const MAGIC_OFFSET: usize = 0;
const KIND_OFFSET: usize = 4;

/// The fifth byte of a message.
#[derive(Clone, Copy)]
pub enum Kind {
    Batch = 1,
    Summary = 2,
}

impl Kind {
    fn read(byte: u8) -> Option<Kind> {
        [Kind::Batch, Kind::Summary]
            .into_iter()
            .find(|&kind| kind as u8 == byte)
    }
}

/// What stands in an input.
#[derive(Debug, PartialEq, Eq)]
pub enum Message {
    Batch(Batch),
    Summary(Summary),
}

impl Message {
    /// Takes the message that stands first in what is left, or answers the first field that is bad.
    pub fn read(rest: &mut &[u8]) -> Result<Message, Fault> {
        let truncated = Fault {
            offset: rest.len(),
            reason: Reason::Truncated,
        };
        if take(rest).ok_or(truncated)? != MAGIC {
            return Err(Fault {
                offset: MAGIC_OFFSET,
                reason: Reason::Magic,
            });
        }
        let [kind] = take(rest).ok_or(truncated)?;
        match Kind::read(kind) {
            Some(Kind::Batch) => Batch::read(rest, truncated).map(Message::Batch),
            Some(Kind::Summary) => Summary::read(rest).map(Message::Summary).ok_or(truncated),
            None => Err(Fault {
                offset: KIND_OFFSET,
                reason: Reason::Kind,
            }),
        }
    }
}

/// Writes what a message of this kind and moment begins with.
pub fn write_head(kind: Kind, moment: u64, out: &mut impl Write) -> io::Result<()> {
    out.write_all(&MAGIC)?;
    out.write_all(&[kind as u8])?;
    out.write_all(&moment.to_be_bytes())
}
