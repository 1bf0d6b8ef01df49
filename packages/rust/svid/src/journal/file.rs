//! What a file of a state folder holds.

use std::ops::Range;
use std::path::PathBuf;

use super::JournalError;
use crate::ffi::{self, Bears, Frame, Reader};
use crate::record::ValidatorId;

/// Where reading a file ends.
#[derive(Debug, Clone, Copy, PartialEq, Eq)]
pub enum End {
    /// Nothing was written here.
    Nothing,
    /// A write was cut off: nobody had an answer that it is on the disk.
    Tear,
    /// What was synced here has changed.
    Damage,
    /// A frame of the format of this number stands here.
    Other(u64),
}

/// What a file of the folder holds.
pub struct Contents {
    content: Vec<u8>,
    messages: Vec<Range<usize>>,
    /// Where reading ended, and how many bytes the frames take.
    pub end: End,
    pub at: u64,
}

impl Contents {
    /// Reads the frames of a file of this number: a snapshot has 0.
    pub fn read(content: Vec<u8>, number: u64, id: ValidatorId) -> Result<Contents, JournalError> {
        let mut made = Contents { content, messages: Vec::new(), end: End::Nothing, at: 0 };
        let (end, at) = frames(&made.content, number, id, |range| {
            let payload = made.content.get(range.clone()).unwrap_or_default();
            let messages = front(payload);
            made.messages.try_reserve(1).map_err(|_| JournalError::NoMemory)?;
            made.messages.push(range.start.saturating_add(messages)..range.end);
            Ok(())
        })?;
        (made.end, made.at) = (end, at);
        Ok(made)
    }

    /// The messages of each payload, in their order.
    pub fn messages(&self) -> impl Iterator<Item = &[u8]> {
        self.messages.iter().filter_map(|it| self.content.get(it.clone())).filter(|it| !it.is_empty())
    }

    /// Why a start can't read this file, if it can't.
    pub fn fault(&self, file: PathBuf, has_id: bool) -> Option<JournalError> {
        if let End::Other(format) = self.end {
            return Some(JournalError::OtherFormat { file, format });
        }
        if self.end != End::Nothing && self.at == 0 && begins_as_messages(&self.content) {
            return Some(JournalError::Old { file });
        }
        if !has_id && self.content.iter().any(|byte| *byte != 0) {
            return Some(JournalError::NoValidatorId { file });
        }
        (self.end == End::Damage).then_some(JournalError::Damaged { file, at: self.at })
    }
}

/// Gives each payload of a file to `take`, as where it stands, and says where reading ends, and why.
pub fn frames(
    content: &[u8],
    number: u64,
    id: ValidatorId,
    mut take: impl FnMut(Range<usize>) -> Result<(), JournalError>,
) -> Result<(End, u64), JournalError> {
    let (folder_id, mut reader, mut frame) = (ffi::FolderId { bytes: id.0 }, Reader::default(), Frame::default());
    loop {
        // SAFETY: the content is a slice with its length, and nothing overlaps.
        let status = unsafe { ffi::svid_journal_read(&folder_id, number, content.as_ptr(), content.len(), &mut reader, &mut frame) };
        let end = match status {
            ffi::OK => {
                take(frame.payload..frame.payload.saturating_add(frame.len))?;
                continue;
            }
            ffi::FILE_END => End::Nothing,
            ffi::FILE_TEAR => End::Tear,
            ffi::FILE_DAMAGE => End::Damage,
            ffi::FILE_OTHER => End::Other(frame.format),
            status => return Err(JournalError::of(status)),
        };
        return Ok((end, reader.at));
    }
}

/// Whether a file may be one of an older version, which is messages without frames: the library finds no fault at its beginning. What is
/// cut off there goes on with zeros.
fn begins_as_messages(content: &[u8]) -> bool {
    let (mut text, mut told) = ([0; 128], ffi::Told::default());
    text.iter_mut().zip(content.iter().take(64)).for_each(|(to, byte)| *to = *byte);
    // SAFETY: the text is an array with its length, and no room is lent.
    let status = unsafe { ffi::svid_entries_read(text.as_ptr(), text.len(), std::ptr::null_mut(), 0, &mut told) };
    status != ffi::MAGIC || told.message > 1
}

/// Where the messages of a payload begin: svidd may say before them where it is in the log of its group.
fn front(payload: &[u8]) -> usize {
    let mut bears = Bears::default();
    // SAFETY: the payload is a slice with its length, and nothing overlaps.
    unsafe { ffi::svid_journal_bears(payload.as_ptr(), payload.len(), &mut bears) };
    bears.messages
}
