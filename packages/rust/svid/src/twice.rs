//! Tokens that several validators accepted, when one of them hears of that. What counts as twice, the library's report says.

use crate::error::Error;
use crate::ffi::{self, Entry, Told};
use crate::handle::{cut, Core};
use crate::record::TokenKey;

/// Of longer messages nothing is said: whoever takes so many wants a report.
const LONGEST: usize = 1 << 22;

/// Entries of a record, and those that it is about to take.
pub(crate) struct Twice {
    before: Vec<Entry>,
    told: Vec<Entry>,
}

impl Twice {
    /// Reads what messages tell, and what the record has beside that. Bytes that are no messages tell nothing.
    pub fn look(core: &mut Core, messages: &[u8]) -> Result<Twice, Error> {
        let mut twice = Twice { before: Vec::new(), told: Vec::new() };
        if messages.len() > LONGEST {
            return Ok(twice);
        }
        match read(messages, &mut twice.told) {
            Ok(()) => {}
            Err(Error::NoMemory) => return Err(Error::NoMemory),
            Err(_) => return Ok(twice),
        }
        let mut keys = keys_of(&twice.told)?;
        keys.sort_unstable();
        let (mut bucket, mut last) = (Vec::new(), None);
        for key in &keys {
            if last.replace(key[0]) == Some(key[0]) {
                continue;
            }
            read(&core.bucket(key[0])?, &mut bucket)?;
            bucket.retain(|it| keys.binary_search(&it.key).is_ok());
            add(&mut twice.before, &bucket)?;
        }
        Ok(twice)
    }

    /// The keys of the tokens that were accepted more than once, by these messages and not before.
    pub fn news(mut self) -> Result<Vec<TokenKey>, Error> {
        let mut keys = keys_of(&self.told)?;
        keys.sort_unstable();
        if self.before.is_empty() && keys.windows(2).all(|it| it[0] != it[1]) {
            return Ok(Vec::new());
        }
        let old = reported(&self.before)?;
        add(&mut self.before, &self.told)?;
        let mut new = reported(&self.before)?;
        new.retain(|it| !old.contains(it));
        Ok(new)
    }
}

/// The entries of messages.
pub(crate) fn read(messages: &[u8], entries: &mut Vec<Entry>) -> Result<(), Error> {
    // (a message has 64 bytes and more for each entry)
    let (room, mut told) = (messages.len() / 64, Told::default());
    entries.clear();
    entries.try_reserve_exact(room).map_err(|_| Error::NoMemory)?;
    entries.resize(room, Entry::default());
    // SAFETY: both are slices with their lengths, and nothing overlaps.
    let status = unsafe { ffi::svid_entries_read(messages.as_ptr(), messages.len(), entries.as_mut_ptr(), room, &mut told) };
    entries.truncate(if status == ffi::OK { told.len } else { 0 });
    match status {
        ffi::OK => Ok(()),
        status => Err(Error::of(status, &told)),
    }
}

fn keys_of(entries: &[Entry]) -> Result<Vec<[u8; 32]>, Error> {
    let mut keys = Vec::new();
    keys.try_reserve_exact(entries.len()).map_err(|_| Error::NoMemory)?;
    keys.extend(entries.iter().map(|it| it.key));
    Ok(keys)
}

fn add(entries: &mut Vec<Entry>, others: &[Entry]) -> Result<(), Error> {
    entries.try_reserve(others.len()).map_err(|_| Error::NoMemory)?;
    entries.extend_from_slice(others);
    Ok(())
}

/// These entries as messages.
pub(crate) fn written(entries: &[Entry]) -> Result<Vec<u8>, Error> {
    let (mut messages, mut told) = (Vec::new(), Told::default());
    let len = ffi::written(&mut messages, &mut told, |out, out_len, told| {
        // SAFETY: both are slices with their lengths, and nothing overlaps.
        unsafe { ffi::svid_entries_write(entries.as_ptr(), entries.len(), out, out_len, told) }
    });
    cut(messages, len, &told)
}

/// The keys that the report of these entries has after `twice` (docs/FORMATS.md).
fn reported(entries: &[Entry]) -> Result<Vec<TokenKey>, Error> {
    let (messages, mut report, mut told) = (written(entries)?, Vec::new(), Told::default());
    let len = ffi::written(&mut report, &mut told, |out, out_len, told| {
        // SAFETY: both are slices with their lengths, and nothing overlaps.
        unsafe { ffi::svid_report(messages.as_ptr(), messages.len(), 0, out, out_len, told) }
    });
    let report = cut(report, len, &told)?;
    let lines = report.split(|it| *it == b'\n').skip_while(|it| !it.starts_with(b"twice ")).skip(1);
    let mut keys = Vec::new();
    for key in lines.filter_map(key_of) {
        keys.try_reserve(1).map_err(|_| Error::NoMemory)?;
        keys.push(key);
    }
    Ok(keys)
}

/// The key at the beginning of a line.
fn key_of(line: &[u8]) -> Option<TokenKey> {
    let (digits, mut key) = (std::str::from_utf8(line).ok()?, [0; 32]);
    for (n, byte) in key.iter_mut().enumerate() {
        *byte = u8::from_str_radix(digits.get(2 * n..2 * n + 2)?, 16).ok()?;
    }
    Some(TokenKey(key))
}
