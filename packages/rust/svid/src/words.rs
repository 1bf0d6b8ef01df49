//! What the statuses of the library say in words. The library has the texts.

use std::fmt;

use crate::ffi::{self, Told};

/// Writes what is wrong by a status, `whence`, and what to do.
pub(crate) fn write(f: &mut fmt::Formatter<'_>, status: u32, whence: fmt::Arguments<'_>) -> fmt::Result {
    let (mut room, mut long, mut told) = ([0; 128], Vec::new(), Told::default());
    let mut out = &mut room[..];
    // SAFETY: `out` is a slice with its length, and `told` is written alone.
    while unsafe { ffi::svid_status_sentence(status, out.as_mut_ptr(), out.len(), &mut told) } != ffi::OK {
        long.resize(told.len, 0); // (it had no room)
        out = &mut long;
    }
    let (says, advice) = out.get_mut(..told.len).unwrap_or_default().split_at_mut(told.more.min(told.len));
    f.write_str(clause(says))?;
    f.write_fmt(whence)?;
    match clause(advice.get_mut(1..).unwrap_or_default()) {
        "" => Ok(()),
        advice => write!(f, ": {advice}"),
    }
}

/// Writes what is wrong by a status, and what to do.
pub(crate) fn write_plain(f: &mut fmt::Formatter<'_>, status: u32) -> fmt::Result {
    write(f, status, format_args!(""))
}

/// A sentence as a part of another one: without a capital, and without a period.
fn clause(sentence: &mut [u8]) -> &str {
    if let Some(first) = sentence.first_mut() {
        first.make_ascii_lowercase();
    }
    // (each text of the library is UTF-8)
    let text = std::str::from_utf8(sentence).unwrap_or_default();
    text.strip_suffix('.').unwrap_or(text)
}

/// What is wrong by a status and what to do, or what is due.
pub(crate) struct Says {
    pub(crate) status: u32,
    pub(crate) due: &'static str,
}

impl fmt::Display for Says {
    fn fmt(&self, f: &mut fmt::Formatter<'_>) -> fmt::Result {
        write_plain(f, self.status)?;
        match self.due {
            "" => Ok(()),
            due => write!(f, ", and due is {due}"),
        }
    }
}
