use std::fmt;

/// What is wrong with bytes that are no message.
#[derive(Clone, Copy, Debug, PartialEq, Eq)]
#[rustfmt::skip]
// lists:begin messages (written by tools/lists from lists/statuses.toml)
pub enum Reason {
    Magic, Kind, Count, UseKind, UseExpired, UseFuture, UseOrder, Truncated,
}
// lists:end

/// The first thing that is wrong with a message, and its offset from the message's first byte.
#[derive(Clone, Copy, Debug, PartialEq, Eq)]
pub struct Fault {
    pub offset: usize,
    pub reason: Reason,
}

impl fmt::Display for Fault {
    fn fmt(&self, f: &mut fmt::Formatter<'_>) -> fmt::Result {
        write!(f, "place {}: {:?}", self.offset, self.reason)
    }
}
