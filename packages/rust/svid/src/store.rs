//! The store of a group: it keeps one claim for each token, the first one that is put.

use crate::record::TokenKey;

/// The owner that a key has whose token was withdrawn.
pub const WITHDRAWN: [u8; 32] = [0; 32];

/// What is put under a key that has no owner yet.
#[derive(Debug, Clone, Copy, PartialEq, Eq, Hash)]
pub struct Claim {
    /// By which all uses of the token are known.
    pub key: TokenKey,
    /// 32 bytes that say whose claim it is.
    pub owner: [u8; 32],
    /// When the token expires, in seconds since 1970.
    pub expires: u64,
}

/// What a store answers to a claim.
#[derive(Debug, Clone, Copy, PartialEq, Eq, Hash)]
pub struct Found {
    /// The owner that the key has after the put. It may be that of an earlier claim.
    pub owner: [u8; 32],
    /// The store's time in seconds since 1970, read at the put or after it.
    pub time: u64,
    /// Tokens that expire by then may have been claimed before the store lost entries: no validator accepts them. 0 if it never lost one.
    pub deaf: u64,
}

/// Why a call to a store failed.
pub type StoreError = Box<dyn std::error::Error + Send + Sync>;

/// The store of a group, which validators in the modes [`Strict`](crate::Mode::Strict) and [`Bound`](crate::Mode::Bound) share.
///
/// It keeps the first claim of each token key:
///
/// - Two puts of one key never overlap, whoever makes them.
/// - An entry stays until its token has expired by the store's own clock, and for a margin after that: at least the validators'
///   [`ahead`](crate::Options::ahead), and what the clock of the store may step back.
/// - Before it answers again after it may have lost entries, it increases [`Found::deaf`]: to its time at the loss plus the validators'
///   [`longest`](crate::Options::longest) plus twice their `ahead`.
///
/// Several threads call it at once. After a call that fails or panics nobody knows what the store has, and the guard puts the same claims again.
/// A call blocks its thread. Let it end within some seconds, even if the server does not answer.
pub trait Store: Send + Sync {
    /// Puts each claim if its key has no owner yet, and says what each key has afterwards, in the order of the claims.
    ///
    /// Without claims it answers none: so a guard learns that the store is there.
    ///
    /// # Errors
    ///
    /// Any error says that there is no answer.
    fn put(&self, claims: &[Claim]) -> Result<Vec<Found>, StoreError>;

    /// From now on each put of this key finds the owner [`WITHDRAWN`], whoever claimed it before. The entry stays as one with this expiry does.
    ///
    /// # Errors
    ///
    /// Any error says that the store may not have the withdrawal.
    fn withdraw(&self, key: TokenKey, expires: u64) -> Result<(), StoreError>;

    /// The withdrawals that the store got after a position: the keys of the tokens, and when these expire. Then the position up to which it has
    /// read. The first position is "", and one that the store does not know reads all again. A guard asks until the position stays, and once a
    /// second from then on; in mode [`Strict`](crate::Mode::Strict) it asks for none, since the claim of a token tells that it was withdrawn.
    ///
    /// Without this method nobody hears of withdrawals before a claim.
    ///
    /// # Errors
    ///
    /// Any error says that there is no answer.
    fn withdrawals(&self, after: &str) -> Result<(Vec<(TokenKey, u64)>, String), StoreError> {
        Ok((Vec::new(), after.to_owned()))
    }
}
