//! The calls of a member, and who waits for what they say: this stands under the lock of the validator.

use std::collections::HashMap;
use std::thread::{self, Thread};

use super::{done, Core};
use crate::error::Error;
use crate::ffi::{self, Deed, Known, MemberTerms, Told, Withdrawal};
use crate::open_token::OpenToken;
use crate::record::{text_of, Accepted, Use};
use crate::unavailable::Unavailable;

/// Who waits for the answers of a member.
#[derive(Default)]
pub(crate) struct Waiting {
    requests: HashMap<u64, Request>,
    withdrawals: HashMap<u64, Ending>,
}

/// A request that has no answer yet, and what its thread gets.
struct Request {
    thread: Thread,
    caller: [u8; 32],
    answer: Option<Deed>,
    next: Option<Deed>,
    found: Option<ffi::Found>,
    /// Its use is on its way to the disk.
    is_writing: bool,
}

/// A withdrawal on its way to its keepers.
struct Ending {
    thread: Thread,
    ended: Option<Withdrawal>,
}

/// What a thread is to do for its request.
pub(crate) enum Step {
    /// What the library says.
    Deed(Deed),
    /// The store has answered its claim.
    Found(ffi::Found),
}

impl Core {
    pub fn open_member(&mut self, terms: &MemberTerms) -> Result<(), Error> {
        // SAFETY: the handle is open, and nothing overlaps.
        told(unsafe { ffi::svid_member_open(&mut self.raw, terms) })
    }

    /// Replaces who may call. Both are texts of lines.
    pub fn rules(&mut self, own: &[u8], callers: &[u8]) -> Result<(), Error> {
        // SAFETY: the handle is open, and both texts are slices with their lengths.
        told(unsafe { ffi::svid_member_rules(&mut self.raw, own.as_ptr(), own.len(), 0, callers.as_ptr(), callers.len()) })
    }

    /// Tells the library what the validator has, with its bundles as they are now. A store that was reached or heard stays so: a thread that looked
    /// before may tell that later.
    pub fn know(&mut self, known: &Known) -> Result<(), Error> {
        let Known { bundled, opened, heard, .. } = self.known;
        self.known = Known { bundled, opened: opened | known.opened, heard: heard | known.heard, ..*known };
        // SAFETY: the handle is open, and nothing overlaps.
        told(unsafe { ffi::svid_member_know(&mut self.raw, &self.known) })
    }

    /// Tells the library that its bundles were exchanged.
    pub fn know_bundles(&mut self) -> Result<(), Error> {
        let known = self.known;
        self.know(&known)
    }

    /// Whether the bundle of a token's trust domain is to come, which is not the token's fault.
    fn awaits_bundle(&self, token: &OpenToken<'_>) -> Result<bool, Error> {
        let said = token.said()?;
        Ok(self.known.bundled == 0 || self.named.iter().any(|it| it == said.trust_domain()))
    }

    pub fn ready(&mut self) -> Result<(), Error> {
        // SAFETY: the handle is open.
        told(unsafe { ffi::svid_member_ready(&mut self.raw) })
    }

    /// Asks for the keys of a token that was read, among those of the bundles now. Gives how many bytes the rows have: 0 if there is none.
    pub fn keys_of(&mut self, token: &mut OpenToken<'_>) -> Result<usize, Error> {
        token.edition = Some(self.edition);
        let (raw, mut told) = (&mut self.raw, Told::default());
        let OpenToken { raw: read, rows, .. } = token;
        let asked = ffi::written(rows, &mut told, |out, out_len, told| {
            // SAFETY: both handles are open, and `out` is the room with its length.
            unsafe { ffi::svid_validator_ask_token(raw, read, ffi::MOST_CANDIDATES, out, out_len, told) }
        });
        match asked.map_err(|status| Error::of(status, &told)) {
            // (another reason may come before this one, and the record is to see `now`)
            Err(Error::Refused(_)) => Ok(0),
            len => len,
        }
    }

    /// Whether these bundles were asked for the keys of a token.
    pub fn has_asked(&self, token: &OpenToken<'_>) -> bool {
        token.edition == Some(self.edition)
    }

    /// Says what a check would of a token that was read, and adds nothing.
    pub fn judge_read(&mut self, now: u64, token: &mut OpenToken<'_>) -> Result<Accepted, Error> {
        let (mut told, mut used) = (Told::default(), ffi::Use::default());
        self.spare.try_reserve_exact(ffi::ID_ROOM).map_err(|_| Error::NoMemory)?;
        let (read, shown) = token.lent();
        // SAFETY: both handles are open; the key, what was signed and the signature are slices with their lengths; and the room is no part of
        // them.
        let status = unsafe {
            ffi::svid_validator_judge_token(
                &mut self.raw,
                now,
                shown.key.as_ptr(),
                shown.key.len(),
                shown.input.as_ptr(),
                shown.input.len(),
                shown.signature.as_ptr(),
                shown.signature.len(),
                read,
                self.room.as_mut_ptr(),
                self.room.len(),
                &mut used,
                &mut told,
            )
        };
        if status == ffi::UNKNOWN_DOMAIN && self.awaits_bundle(token)? {
            return Err(Error::Unavailable(Unavailable::NO_BUNDLE));
        }
        done(status, &told).map_err(|why| token.why(why))?;
        let id = self.room.get(..told.len).unwrap_or_default();
        Ok(Accepted::new(text_of(id, &mut self.spare)?, Use::of(&used, false), token.says.take()))
    }

    /// A request comes: its number. It is to be judged.
    pub fn come(&mut self, up: u64, caller: [u8; 32]) -> Result<u64, Error> {
        self.waiting.requests.try_reserve(1).map_err(|_| Error::NoMemory)?;
        let mut deed = Deed::default();
        // SAFETY: the handle is open, and nothing overlaps.
        told(unsafe { ffi::svid_member_come(&mut self.raw, up, &mut deed) })?;
        if deed.what != ffi::DEED_JUDGE {
            return Err(Error::unexpected(ffi::OK));
        }
        let thread = thread::current();
        self.waiting.requests.insert(deed.number, Request { thread, caller, answer: None, next: None, found: None, is_writing: false });
        Ok(deed.number)
    }

    /// Lets the library judge the token of a request, with what the store has found, if it has. Gives the SPIFFE ID of its subject, if it may be
    /// accepted.
    pub fn judge_request(
        &mut self,
        now: u64,
        up: u64,
        number: u64,
        token: &mut OpenToken<'_>,
        found: Option<&ffi::Found>,
    ) -> Result<Option<String>, Error> {
        let (mut told, mut used, mut deed) = (Told::default(), ffi::Use::default(), Deed::default());
        // (what was accepted can be told, so this comes before the call)
        self.spare.try_reserve_exact(ffi::ID_ROOM).map_err(|_| Error::NoMemory)?;
        let caller = self.waiting.requests.get(&number).map_or([0; 32], |it| it.caller);
        let (raw, room, room_len) = (&mut self.raw, self.room.as_mut_ptr(), self.room.len());
        let (read, shown) = token.lent();
        let (key, key_len) = (shown.key.as_ptr(), shown.key.len());
        let (input, input_len) = (shown.input.as_ptr(), shown.input.len());
        let (signature, signature_len) = (shown.signature.as_ptr(), shown.signature.len());
        // SAFETY: both handles are open; the key, what was signed, the signature and the room are slices with their lengths; and nothing
        // overlaps.
        let status = unsafe {
            match found {
                Some(found) => ffi::svid_member_found(
                    raw,
                    now,
                    up,
                    number,
                    &caller,
                    found,
                    key,
                    key_len,
                    input,
                    input_len,
                    signature,
                    signature_len,
                    read,
                    room,
                    room_len,
                    &mut used,
                    &mut deed,
                    &mut told,
                ),
                None => ffi::svid_member_judge(
                    raw,
                    now,
                    up,
                    number,
                    key,
                    key_len,
                    input,
                    input_len,
                    signature,
                    signature_len,
                    read,
                    room,
                    room_len,
                    &mut used,
                    &mut deed,
                    &mut told,
                ),
            }
        };
        // (after these nothing happened; the deed tells all others)
        if matches!(status, ffi::CLOSED | ffi::JUMP | ffi::TOO_SHORT | ffi::HAS_LOG | ffi::NO_MEMBER) {
            return Err(Error::of(status, &told));
        }
        // (with the lock held that the judgment had: a bundle may come again)
        if status == ffi::UNKNOWN_DOMAIN && self.awaits_bundle(token)? {
            deed.status = ffi::NO_BUNDLE.into();
        }
        let subject = match status {
            ffi::OK => {
                let id = self.room.get(..told.len).unwrap_or_default();
                Some(text_of(id, &mut self.spare)?)
            }
            _ => None,
        };
        self.hand(deed, Some(number));
        Ok(subject)
    }

    /// What is to be done for a request, if that is known. An answer takes it from those that wait.
    pub fn step(&mut self, up: u64, number: u64) -> Result<Option<Step>, Error> {
        let request = match self.waiting.requests.get_mut(&number) {
            Some(request) => request,
            None => return Err(Error::unexpected(ffi::UNASKED)),
        };
        let (next, found) = (request.next.take(), request.found);
        if let Some(answer) = request.answer {
            let is_writing = request.is_writing;
            self.waiting.requests.remove(&number);
            if is_writing && answer.status() != ffi::OK {
                // (the disk hangs, until it says otherwise)
                self.wrote(up, number, false)?;
            }
            return Ok(Some(Step::Deed(answer)));
        }
        if next.is_some() {
            return Ok(next.map(Step::Deed));
        }
        request.found = None;
        Ok(found.map(Step::Found))
    }

    /// The use of a request is on its way to the disk, or is not any more.
    pub fn writes(&mut self, number: u64, is_writing: bool) {
        if let Some(request) = self.waiting.requests.get_mut(&number) {
            request.is_writing = is_writing;
        }
    }

    pub fn wrote(&mut self, up: u64, number: u64, ok: bool) -> Result<(), Error> {
        let mut deed = Deed::default();
        // SAFETY: the handle is open, and nothing overlaps.
        told(unsafe { ffi::svid_member_wrote(&mut self.raw, up, number, ok.into(), &mut deed) })?;
        self.hand(deed, None);
        Ok(())
    }

    /// Who presents the token of a request, if its claim is to go out now.
    pub fn send(&mut self, up: u64, number: u64) -> Result<Option<[u8; 32]>, Error> {
        let mut deed = Deed::default();
        // SAFETY: the handle is open, and nothing overlaps.
        told(unsafe { ffi::svid_member_send(&mut self.raw, up, number, &mut deed) })?;
        match (deed.what, self.waiting.requests.get(&number)) {
            (ffi::DEED_CLAIM, Some(request)) => Ok(Some(request.caller)),
            _ => {
                self.hand(deed, None);
                Ok(None)
            }
        }
    }

    /// The store has answered the claim of a request.
    pub fn found(&mut self, number: u64, found: ffi::Found) {
        if let Some(request) = self.waiting.requests.get_mut(&number) {
            request.found.get_or_insert(found);
            request.thread.unpark();
        }
    }

    /// Nobody waits for the answer to a request any more.
    pub fn leave(&mut self, up: u64, number: u64) -> Result<(), Error> {
        if self.waiting.requests.remove(&number).is_none() {
            return Ok(());
        }
        let mut deed = Deed::default();
        // SAFETY: the handle is open, and nothing overlaps.
        told(unsafe { ffi::svid_member_leave(&mut self.raw, up, number, &mut deed) })?;
        self.hand(deed, None);
        Ok(())
    }

    /// When something is due.
    pub fn due(&mut self) -> Result<u64, Error> {
        let mut out = ffi::Deadline::default();
        // SAFETY: the handle is open, and nothing overlaps.
        told(unsafe { ffi::svid_member_due(&mut self.raw, &mut out) })?;
        Ok(out.at)
    }

    /// Answers whatever is due.
    pub fn overdue(&mut self, up: u64) -> Result<(), Error> {
        loop {
            let mut deed = Deed::default();
            // SAFETY: the handle is open, and nothing overlaps.
            told(unsafe { ffi::svid_member_overdue(&mut self.raw, up, &mut deed) })?;
            if deed.what == ffi::DEED_NOTHING {
                break;
            }
            self.hand(deed, None);
        }
        loop {
            let mut made = Withdrawal::default();
            // SAFETY: the handle is open, and nothing overlaps.
            told(unsafe { ffi::svid_withdrawal_overdue(&mut self.raw, up, &mut made) })?;
            if !self.ended(made) {
                return Ok(());
            }
        }
    }

    /// The record has a withdrawal: its number.
    pub fn withdrawal_comes(&mut self, up: u64) -> Result<u64, Error> {
        self.waiting.withdrawals.try_reserve(1).map_err(|_| Error::NoMemory)?;
        let mut made = Withdrawal::default();
        // SAFETY: the handle is open, and nothing overlaps.
        told(unsafe { ffi::svid_withdrawal_come(&mut self.raw, up, &mut made) })?;
        self.waiting.withdrawals.insert(made.number, Ending { thread: thread::current(), ended: None });
        Ok(made.number)
    }

    /// A keeper has a withdrawal, or may not have it.
    pub fn withdrawal_told(&mut self, number: u64, keeper: u64, ok: bool) -> Result<(), Error> {
        let mut made = Withdrawal::default();
        // SAFETY: the handle is open, and nothing overlaps.
        told(unsafe { ffi::svid_withdrawal_told(&mut self.raw, number, keeper, ok.into(), &mut made) })?;
        self.ended(made);
        Ok(())
    }

    /// How a withdrawal has ended, if it has.
    pub fn withdrawal_ended(&self, number: u64) -> Option<Withdrawal> {
        self.waiting.withdrawals.get(&number).and_then(|it| it.ended)
    }

    /// Nobody waits for a withdrawal any more.
    pub fn leave_withdrawal(&mut self, number: u64) {
        self.waiting.withdrawals.remove(&number);
    }

    /// How many requests and withdrawals have no answer yet.
    #[cfg(test)]
    pub fn waits(&self) -> usize {
        self.waiting.requests.len() + self.waiting.withdrawals.len()
    }

    /// Hands what is to be done to the thread whose request it is for. `own` is the request of this thread.
    fn hand(&mut self, deed: Deed, own: Option<u64>) {
        let requests = &mut self.waiting.requests;
        let request = match deed.what {
            ffi::DEED_NOTHING => None,
            _ => requests.get_mut(&deed.number),
        };
        if let Some(request) = request {
            match deed.what {
                ffi::DEED_ANSWER => request.answer = Some(deed),
                _ => request.next = Some(deed),
            }
            if own != Some(deed.number) {
                request.thread.unpark();
            }
        }
        if deed.what == ffi::DEED_ANSWER && deed.next != ffi::NO_NUMBER {
            if let Some(after) = requests.get_mut(&deed.next) {
                after.next = Some(Deed { what: ffi::DEED_JUDGE, number: deed.next, ..Deed::default() });
                after.thread.unpark();
            }
        }
    }

    /// Hands on how a withdrawal has ended, if one has.
    fn ended(&mut self, made: Withdrawal) -> bool {
        if let Some(it) = self.waiting.withdrawals.get_mut(&made.number) {
            it.ended = Some(made);
            it.thread.unpark();
        }
        made.number != ffi::NO_NUMBER
    }
}

/// The error of a status of a call that tells nothing else.
fn told(status: u32) -> Result<(), Error> {
    done(status, &Told::default())
}
