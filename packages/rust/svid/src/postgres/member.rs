//! A member of a group's store.

use std::sync::{Arc, Mutex, MutexGuard, PoisonError};
use std::time::{Duration, Instant};

use tokio::sync::Semaphore;
use tokio_postgres::Row;

use super::fault::{only, within, Fault};
use super::servers::Servers;
use super::session::{Session, Value};
use super::statements as said;
use crate::record::TokenKey;
use crate::store::{Claim, Found, WITHDRAWN};

/// How many bytes an answer begins with, and how many an entry of it and a withdrawal have.
const HEAD: usize = 33;
const CELL: usize = 33;
const STORED: u8 = said::STORED as u8;
const ONE: usize = 40;

/// What the members agree on, in seconds: the longest time from a claim to an expiry, the margin after that, and of it the step back.
#[derive(Debug, Clone, Copy)]
pub(crate) struct Terms {
    pub lasts: i64,
    pub margin: i64,
    pub back: i64,
}

/// What a look at the store saw.
pub(crate) struct Sight {
    pub epoch: String,
    pub deaf: u64,
    pub time: u64,
    /// For so long no claim has an answer.
    pub pause: Duration,
    is_due: bool,
}

/// A member, which is to look at the store once a second. Each call ends with the moment that it is given.
pub(crate) struct Member {
    pub servers: Arc<Servers>,
    group: String,
    replicas: i32,
    terms: Terms,
    /// Who looks at the store has it.
    turn: tokio::sync::Mutex<()>,
    calls: Semaphore,
    known: Mutex<Known>,
}

#[derive(Default)]
struct Known {
    idle: Vec<Session>,
    /// Sessions that may do yet what was given up.
    left: Vec<String>,
    epoch: Option<String>,
    /// Why nothing is accepted.
    unfit: Option<Fault>,
    marks: Vec<Claim>,
}

/// What a call like put answers.
struct Answer {
    status: u8,
    time: u64,
    deaf: u64,
    epoch: String,
    cells: Vec<u8>,
}

impl Member {
    pub fn new(servers: Arc<Servers>, group: &str, replicas: i32, terms: Terms) -> Member {
        let calls = Semaphore::new(said::MOST_CALLS as usize);
        Member { servers, group: group.to_owned(), replicas, terms, turn: tokio::sync::Mutex::default(), calls, known: Mutex::default() }
    }

    /// The epoch that this member knows.
    pub fn epoch(&self) -> Option<String> {
        self.known().epoch.clone()
    }

    /// Whether a claim is under way.
    #[cfg(test)]
    pub fn is_calling(&self) -> bool {
        self.calls.available_permits() < said::MOST_CALLS as usize
    }

    /// Looks at the store, and removes what is over.
    pub async fn look(&self, given: Instant) -> Result<Sight, Fault> {
        // (who hangs here must not hinder the next look)
        let longest = self.epoch().map_or(given, |_| Instant::now() + Duration::from_millis(said::STATE_WAIT));
        let end = given.min(longest);
        let _turn = within(end, self.turn.lock()).await?;
        self.end_left(end).await?;
        let sight = self.see(end).await?;
        let now = Instant::now();
        let half = now + (end.saturating_duration_since(now) / 2).min(Duration::from_secs(1));
        let mut is_due = sight.is_due;
        while is_due && Instant::now() < half {
            is_due = only(self.call(said::EXPIRE, &[], false, end).await?)?.get::<i64>(0)? == said::PIECES as i64;
        }
        Ok(sight)
    }

    /// Asks what the store is, and keeps what of that matters to a claim.
    async fn see(&self, end: Instant) -> Result<Sight, Fault> {
        let (known, marks) = (self.epoch(), self.known().marks.clone());
        let ((keys, owners, ends), Terms { lasts, margin, back }) = (arrays(&marks), self.terms);
        let values: [Value<'_>; 7] = [&known, &keys, &owners, &ends, &self.replicas, &margin, &back];
        let row = only(self.call(said::STATE, &values, false, end).await?)?;
        let number = |at| row.get::<i64>(at).map(|it| u64::try_from(it).unwrap_or(0));
        let (epoch, time, its_margin) = (row.get::<String>(0)?, number(2)?, number(5)?);
        let sight = Sight { epoch, deaf: number(1)?, time, pause: Duration::from_millis(number(3)?), is_due: row.get::<i64>(6)? == 1 };
        let (its_lasts, unfit) = (row.get::<i64>(4)?, row.get::<Option<String>>(7)?);
        {
            let mut is = self.known();
            is.unfit = unfit.map(|text| Fault { name: "unfit", text, code: String::new() });
            if let Some(why) = &is.unfit {
                return Err(why.clone());
            }
            if is.epoch.as_ref() != Some(&sight.epoch) {
                is.epoch = Some(sight.epoch.clone());
                is.marks.clear();
            }
            is.marks.retain(|it| it.expires.saturating_add(its_margin) >= time);
        }
        if its_lasts < lasts {
            self.call(said::AGREE, &[&lasts], false, end).await?;
        }
        Ok(sight)
    }

    /// Ends what was given up: a call that waits for a standby does so for ever.
    async fn end_left(&self, end: Instant) -> Result<(), Fault> {
        let left = std::mem::take(&mut self.known().left);
        if left.is_empty() {
            return Ok(());
        }
        let done = self.call(said::TERMINATE, &[&left.join(",")], false, end).await;
        if done.is_err() {
            self.known().left.extend(left);
        }
        done.map(drop)
    }

    /// Puts claims. Each has an answer of its own.
    pub async fn put(&self, claims: &[Claim], end: Instant) -> Vec<Result<Found, Fault>> {
        let (mut all, mut parts) = (Vec::with_capacity(claims.len()), vec![claims]);
        while let Some(part) = parts.pop() {
            let (keys, owners, ends) = arrays(part);
            let answer = match part {
                [] => break,
                [_] => self.decide(said::PUT_ONE, &[&keys[0], &owners[0], &ends[0]], 1, end).await,
                _ => self.decide(said::PUT, &[&keys, &owners, &ends], part.len(), end).await,
            };
            match answer {
                Ok(answer) => {
                    let from = all.len();
                    all.extend(part.iter().enumerate().map(|(n, claim)| answer.found(n, claim.owner)));
                    self.keep(part, &all[from..], &answer);
                }
                Err(why) if why.is(said::HELD) && part.len() > 1 => {
                    let (one, other) = part.split_at(part.len() / 2);
                    parts.extend([other, one]); // (one of them may hold up all)
                }
                Err(why) => all.extend(part.iter().map(|_| Err(why.clone()))),
            }
        }
        all
    }

    /// Withdraws a token, and gives the owner that is there.
    pub async fn withdraw(&self, key: TokenKey, expires: u64, end: Instant) -> Result<[u8; 32], Fault> {
        let one = Claim { key, owner: WITHDRAWN, expires };
        let (keys, _, ends) = arrays(std::slice::from_ref(&one));
        let answer = self.decide(said::WITHDRAW, &[&keys[0], &ends[0]], 1, end).await?;
        let found = answer.found(0, WITHDRAWN)?;
        if answer.has_stored(0) {
            self.keep(&[one], &[Ok(found)], &answer); // (a withdrawal that was there may end earlier)
        }
        Ok(found.owner)
    }

    /// The withdrawals after a position, and the position up to which these are read.
    pub async fn withdrawals(&self, after: &str, end: Instant) -> Result<(Vec<(TokenKey, u64)>, String), Fault> {
        let row = only(self.call(said::WITHDRAWALS, &[&after.replace('\0', " ")], false, end).await?)?;
        let (last, bytes) = (row.get(0)?, row.get::<&[u8]>(1)?);
        let one = |it: &[u8]| Some((TokenKey(it[..32].try_into().ok()?), u64::from_be_bytes(it[32..].try_into().ok()?)));
        let these: Vec<_> = bytes.chunks_exact(ONE).filter_map(one).collect();
        match bytes.len() == ONE * these.len() {
            true => Ok((these, last)),
            false => Err(said::ANSWER.into()),
        }
    }

    /// Keeps the claim in mind that lives longest of those that a call stored, and each that was there: each look asks whether they are there.
    fn keep(&self, claims: &[Claim], found: &[Result<Found, Fault>], answer: &Answer) {
        let mut known = self.known();
        if known.epoch.as_ref() != Some(&answer.epoch) {
            return;
        }
        let is_mine = |n: &usize| found[*n].as_ref().map_or(false, |it| it.owner == claims[*n].owner);
        let (stored, earlier): (Vec<_>, Vec<_>) = (0..claims.len()).filter(is_mine).partition(|n| answer.has_stored(*n));
        for n in earlier {
            mark_late(&mut known.marks, claims[n]);
        }
        if let Some(one) = stored.into_iter().map(|n| claims[n]).max_by_key(|it| it.expires) {
            mark(&mut known.marks, one);
        }
    }

    /// Calls a function that answers as put does. Where the answer does not count, looks at the store, so that the next one may.
    async fn decide(&self, text: &'static str, values: &[Value<'_>], count: usize, end: Instant) -> Result<Answer, Fault> {
        if self.epoch().is_none() {
            self.look(end).await?;
        }
        let (epoch, unfit) = (self.epoch(), self.known().unfit.clone());
        if let Some(why) = unfit {
            return Err(why);
        }
        let turn = within(end, self.calls.acquire()).await?;
        let called = self.call(text, values, true, end).await;
        drop(turn);
        let answer = match called.and_then(|rows| Answer::of(rows, count)) {
            Ok(answer) => answer,
            Err(why) => {
                if why.is(said::MISSING) || why.is(said::ALONE) {
                    self.look(end).await?;
                }
                return Err(why);
            }
        };
        let is_same = epoch.as_ref() == Some(&answer.epoch);
        if answer.status == 0 && is_same {
            return Ok(answer);
        }
        if u64::from(answer.status) != said::QUARANTINE || !is_same {
            self.look(end).await?;
        }
        Err(reason(said::OF_STATUS, answer.status).unwrap_or(if answer.status == 0 { said::EPOCH } else { said::ANSWER }).into())
    }

    /// Makes a call on a connection to the primary, whose answer counts. `confirms`: other servers must have what it commits.
    async fn call(&self, text: &'static str, values: &[Value<'_>], confirms: bool, end: Instant) -> Result<Vec<Row>, Fault> {
        let mut why = match self.call_once(text, values, confirms, end).await {
            Err(why) if why.is(said::RIGHTS) => why,
            made => return made,
        };
        let lacking = self.call_once(said::LACKING, &[&self.group], false, end).await.and_then(only);
        if let Ok(Some(rights)) = lacking.and_then(|row| row.get::<Option<String>>(0)) {
            why.text = format!("{why}: {rights}");
        }
        Err(why)
    }

    async fn call_once(&self, text: &'static str, values: &[Value<'_>], confirms: bool, end: Instant) -> Result<Vec<Row>, Fault> {
        let mut one = self.taken(end).await?;
        let (at, begun) = (one.at, self.servers.now());
        let mut made = one.call(text, values, end).await;
        if made.is_ok() && confirms && self.replicas > 1 {
            let kept = one.call(said::KEPT, &[&self.replicas], end).await.and_then(only).and_then(|row| row.get::<i64>(0));
            match kept {
                Ok(1) => {}
                Ok(_) => made = Err(said::ALONE.into()),
                Err(why) => made = Err(why),
            }
        }
        if made.is_ok() && confirms && begun.is_older_than(Duration::from_millis(said::SOON), &self.servers.now()) {
            // (it may be gone, and who was away would see that later than its answer)
            made = one.role(end).await.and(made);
        }
        match made {
            Ok(rows) => {
                self.give(one);
                self.servers.counts(at).map(|()| rows)
            }
            Err(why) => {
                let known = reason(said::OF_CODES, why.code.as_str());
                match known {
                    Some(said::HELD) => self.give(one), // (nothing has happened to it)
                    _ => self.end_all(one, why.code.is_empty()),
                }
                Err(known.map_or(why, Fault::from))
            }
        }
    }

    async fn taken(&self, end: Instant) -> Result<Session, Fault> {
        loop {
            let idle = self.known().idle.pop();
            match idle {
                Some(one) if self.servers.counts(one.at).is_ok() => return Ok(one),
                Some(_) => {}
                None => break,
            }
        }
        let at = self.servers.primary(end).await?;
        let dial = end.min(Instant::now() + Duration::from_millis(said::DIAL_WAIT));
        let reached = async {
            let (mut one, role) = self.servers.reach(at, dial).await?;
            if !role.is_primary {
                return Err(said::STANDBY.into());
            }
            one.name = only(one.call(said::SESSION, &[], dial).await?)?.get(5)?;
            Ok(one)
        };
        reached
            .await
            .map_err(|why: Fault| if why.name == "server" { Fault::server(format_args!("address {}: {why}", at + 1)) } else { why })
    }

    fn give(&self, one: Session) {
        let mut known = self.known();
        if known.idle.len() <= said::MOST_CALLS as usize {
            known.idle.push(one);
        }
    }

    /// Ends a connection, with all that wait. `may_go_on`: the server may do yet what was asked.
    fn end_all(&self, one: Session, may_go_on: bool) {
        let mut known = self.known();
        known.idle.clear();
        if may_go_on && known.left.len() < said::MOST_LEFT as usize {
            known.left.push(one.name.clone());
        }
    }

    fn known(&self) -> MutexGuard<'_, Known> {
        self.known.lock().unwrap_or_else(PoisonError::into_inner)
    }
}

impl Answer {
    /// Reads an answer for so many claims.
    fn of(rows: Vec<Row>, count: usize) -> Result<Answer, Fault> {
        let row = only(rows)?;
        let bytes: &[u8] = row.get(0)?;
        if bytes.len() != HEAD && bytes.len() != HEAD + count * CELL {
            return Err(said::ANSWER.into());
        }
        let number = |from: usize, to: usize| bytes[from..to].iter().fold(0, |all: u128, byte| all << 8 | u128::from(*byte));
        let (id, part) = (number(17, HEAD), |from: u32| number(17, HEAD) >> from & 0xffff);
        let epoch = format!("{:08x}-{:04x}-{:04x}-{:04x}-{:012x}", id >> 96, part(80), part(64), part(48), id & 0xffff_ffff_ffff);
        Ok(Answer { status: bytes[0], time: number(1, 9) as u64, deaf: number(9, 17) as u64, epoch, cells: bytes[HEAD..].to_vec() })
    }

    /// What is answered to one of the claims.
    fn found(&self, n: usize, own: [u8; 32]) -> Result<Found, Fault> {
        let found = |owner| Found { owner, time: self.time, deaf: self.deaf };
        match self.cells.chunks_exact(CELL).nth(n) {
            None => Ok(found(own)), // (without entries each is there by this call)
            Some([1 | STORED, owner @ ..]) => owner.try_into().map(found).map_err(|_| said::ANSWER.into()),
            Some(cell) => Err(reason(said::OF_CELL, cell[0]).unwrap_or(said::ANSWER).into()),
        }
    }

    /// Whether the call stored the claim with a number, where it is there.
    fn has_stored(&self, n: usize) -> bool {
        self.cells.chunks_exact(CELL).nth(n).map_or(true, |it| it[0] == STORED)
    }
}

/// Marks with one more, which an earlier call had stored, whose answer may not have come. Its order at the server is not known.
pub(super) fn mark_late(marks: &mut Vec<Claim>, one: Claim) {
    if marks.iter().any(|it| it.key == one.key) {
        return;
    }
    let mut older = marks.len().saturating_sub(said::RECENT_MARKS as usize);
    if older == (said::MOST_MARKS - said::RECENT_MARKS) as usize {
        older -= 1;
        marks.remove(older);
    }
    marks.insert(marks[..older].partition_point(|it| it.expires >= one.expires), one);
}

/// Marks with one more: the last ones that a call stored, and before them those that outlive all that came later. What a store loses at its end is the last
/// claim, or some of the last. So one of the marks is lost too, while it has not expired.
pub(super) fn mark(marks: &mut Vec<Claim>, one: Claim) {
    marks.push(one);
    if let Some(newest) = marks.len().checked_sub(1 + said::RECENT_MARKS as usize) {
        let expires = marks[newest].expires;
        let outlive = marks[..newest].iter().take_while(|it| it.expires > expires).count();
        // (where there is no room, the last of these says nearly as much)
        marks.drain(outlive.min((said::MOST_MARKS - said::RECENT_MARKS) as usize - 1)..newest);
    }
}

/// Claims as the arguments of put.
fn arrays(claims: &[Claim]) -> (Vec<&[u8]>, Vec<&[u8]>, Vec<i64>) {
    let end = |it: &Claim| it.expires.min(said::MOST_EXPIRY) as i64;
    (claims.iter().map(|it| &it.key.0[..]).collect(), claims.iter().map(|it| &it.owner[..]).collect(), claims.iter().map(end).collect())
}

fn reason<T: PartialEq>(of: &[(T, said::Reason)], it: T) -> Option<said::Reason> {
    of.iter().find(|row| row.0 == it).map(|row| row.1)
}
