//! The servers of a store.

use std::sync::{Arc, Mutex, MutexGuard, PoisonError};
use std::time::{Duration, Instant};

use tokio::sync::Notify;

use super::address::Address;
use super::fault::{within, Fault};
use super::session::{Role, Session};
use super::statements::{LOOK_EVERY, LOOK_WAIT, MOST_AGE, STALE, STANDBY};
use crate::moment::Moment;

/// How long ago the last look at each server may be, if what a server answers is to count.
const OLDEST: Duration = Duration::from_millis(MOST_AGE);

/// Gives the time by two clocks.
pub(crate) type Now = dyn Fn() -> Moment + Send + Sync;

/// All addresses. Where there are several, each one is looked at all the time: so a member does not go on with a primary whose place another server
/// has taken.
pub(crate) struct Servers {
    addresses: Vec<Address>,
    schema: String,
    now: Arc<Now>,
    seen: Mutex<Vec<Seen>>,
    changed: Notify,
}

/// What the last look at a server saw.
struct Seen {
    role: Result<Role, Fault>,
    at: Option<Moment>,
}

impl Servers {
    pub fn new(addresses: Vec<Address>, schema: String, now: Arc<Now>) -> Arc<Servers> {
        let seen = addresses.iter().map(|_| Seen { role: Err(STANDBY.into()), at: None }).collect();
        Arc::new(Servers { addresses, schema, now, seen: Mutex::new(seen), changed: Notify::new() })
    }

    /// Looks at all servers from now on, where there are several.
    pub fn begin(self: &Arc<Servers>) {
        for at in (0..self.addresses.len()).filter(|_| self.addresses.len() > 1) {
            tokio::spawn(Arc::clone(self).watch(at));
        }
    }

    /// The time.
    pub fn now(&self) -> Moment {
        (self.now)()
    }

    /// Lets the last look at a server have seen this.
    #[cfg(test)]
    pub fn saw(&self, at: usize, role: Result<Role, Fault>, when: Moment) {
        self.seen()[at] = Seen { role, at: Some(when) };
    }

    /// Connects to a server, and asks what it is.
    pub async fn reach(&self, at: usize, end: Instant) -> Result<(Session, Role), Fault> {
        let mut session = Session::open(at, &self.addresses[at], &self.schema, end).await?;
        let role = session.role(end).await?;
        Ok((session, role))
    }

    /// The number of the primary, once each server was looked at.
    pub async fn primary(&self, end: Instant) -> Result<usize, Fault> {
        let first = async {
            loop {
                let changed = self.changed.notified();
                if let Some(first) = self.first() {
                    return first;
                }
                changed.await;
            }
        };
        within(end, first).await?
    }

    /// An error if what a server answers does not count.
    pub fn counts(&self, at: usize) -> Result<(), Fault> {
        let first = self.first().unwrap_or_else(|| Err(Fault::server("not all servers were looked at")))?;
        let seen = self.seen();
        match (&seen[first].role, &seen[at].role) {
            _ if first == at => Ok(()),
            (Ok(first), Ok(role)) if first == role => Ok(()),
            _ => Err(STALE.into()),
        }
    }

    /// The primary by the last looks; none before each server was looked at.
    fn first(&self) -> Option<Result<usize, Fault>> {
        if self.addresses.len() == 1 {
            return Some(Ok(0));
        }
        let (seen, now) = (self.seen(), self.now());
        seen.iter().all(|it| it.at.map_or(false, |at| !at.is_older_than(OLDEST, &now))).then(|| first_of(&seen))
    }

    /// Looks at a server until the end.
    async fn watch(self: Arc<Servers>, at: usize) {
        let mut session = None;
        loop {
            let begun = Instant::now();
            session = self.look(at, session, begun + Duration::from_millis(LOOK_WAIT)).await;
            tokio::time::sleep_until((begun + Duration::from_millis(LOOK_EVERY)).into()).await;
        }
    }

    /// Looks at a server, by a connection if there is one, and gives that which is there then.
    pub(super) async fn look(&self, at: usize, session: Option<Session>, end: Instant) -> Option<Session> {
        let begun = self.now();
        // (one of before a suspension may have ended, which says nothing of the server)
        let is_young = self.seen()[at].at.map_or(false, |at| !at.is_older_than(OLDEST, &begun));
        let looked = match session.filter(|_| is_young) {
            None => self.reach(at, end).await,
            Some(mut it) => it.role(end).await.map(|role| (it, role)),
        };
        let now = self.now();
        let (session, role, when) = match looked {
            Ok((it, role)) => (Some(it), Ok(role), begun),
            // (nobody knows whom it answered while this machine was suspended)
            Err(why) if begun.is_older_than(OLDEST, &now) => (None, Err(why), begun),
            Err(why) => (None, Err(why), now), // (it answered nobody until now)
        };
        self.seen()[at] = Seen { role, at: Some(when) };
        self.changed.notify_waiters();
        session
    }

    fn seen(&self) -> MutexGuard<'_, Vec<Seen>> {
        self.seen.lock().unwrap_or_else(PoisonError::into_inner)
    }
}

/// The primary by what was seen.
fn first_of(seen: &[Seen]) -> Result<usize, Fault> {
    let (mut first, mut faults): (Option<(usize, &Role)>, _) = (None, Vec::new());
    for (at, it) in seen.iter().enumerate() {
        let (role, (before, known)) = match (&it.role, first) {
            (Ok(role), Some(first)) if role.is_primary => (role, first),
            (is, _) => {
                match is {
                    Ok(role) if role.is_primary => first = Some((at, role)),
                    Ok(_) => faults.push(format!("address {}: {}", at + 1, STANDBY.1)),
                    Err(why) => faults.push(format!("address {}: {why}", at + 1)),
                }
                continue;
            }
        };
        let both = format!("addresses {} and {} are", before + 1, at + 1);
        if known.system != role.system {
            return Err(Fault::server(format_args!("{both} primaries of two database clusters: name the servers of one")));
        }
        if known != role && known.line == role.line {
            return Err(Fault::server(format_args!("{both} both primaries: stop the wrong one")));
        }
        if known.line < role.line {
            first = Some((at, role)); // (it was promoted later; one server may have two addresses)
        }
    }
    first.map(|it| it.0).ok_or_else(|| Fault::server(faults.join("; ")))
}
