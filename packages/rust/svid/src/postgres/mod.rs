//! The store of a group in PostgreSQL.

mod address;
mod fault;
mod member;
mod servers;
mod session;
#[rustfmt::skip]
mod statements;
#[cfg(test)]
mod tests;

use std::collections::HashMap;
use std::fmt;
use std::future::Future;
use std::io;
use std::panic::{catch_unwind, AssertUnwindSafe};
use std::sync::mpsc::{sync_channel, RecvTimeoutError};
use std::sync::{Arc, Mutex, MutexGuard, PoisonError};
use std::thread;
use std::time::{Duration, Instant};

use tokio::runtime::{Builder, Handle};
use tokio::sync::watch;

use self::address::Address;
pub use self::fault::PostgresError;

use self::fault::Fault;
use self::member::{Member, Sight, Terms};
use self::servers::{Now, Servers};
use self::statements as said;
use crate::moment::Moment;
use crate::options::{Options, Warns};
use crate::record::TokenKey;
use crate::store::{Claim, Found, Store, StoreError, WITHDRAWN};

/// How long after its time a call ends whose thread hangs.
const GRACE: Duration = Duration::from_millis(100);
/// How long a call may take at the most.
const LONGEST: Duration = Duration::from_secs(86_400);

/// The store of a group in PostgreSQL 15 or later. It is a member of the same store as `svidd` with `--store postgres://..`: services and sidecars
/// accept a token once together. An administrator makes the store by what `svidd schema` prints.
///
/// It looks at the store once a second, on a thread of its own, until it is dropped or [closed](PostgresStore::close). A call takes at most
/// [`Options::wait`]. After `fork`, only one of the two processes may go on with it.
///
/// ```no_run
/// use std::sync::Arc;
/// use svid::{Guard, Mode, OpenSsl, Options, PostgresStore, Sources};
///
/// let options = Options::new(["ledger"]).mode(Mode::Strict);
/// let store = PostgresStore::open(&options, &["postgres://sidecar1@db.example.org/tokens?sslmode=verify-full"], "svid", 1)?;
/// let sources = Sources::new().file("example.org", "/run/spire/bundle.json");
/// let guard = Guard::open(&options.store(Arc::new(store)), sources, OpenSsl::new())?;
/// # Ok::<(), Box<dyn std::error::Error>>(())
/// ```
pub struct PostgresStore {
    shared: Arc<Shared>,
    runtime: Handle,
    closing: watch::Sender<bool>,
}

/// What a store and its thread share.
struct Shared {
    member: Member,
    wait: Duration,
    margin: u64,
    warns: Arc<Warns>,
    heard: Mutex<Heard>,
}

/// The withdrawals of the store.
#[derive(Default)]
struct Heard {
    withdrawn: HashMap<TokenKey, u64>,
    /// Up to which they are read.
    position: String,
    /// They were read to the end once.
    is_whole: bool,
}

impl Heard {
    /// Tokens are withdrawn. (Whoever withdraws one again, with an earlier expiry, does not take that back.)
    fn keep(&mut self, these: impl IntoIterator<Item = (TokenKey, u64)>) {
        for (key, expires) in these {
            let until = self.withdrawn.entry(key).or_default();
            *until = expires.max(*until);
        }
    }
}

impl PostgresStore {
    /// Begins, and connects in the background. The options are those of the guard: the store takes [`Options::longest`], [`Options::ahead`],
    /// [`Options::wait`] and [`Options::warns`] of them.
    ///
    /// - `servers` are the addresses of all servers, as libpq reads them. With several, the one that is the primary is used. `sslmode` is `disable`,
    ///   `require`, `verify-ca` or `verify-full`. Without it a server must speak TLS, and nobody checks its certificate. `sslrootcert`, `sslcert`
    ///   and `sslkey` are files, read for each connection. These four and the password may stand in the environment (`PGSSLMODE`, `PGPASSWORD`).
    /// - `group` is the group's name, which is that of the schema.
    /// - `replicas` is how many servers must have a claim before it counts: 1, unless the primary waits for standbys.
    ///
    /// # Errors
    ///
    /// What is wrong with one of these, without any part of an address; or that the system has no other thread.
    pub fn open(options: &Options, servers: &[&str], group: &str, replicas: u32) -> Result<PostgresStore, PostgresError> {
        let is_name = |it: char| it.is_ascii_alphanumeric() || "-_".contains(it);
        if group.starts_with("pg_") || !(1..=63).contains(&group.len()) || !group.chars().all(is_name) {
            return Err(PostgresError::unfit(
                "the group is letters, digits, - and _ alone, at most 63 of them, and does not begin with pg_",
            ));
        }
        let back = said::STEP_BACK / 1000;
        let margin = options.ahead.max(said::LEAST_MARGIN / 1000).saturating_add(back);
        if options.lasts().max(margin) >= said::MOST_EXPIRY {
            let text = "the store keeps each entry for as long as a token may live: give the options another longest and ahead";
            return Err(PostgresError::unfit(text));
        }
        let terms = Terms { lasts: options.lasts() as i64, margin: margin as i64, back: back as i64 };
        let member = Shared::member(servers, group, replicas, terms, Arc::new(Moment::now))?;
        let warns = Arc::clone(&options.warns);
        PostgresStore::begin(Shared { member, wait: options.wait.min(LONGEST), margin, warns, heard: Mutex::default() }, true)
    }

    /// Begins the thread of a store. `watches`: it looks at the store.
    fn begin(shared: Shared, watches: bool) -> Result<PostgresStore, PostgresError> {
        let (shared, (closing, mut is_closing), (tell, told)) = (Arc::new(shared), watch::channel(false), sync_channel(1));
        let its = Arc::clone(&shared);
        let work = move || {
            let runtime = match Builder::new_current_thread().enable_all().build() {
                Ok(runtime) => runtime,
                Err(why) => return drop(tell.send(Err(why))),
            };
            drop(tell.send(Ok(runtime.handle().clone())));
            runtime.block_on(async {
                its.member.servers.begin();
                // (without who could say so, the end has come too)
                let is_open = |it: &watch::Receiver<bool>| !*it.borrow();
                let end = async { while is_open(&is_closing) && is_closing.changed().await.is_ok() {} };
                tokio::select! {
                    biased;
                    () = end => {}
                    () = its.watch(), if watches => {}
                }
            });
            // (all connections end; the resolver of names may take longer than anybody waits)
            runtime.shutdown_background();
        };
        thread::Builder::new().name("svid-store".to_owned()).spawn(work)?;
        let runtime = told.recv().map_err(|why| io::Error::new(io::ErrorKind::Other, why))??;
        Ok(PostgresStore { shared, runtime, closing })
    }

    /// Ends all connections, and the calls that are under way.
    pub fn close(&self) {
        self.closing.send_replace(true);
    }

    /// Makes a call on the thread of the store.
    fn ask<T, F>(&self, wait: Duration, call: impl FnOnce(Arc<Shared>, Instant) -> F) -> Result<T, Fault>
    where
        T: Send + 'static,
        F: Future<Output = Result<T, Fault>> + Send + 'static,
    {
        let (tell, told) = sync_channel(1);
        let work = call(Arc::clone(&self.shared), Instant::now() + wait);
        self.runtime.spawn(async move { drop(tell.send(work.await)) });
        told.recv_timeout(wait + GRACE).unwrap_or_else(|why| match why {
            RecvTimeoutError::Timeout => Err(said::SILENT.into()),
            RecvTimeoutError::Disconnected => Err(said::CLOSED.into()),
        })
    }
}

impl Store for PostgresStore {
    fn put(&self, claims: &[Claim]) -> Result<Vec<Found>, StoreError> {
        let claims = claims.to_vec();
        Ok(self.ask(self.shared.wait, |shared, end| async move { shared.put(&claims, end).await })?)
    }

    fn withdraw(&self, key: TokenKey, expires: u64) -> Result<(), StoreError> {
        let call = |shared: Arc<Shared>, end| async move {
            shared.member.withdraw(key, expires, end).await?;
            shared.heard().keep([(key, expires)]);
            Ok(())
        };
        Ok(self.ask(self.shared.wait, call)?)
    }

    fn withdrawals(&self, after: &str) -> Result<(Vec<(TokenKey, u64)>, String), StoreError> {
        let after = after.to_owned();
        Ok(self.ask(self.shared.wait, |shared, end| async move { shared.member.withdrawals(&after, end).await })?)
    }
}

impl fmt::Debug for PostgresStore {
    fn fmt(&self, f: &mut fmt::Formatter<'_>) -> fmt::Result {
        f.debug_struct("PostgresStore").finish_non_exhaustive()
    }
}

impl Shared {
    fn member(servers: &[&str], group: &str, replicas: u32, terms: Terms, now: Arc<Now>) -> Result<Member, PostgresError> {
        let replicas = i32::try_from(replicas).unwrap_or(0);
        if servers.is_empty() || replicas < 1 {
            return Err(PostgresError::unfit("give the address of each server, and at least 1 of replicas"));
        }
        let address = |(n, url): (usize, &&str)| Address::of(url).map_err(|why| PostgresError::Unfit(format!("address {} {why}", n + 1)));
        let addresses = servers.iter().enumerate().map(address).collect::<Result<_, _>>()?;
        Ok(Member::new(Servers::new(addresses, format!("\"{group}\""), now), group, replicas, terms))
    }

    async fn put(&self, claims: &[Claim], end: Instant) -> Result<Vec<Found>, Fault> {
        if claims.is_empty() || self.member.epoch().is_none() || !self.heard().is_whole {
            if !self.look(end).await?.pause.is_zero() {
                return Err(said::RUN.into());
            }
            self.hear(end).await?;
        }
        let found = self.member.put(claims, end).await.into_iter().collect::<Result<Vec<_>, _>>()?;
        let heard = self.heard();
        let is_withdrawn = |claim: &Claim| heard.withdrawn.contains_key(&claim.key);
        let of = |(claim, it): (&Claim, Found)| if is_withdrawn(claim) { Found { owner: WITHDRAWN, ..it } } else { it };
        Ok(claims.iter().zip(found).map(of).collect())
    }

    /// Looks at the store, and warns where its epoch has ended.
    async fn look(&self, end: Instant) -> Result<Sight, Fault> {
        let before = self.member.epoch();
        let is = self.member.look(end).await?;
        if before.map_or(false, |it| it != is.epoch) {
            let deaf = is.deaf;
            self.warn(format_args!("the epoch of the group's store has ended: tokens that expire by {deaf} may have been claimed before"));
        }
        Ok(is)
    }

    /// Reads the withdrawals that have come.
    async fn hear(&self, end: Instant) -> Result<(), Fault> {
        loop {
            let after = self.heard().position.clone();
            let (these, last) = self.member.withdrawals(&after, end).await?;
            let mut heard = self.heard();
            heard.keep(these);
            heard.is_whole |= last == after;
            heard.position = last;
            if heard.position == after {
                return Ok(());
            }
        }
    }

    /// Looks at the store once a second, and forgets what is over.
    async fn watch(&self) {
        let mut is_away = false;
        loop {
            let begun = Instant::now();
            let looked = async {
                let now = self.look(begun + Duration::from_millis(said::STATE_WAIT)).await?.time;
                self.hear(Instant::now() + Duration::from_millis(said::HEAR_WAIT)).await?;
                self.heard().withdrawn.retain(|_, expires| expires.saturating_add(self.margin) >= now);
                Ok::<_, Fault>(())
            };
            let why = looked.await.err();
            if let (Some(why), false) = (&why, is_away) {
                self.warn(format_args!("the group's store can't be looked at: {why}"));
            }
            is_away = why.is_some();
            tokio::time::sleep_until((begun + Duration::from_millis(said::STATE_EVERY)).into()).await;
        }
    }

    fn warn(&self, text: fmt::Arguments<'_>) {
        // (who is warned must not end the thread)
        let _ = catch_unwind(AssertUnwindSafe(|| (self.warns)(&text)));
    }

    fn heard(&self) -> MutexGuard<'_, Heard> {
        self.heard.lock().unwrap_or_else(PoisonError::into_inner)
    }
}
