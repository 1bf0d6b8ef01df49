//! Guards while their bundles are renewed, by threads that switch where a guard calls what is given to it: its clock, its verifier and its store.
#![cfg(feature = "testing")]

use std::cell::Cell;
use std::sync::atomic::{AtomicBool, AtomicUsize, Ordering};
use std::sync::Arc;
use std::thread;
use std::time::Duration;

use crate::common::*;
use svid::testing::{Clock, Issuer, MemoryStore};
use svid::{Candidate, Claim, Error, Found, Guard, Mode, OpenSsl, Options, Refusal, Store, StoreError, TokenKey, Unverified, Verify};

const THREADS: usize = 6;
const TOKENS: usize = 150;

thread_local! {
    /// What decides where this thread switches.
    static CHANCE: Cell<u64> = const { Cell::new(0) };
}

/// Lets other threads go on, now and then for longer.
fn switch() {
    let chance = CHANCE.with(|it| {
        let next = it.get().wrapping_mul(6_364_136_223_846_793_005).wrapping_add(1_442_695_040_888_963_407);
        it.set(next);
        next >> 56
    });
    match chance {
        0..=15 => thread::sleep(Duration::from_micros(chance * 40)),
        16..=200 => (0..chance % 4).for_each(|_| thread::yield_now()),
        _ => {}
    }
}

/// A verifier or a store, before and after whose calls the thread switches.
struct Switching<T>(T);

impl Verify for Switching<OpenSsl> {
    fn verify(&self, candidate: &Candidate<'_>, signed: &[u8], signature: &[u8]) -> Result<bool, Unverified> {
        switch();
        let verified = self.0.verify(candidate, signed, signature);
        switch();
        verified
    }
}

impl Store for Switching<MemoryStore> {
    fn put(&self, claims: &[Claim]) -> Result<Vec<Found>, StoreError> {
        switch();
        let found = self.0.put(claims);
        switch();
        found
    }

    fn withdraw(&self, key: TokenKey, expires: u64) -> Result<(), StoreError> {
        switch();
        self.0.withdraw(key, expires)
    }

    fn withdrawals(&self, after: &str) -> Result<(Vec<(TokenKey, u64)>, String), StoreError> {
        self.0.withdrawals(after)
    }
}

/// Each guard gets each token from several threads, while one takes the key of half of them away from all guards and gives it back, again and again.
/// A check that begins after the key is gone, and ends before it comes back, refuses the token; so does one of a token that was accepted.
fn renewed(clock: &Clock, guards: &[Guard<Switching<OpenSsl>>], accepts: usize) {
    let [stays, goes] = ["stays.example", "goes.example"].map(|it| Issuer::new(it).clock(clock));
    let (with, without) = (
        format!("{{\"stays.example\":{},\"goes.example\":{}}}", stays.bundle(), goes.bundle()),
        format!("{{\"stays.example\":{}}}", stays.bundle()),
    );
    guards.iter().for_each(|it| it.follow(&with).expect("they are good"));
    // What the guards have: 0 the key, 2 none, and at odd numbers some of them have it.
    let (state, is_over) = (AtomicUsize::new(0), AtomicBool::new(false));
    let tokens: Vec<_> = (0..TOKENS).map(|at| if at % 2 == 0 { &stays } else { &goes }.token("/web", "ledger")).collect();
    let accepted: Vec<_> = tokens.iter().map(|_| AtomicUsize::new(0)).collect();
    let gone = AtomicUsize::new(0);
    thread::scope(|scope| {
        let checks: Vec<_> = (0..THREADS)
            .map(|number| {
                let (state, gone, tokens, accepted) = (&state, &gone, &tokens, &accepted);
                scope.spawn(move || {
                    CHANCE.with(|it| it.set(number as u64 + 1));
                    for (at, token) in tokens.iter().enumerate() {
                        let (before, used) = (state.load(Ordering::SeqCst), accepted[at].load(Ordering::SeqCst));
                        let checked = guards[number % guards.len()].check(token);
                        let is_steady = state.load(Ordering::SeqCst) == before;
                        let is_gone = at % 2 == 1 && is_steady && before % 4 == 2;
                        match checked {
                            Ok(_) => {
                                assert!(!is_gone, "accepted by a key that is gone");
                                assert!(used < accepts, "accepted after it was accepted");
                                accepted[at].fetch_add(1, Ordering::SeqCst);
                            }
                            Err(Error::Refused(Refusal::Replayed)) => assert!(!is_gone, "a key that is gone has no say"),
                            Err(Error::Refused(Refusal::UnknownDomain)) => {
                                assert!(at % 2 == 1 && !(is_steady && before % 4 == 0), "the key is there");
                                gone.fetch_add(1, Ordering::SeqCst);
                            }
                            Err(why) => panic!("{why}"),
                        }
                    }
                })
            })
            .collect();
        let renews = scope.spawn(|| {
            CHANCE.with(|it| it.set(99));
            while !is_over.load(Ordering::SeqCst) {
                for bundles in [&without, &with] {
                    state.fetch_add(1, Ordering::SeqCst);
                    guards.iter().for_each(|it| it.follow(bundles).expect("they are good"));
                    state.fetch_add(1, Ordering::SeqCst);
                    switch();
                }
            }
        });
        let ended: Vec<_> = checks.into_iter().map(|it| it.join()).collect();
        is_over.store(true, Ordering::SeqCst);
        renews.join().expect("it renews");
        ended.into_iter().for_each(|it| it.expect("it checks"));
    });
    assert!(gone.load(Ordering::SeqCst) > 0 && state.load(Ordering::SeqCst) > 8, "renewals come between checks");
    for (at, (token, count)) in tokens.iter().zip(&accepted).enumerate() {
        let mut count = count.load(Ordering::SeqCst);
        // (by now all guards have the key)
        let last: Vec<_> = guards.iter().map(|it| it.check(token)).collect();
        count += last.iter().filter(|it| it.is_ok()).count();
        assert_eq!(count, accepts, "token {at}: {last:?}");
    }
}

fn options(clock: &Clock) -> Options {
    let now = clock.reader();
    ledger().clock(move || {
        switch();
        now()
    })
}

fn opened(options: &Options) -> Guard<Switching<OpenSsl>> {
    Guard::open(options, b"{}", Switching(OpenSsl::new())).expect("it opens")
}

#[test]
fn a_guard_that_is_renewed() {
    returned("the end of all threads", || {
        let clock = Clock::new();
        renewed(&clock, &[opened(&options(&clock))], 1);
    });
}

#[test]
fn guards_of_one_store_that_are_renewed() {
    returned("the end of all threads", || {
        let clock = Clock::new();
        let store = MemoryStore::new().clock(clock.reader());
        let strict = options(&clock).mode(Mode::Strict).store(Arc::new(Switching(store)));
        renewed(&clock, &[opened(&strict), opened(&strict)], 1);
    });
}

/// Without a store each of them accepts a token once.
#[test]
fn guards_alone_that_are_renewed() {
    returned("the end of all threads", || {
        let clock = Clock::new();
        renewed(&clock, &[opened(&options(&clock)), opened(&options(&clock))], 2);
    });
}
