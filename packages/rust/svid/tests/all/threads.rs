//! Threads that share a validator.
#![cfg(any(feature = "openssl", feature = "ring"))]

use std::sync::{Arc, Barrier, Mutex};
use std::thread;

use crate::common::*;
use serde_json::Value;
use svid::{Error, Guard, Options, Refusal};

const THREADS: usize = 8;

/// Good tokens of one bundle, and their time: those that this verifier can verify.
fn tokens<V: Verifies>() -> (String, Vec<String>, u64) {
    let Vectors { file, vectors } = read("signatures");
    let now = number_of(&file["setting"], "now");
    let (mut keys, mut tokens, mut known) = (Vec::<&str>::new(), Vec::new(), Vec::new());
    let is_good = |it: &&Value| text_of(it, "answer").starts_with("accepted");
    for it in vectors.iter().filter(is_good) {
        let (token, given) = (text_of(it, "token"), list_of(it, "keys"));
        let (said, key) = (svid::Said::of(token).expect("it is a token"), given[0].as_str().expect("a text"));
        // (of each type and curve one key, since only the first three that fit are tried)
        let kind = |key: &str| key.split("\"crv\"").nth(1).map(|it| it[..8].to_owned());
        let is_fit = keys.iter().all(|other| *other == key || kind(other) != kind(key));
        if given.len() == 1 && is_fit && !V::CANT.contains(&said.algorithm().name()) && !known.contains(&said.key()) {
            if !keys.contains(&key) {
                keys.push(key);
            }
            known.push(said.key());
            tokens.push(token.to_owned());
        }
    }
    assert!(tokens.len() >= 4, "{}", tokens.len());
    (format!(r#"{{"example.org":{{"keys":[{}]}}}}"#, keys.join(",")), tokens, now)
}

/// Lets all threads check all tokens at once: each token is accepted once, and refused as used by all others.
fn each_once(tokens: &[String], check: impl Fn(&str) -> Result<svid::Accepted, Error> + Sync) {
    let (begun, accepted) = (Barrier::new(THREADS), Mutex::new(vec![0; tokens.len()]));
    thread::scope(|scope| {
        for _ in 0..THREADS {
            scope.spawn(|| {
                begun.wait();
                for (number, token) in tokens.iter().enumerate() {
                    match check(token) {
                        Ok(it) => {
                            assert_eq!(it.spiffe_id(), "spiffe://example.org/billing/api");
                            accepted.lock().unwrap()[number] += 1;
                        }
                        Err(why) => assert_eq!(why, Error::Refused(Refusal::Replayed)),
                    }
                }
            });
        }
    });
    assert_eq!(accepted.into_inner().unwrap(), vec![1; tokens.len()]);
}

fn opened<V: Verifies>(bundles: &str, now: u64) -> Guard<V> {
    Guard::open(&at(now), bundles, V::default()).expect("it opens")
}

fn at(now: u64) -> Options {
    Time::at(now).of(ledger())
}

/// A test with each verifier.
macro_rules! each {
    ($name:ident $of:ident) => {
        #[test]
        fn $name() {
            #[cfg(feature = "openssl")]
            returned("the end of all threads", $of::<svid::OpenSsl>);
            #[cfg(feature = "ring")]
            returned("the end of all threads", $of::<svid::Ring>);
        }
    };
}

each!(a_guard shared);
each!(a_guard_that_is_renewed renewed);
each!(a_guard_takes_other_keys with_other_keys);
each!(what_threads_may_share may_be_shared);

fn shared<V: Verifies>() {
    let (bundles, tokens, now) = tokens::<V>();
    let guard = Arc::new(opened::<V>(&bundles, now));
    each_once(&tokens, |token| guard.check(token));
    assert_eq!(guard.size().unwrap().uses, tokens.len());
}

/// While the bundles are renewed, each token is accepted once and refused as used behind that: the old and the new ones have its key.
fn renewed<V: Verifies>() {
    let (bundles, tokens, now) = tokens::<V>();
    let guard = opened::<V>(&bundles, now);
    let others = bundles.replacen("{\"example.org\"", "{\"other.org\":{\"keys\":[]},\"example.org\"", 1);
    thread::scope(|scope| {
        let renews = scope.spawn(|| {
            for _ in 0..1000 {
                guard.follow(&others).expect("they are good");
                guard.follow(&bundles).expect("they are good");
            }
        });
        for token in &tokens {
            assert!(guard.check(token).is_ok());
        }
        // (a bad signature would come before a token that was used)
        while !renews.is_finished() {
            for token in &tokens {
                assert_eq!(guard.check(token), Err(Error::Refused(Refusal::Replayed)));
            }
        }
    });
}

fn with_other_keys<V: Verifies>() {
    let (bundles, tokens, now) = tokens::<V>();
    let guard = opened::<V>("{}", now);
    assert_eq!(guard.check(&tokens[0]), Err(Error::Refused(Refusal::UnknownDomain)));
    guard.follow(&bundles).expect("they are good");
    assert!(guard.check(&tokens[0]).is_ok());
    assert!(matches!(guard.follow(b"[]"), Err(Error::Bundles(_))));
    assert!(guard.check(&tokens[1]).is_ok());
    assert_eq!(guard.check(&tokens[0]), Err(Error::Refused(Refusal::Replayed)));
}

/// Threads may share these, also those that catch panics.
fn may_be_shared<V: Verifies>()
where
    Guard<V>: Send + Sync + std::panic::UnwindSafe + std::panic::RefUnwindSafe,
{
    fn all<T: Send + Sync + std::panic::UnwindSafe + std::panic::RefUnwindSafe>() {}
    all::<Guard<V>>();
    all::<svid::Options>();
}
