//! What a service tests itself with: an issuer, and a clock.
#![cfg(feature = "testing")]

use crate::common::{ledger, until};
use serde_json::json;
use svid::testing::{Clock, Issuer, Wrong};
use svid::{Error, Guard, OpenSsl, Options, Refusal};

fn refused<T>(why: Refusal) -> Result<T, Error> {
    Err(Error::Refused(why))
}

/// The usual options, by a clock that stands still.
fn opened(issuer: &Issuer, clock: &Clock) -> Guard<OpenSsl> {
    Guard::open(&Options::new(["ledger", "store"]).clock(clock.reader()), issuer.bundles(), OpenSsl::new()).expect("it opens")
}

#[test]
fn what_is_told_of_an_accepted_token() {
    let clock = Clock::at(1_767_225_600);
    let issuer = Issuer::new("example.org").clock(&clock);
    let guard = opened(&issuer, &clock);
    let claims =
        json!({"sub": "spiffe://example.org/web", "aud": ["other", "store", "ledger"], "jti": "seven", "roles": ["reader", 7, null]});
    let accepted = guard.check(issuer.token_with(claims)).expect("it is good");
    assert_eq!((accepted.audience(), accepted.key_id(), accepted.path()), ("store", "key-0", "/web"));
    let found = accepted.claims().expect("they are read");
    assert_eq!((&found["roles"], &found["jti"]), (&json!(["reader", 7, null]), &json!("seven")));
    assert_eq!((found["exp"].as_u64(), accepted.expires()), (Some(1_767_225_900), 1_767_225_900));
    assert_eq!(found.len(), 5);
}

#[test]
fn tokens_with_which_one_thing_is_wrong() {
    let clock = Clock::new();
    let issuer = Issuer::new("example.org").clock(&clock);
    let guard = opened(&issuer, &clock);
    let rows = [
        (Wrong::Expired, Refusal::Expired),
        (Wrong::NotYet, Refusal::NotYet),
        (Wrong::Audience, Refusal::NotAudience),
        (Wrong::Signature, Refusal::BadSignature),
        (Wrong::Key, Refusal::NoKey),
        (Wrong::Malformed, Refusal::NotThreeParts),
    ];
    for (wrong, why) in rows {
        assert_eq!(guard.check(issuer.wrong(wrong, "/web", "ledger")), refused(why));
    }
    let other = Issuer::new("other.example").clock(&clock);
    assert_eq!(guard.check(other.token("/web", "ledger")), refused(Refusal::UnknownDomain));
    assert!(guard.check(issuer.token("/web", "ledger")).is_ok());
}

#[test]
fn keys_are_rotated_and_forgotten() {
    let clock = Clock::new();
    let mut issuer = Issuer::new("example.org").clock(&clock);
    let (guard, before) = (opened(&issuer, &clock), [(); 2].map(|()| issuer.token("/web", "ledger")));
    issuer.rotate();
    assert_eq!(guard.check(issuer.token("/web", "ledger")), refused(Refusal::NoKey));
    guard.follow(issuer.bundles()).expect("they are good");
    assert!(guard.check(&before[0]).is_ok());
    let after = guard.check(issuer.token("/web", "ledger")).expect("it is good");
    assert_eq!(after.key_id(), "key-1");
    issuer.forget();
    guard.follow(issuer.bundles()).expect("they are good");
    assert_eq!(guard.check(&before[1]), refused(Refusal::NoKey));
    assert!(guard.check(issuer.token("/web", "ledger")).is_ok());
}

/// A token lives for five minutes, and may live for an hour.
#[test]
fn a_clock_goes_ahead() {
    let clock = Clock::new();
    let issuer = Issuer::new("example.org").clock(&clock);
    let (guard, now) = (opened(&issuer, &clock), clock.now());
    let tokens = [(); 2].map(|()| issuer.token("/web", "ledger"));
    clock.advance(299);
    assert!(guard.check(&tokens[0]).is_ok());
    clock.advance(1);
    assert_eq!(guard.check(&tokens[1]), refused(Refusal::Expired));
    let of = |life: u64| issuer.token_with(json!({"sub": "spiffe://example.org/web", "aud": "ledger", "exp": clock.now() + life}));
    assert!(guard.check(of(3600)).is_ok());
    assert_eq!(guard.check(of(3601)), refused(Refusal::TooLongLived));
    let options = Options::new(["ledger"]).any_life().clock(clock.reader());
    assert!(Guard::open(&options, issuer.bundles(), OpenSsl::new()).expect("it opens").check(of(u64::MAX - clock.now())).is_ok());
    // (a clock that is set back makes no expired token good)
    clock.set(now);
    assert_eq!(guard.check(&tokens[1]), refused(Refusal::Expired));
}

/// What it costs to refuse a token grows with its audiences, and no faster: anybody may send one that has thousands.
#[test]
fn a_token_of_many_audiences_is_refused_soon() {
    let (known, stranger) = (Issuer::new("example.org"), Issuer::new("other.example"));
    let guard = Guard::open(&ledger(), known.bundles(), OpenSsl::new()).expect("it opens");
    let token = |count: usize| stranger.token_with(json!({"sub": "spiffe://other.example/a", "aud": vec!["a"; count]}));
    let (few, many) = (token(1_500), token(11_800));
    let least = |token: &String| {
        let takes = || {
            let begun = std::time::Instant::now();
            assert_eq!(guard.check(token).map(drop), refused(Refusal::NotAudience));
            begun.elapsed()
        };
        (0..5).map(|_| takes()).min().unwrap_or_default()
    };
    // (8 times as many: 64 times as long, if each were looked for from the first one)
    until("a refusal in time", || least(&many) < least(&few) * 24);
}
