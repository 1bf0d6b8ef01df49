//! What the vectors don't have: the order of reasons where a signature is verified, messages, joined bundles, answers to requests.

use std::sync::atomic::{AtomicUsize, Ordering};
use std::sync::Arc;

use crate::common::*;
use svid::{
    bearer_token, BundlesFault, Candidate, Denied, DocumentFault, Error, Fate, Guard, LogMember, LogStart, Mode, Options, OptionsFault,
    Pattern, Refusal, Said, Sources, SpiffeId, TokenKey, Unverified, Use, ValidatorId, Verify,
};

const NOW: u64 = 1_767_225_600;

fn bundles() -> Vec<u8> {
    std::fs::read(top().join("examples/bundles.json")).expect("the bundles of the examples")
}

fn tokens() -> Vec<String> {
    let text = std::fs::read_to_string(top().join("examples/tokens.txt")).expect("the tokens of the examples");
    text.lines().map(str::to_owned).collect()
}

/// A guard with this verifier, at the time of the vectors.
fn opened<V>(verifier: V) -> Guard<V> {
    opened_at(NOW, verifier)
}

fn opened_at<V>(now: u64, verifier: V) -> Guard<V> {
    Guard::open(&Time::at(now).of(ledger()), bundles(), verifier).expect("it opens")
}

/// What is wrong with bundles that are joined.
fn join<N: Into<String>, T: Into<Vec<u8>>>(bundles: impl IntoIterator<Item = (N, T)>) -> Result<(), Error> {
    let sources = bundles.into_iter().fold(Sources::new(), |all, (name, text)| all.bundle(name, text));
    Guard::open(&ledger(), sources, ()).map(drop)
}

/// Answers always the same, and counts how often it was asked.
struct Always(Result<bool, Unverified>, AtomicUsize);

impl Always {
    fn new(answer: Result<bool, Unverified>) -> Always {
        Always(answer, AtomicUsize::new(0))
    }
}

impl Verify for Always {
    fn verify(&self, _: &Candidate<'_>, signed: &[u8], signature: &[u8]) -> Result<bool, Unverified> {
        assert!(signed.is_ascii() && signed.iter().filter(|it| **it == b'.').count() == 1, "the header and the payload of a token");
        assert!(!signature.is_empty());
        self.1.fetch_add(1, Ordering::Relaxed);
        self.0
    }
}

/// Can't verify by each first key, and takes each second one for that of the signature.
struct Second(AtomicUsize);

impl Verify for Second {
    fn verify(&self, _: &Candidate<'_>, _: &[u8], _: &[u8]) -> Result<bool, Unverified> {
        match self.0.fetch_add(1, Ordering::Relaxed) % 2 {
            0 => Err(Unverified::Unsupported),
            _ => Ok(true),
        }
    }
}

fn refused(why: Refusal) -> Error {
    Error::Refused(why)
}

#[test]
fn the_first_reason_counts() {
    let (tokens, good) = (tokens(), Always::new(Ok(true)));
    let late = opened_at(4_102_444_800, &good);
    // (its trust domain is unknown, and it has expired: that comes first)
    for token in [&tokens[4], &tokens[5]] {
        assert_eq!(late.check(token).unwrap_err(), refused(Refusal::Expired));
        assert_eq!(late.judge(token).unwrap_err(), refused(Refusal::Expired));
    }
    assert_eq!(opened(&good).check(&tokens[4]).unwrap_err(), refused(Refusal::NoKey));
    assert_eq!(opened(&good).check(&tokens[5]).unwrap_err(), refused(Refusal::UnknownDomain));
    assert_eq!(good.1.load(Ordering::Relaxed), 0, "no signature was verified");
    // A refusal by the keys advances the record, as any other does.
    for token in [tokens[5].as_str(), "no token"] {
        let guard = opened(&good);
        guard.check(token).unwrap_err();
        assert_eq!(guard.size().unwrap().moment, NOW);
    }
}

#[test]
fn what_a_verifier_answers() {
    let token = &tokens()[0];
    for (answer, due) in [
        (Ok(false), refused(Refusal::BadSignature)),
        (Err(Unverified::NoMemory), Error::NoMemory),
        (Err(Unverified::Unsupported), Error::Unsupported),
    ] {
        let guard = opened(Arc::new(Always::new(answer)));
        assert_eq!(guard.check(token), Err(due));
        assert_eq!(guard.judge(token), Err(due));
        assert_eq!(guard.size().unwrap().uses, 0);
    }
    // Where a later key made the signature, nothing comes of a key that it can't verify by.
    let mut two: serde_json::Value = serde_json::from_slice(&bundles()).expect("an object");
    let keys = two["example.org"]["keys"].as_array_mut().expect("a list");
    let other = serde_json::json!({"kty": "EC", "use": "jwt-svid", "kid": "ec-1", "crv": "P-256", "x": keys[0]["y"], "y": keys[0]["x"]});
    keys.insert(0, other);
    let guard = Guard::open(&Time::at(NOW).of(ledger()), two.to_string().as_str(), Second(AtomicUsize::new(0))).expect("it opens");
    assert_eq!(guard.judge(token).map(|it| it.path().to_owned()).as_deref(), Ok("/billing/api"));
    assert!(guard.check(token).is_ok());
    // A token that nobody can verify is refused for what comes before its signature.
    let guard = opened_at(4_102_444_800, Always::new(Err(Unverified::Unsupported)));
    assert_eq!(guard.check(token), Err(refused(Refusal::Expired)));
    assert_eq!(guard.judge(token), Err(refused(Refusal::Expired)));
}

#[test]
fn what_is_told_of_an_accepted_token() {
    let (token, guard) = (&tokens()[0], opened(Always::new(Ok(true))));
    let judged = guard.judge(token).unwrap();
    let accepted = guard.check(token).unwrap();
    assert_eq!((accepted.trust_domain(), accepted.path(), accepted.expires()), ("example.org", "/billing/api", 4_102_444_800));
    assert_eq!((accepted.audience(), accepted.key_id()), ("ledger", "ec-1"));
    let claims = accepted.claims().unwrap();
    assert_eq!((&claims["sub"], &claims["exp"]), (&accepted.spiffe_id().into(), &4_102_444_800u64.into()));
    assert_eq!(accepted.used().key, Said::of(token).unwrap().key());
    assert_eq!(judged, accepted);
    assert_eq!(guard.judge(token), Err(refused(Refusal::Replayed)));
}

#[test]
fn a_withdrawal_reaches_others() {
    let (tokens, good) = (tokens(), Always::new(Ok(true)));
    let (here, there) = (opened(&good), opened(&good));
    let said = Said::of(&tokens[0]).unwrap();
    let gone = here.withdraw(said.key(), said.expires()).unwrap();
    assert!(gone.withdrawn);
    there.take(gone.message().unwrap()).unwrap();
    assert_eq!(there.check(&tokens[0]), Err(refused(Refusal::Withdrawn)));
    assert_eq!(here.tell(), there.tell());

    let used = *here.check(&tokens[1]).unwrap().used();
    there.take(used.message().unwrap()).unwrap();
    assert_eq!(there.check(&tokens[1]), Err(refused(Refusal::Replayed)));
    assert_eq!(here.withdraw(TokenKey([7; 32]), NOW), Err(Error::Gone));
}

#[test]
fn summaries_are_answered() {
    let (here, there) = (opened(()), opened(()));
    for number in 0..100 {
        here.withdraw(TokenKey([number; 32]), NOW + 100).unwrap();
    }
    let answer = here.answer(there.summary().unwrap()).unwrap();
    there.take(answer).unwrap();
    assert_eq!(here.tell(), there.tell());
    let record = here.tell().unwrap();
    assert_eq!(here.answer(record), Err(Error::NotSummary));
}

#[test]
fn a_clock_that_jumps() {
    let time = Time::at(NOW);
    let guard = Guard::open(&time.of(ledger()).step(60), bundles(), Always::new(Ok(true))).unwrap();
    tick(&guard).unwrap();
    time.set(NOW + 61);
    assert_eq!(tick(&guard), Err(Error::Jump));
    assert_eq!(guard.check(&tokens()[0]), Err(Error::Jump));
    time.set(NOW);
    let late = opened_at(NOW + 100, ());
    tick(&late).unwrap();
    assert_eq!(guard.take(late.tell().unwrap()), Err(Error::TooFar));
}

#[test]
fn bundles_of_several_trust_domains() {
    let own: serde_json::Value = serde_json::from_slice(&bundles()).expect("an object");
    let (own, none, good) = (own["example.org"].to_string(), r#"{"keys":[]}"#, Always::new(Ok(true)));
    // (many, so that each trust domain keeps its own keys)
    let others = (0..300).fold(Sources::from(r#"{"text.example":{"keys":[]}}"#), |all, it| all.bundle(format!("d{it:03}.example"), none));
    for name in ["example.org", "spiffe://example.org"] {
        let sources = others.clone().bundle(name, own.as_str());
        let guard = Guard::open(&Time::at(NOW).of(ledger()), sources, &good).unwrap();
        assert!(guard.check(&tokens()[0]).is_ok());
        assert_eq!(guard.check(&tokens()[5]), Err(refused(Refusal::UnknownDomain)));
        guard.follow(others.clone()).unwrap();
        assert_eq!(guard.check(&tokens()[1]), Err(refused(Refusal::UnknownDomain)));
    }
}

/// The first of the bundles that can't be joined is named.
#[test]
fn a_bundle_that_holds_up_the_others_is_named() {
    let own: serde_json::Value = serde_json::from_slice(&bundles()).expect("an object");
    let (own, none) = (own["example.org"].to_string(), r#"{"keys":[]}"#);
    let joined = |name: &'static str, bundle: &str| {
        join([("example.org", own.as_str()), ("spiffe://a.example", none), (name, bundle), ("", "")]).unwrap_err()
    };
    let third = |fault| Error::Bundles(BundlesFault::Document { number: 2, fault });
    // (one that ends early would bring keys of another trust domain)
    for bundle in ["", "[]", r#"{"keys":[]},"example.org":{"keys":[]}"#, r#"{"keys":[]}} {"example.org":{"keys":[]}"#, "{} {}", "{", "null"]
    {
        assert_eq!(joined("foreign.org", bundle), third(DocumentFault::NotObject), "{bundle}");
    }
    for bundle in ["{}", r#"{"keys":7}"#, r#"{"example.org":{"keys":[]}}"#] {
        assert_eq!(joined("foreign.org", bundle), third(DocumentFault::Keys), "{bundle}");
    }
    for name in ["a\"b", "a\\b", "a\nb", "A", "a/b", "", "spiffe://", "\u{e9}", r#"a":{"keys":[]},"b"#] {
        assert_eq!(joined(name, none), third(DocumentFault::Domain), "{name}");
    }
    // (a bundle without a name brings none of its own)
    assert_eq!(joined("", r#"{"example.com":{"keys":[]}}"#), third(DocumentFault::Domain));
    for name in ["example.org", "a.example", "spiffe://example.org"] {
        assert_eq!(joined(name, none), third(DocumentFault::Twice), "{name}");
    }
}

/// A bundle that can be read by itself, and nests too deeply to be read among others, is named too.
#[test]
fn a_bundle_that_nests_too_deeply_is_named() {
    let nested = |depth: usize| format!(r#"{{"keys":[],"x":{}{}}}"#, "[".repeat(depth - 1), "]".repeat(depth - 1));
    let join = |depth| join([("example.org", nested(2)), ("foreign.org", nested(depth)), ("last.org", nested(2))]);
    assert_eq!(join(126), Ok(()));
    for depth in [127, 128, 1000] {
        let why = Error::Bundles(BundlesFault::Document { number: 1, fault: DocumentFault::NotObject });
        assert_eq!(join(depth), Err(why), "{depth}");
    }
    let whence = " (number 1 of the joined bundles, counted from 0): ";
    assert!(join(127).unwrap_err().to_string().contains(whence));
}

/// A member of a log that has no value.
fn member<V>(verifier: V) -> LogMember<V> {
    LogMember::open(&ledger(), bundles(), verifier, &LogStart::default()).expect("it opens")
}

/// A token is accepted by the log alone, and after a restart its claim is known.
#[test]
fn a_token_that_is_claimed_in_a_log() {
    let (tokens, good, mut fates) = (tokens(), Always::new(Ok(true)), Vec::new());
    let mut first = member(&good);
    let claim = *first.judge(NOW, &tokens[0]).unwrap().used();
    assert_eq!(first.judge(NOW, &tokens[0]).unwrap().used(), &claim, "it was not accepted yet");
    let mut other = member(&good);
    for it in [&mut first, &mut other] {
        assert!(it.read(NOW, 1, claim.message().unwrap(), &mut fates).unwrap().is_whole);
        assert_eq!(it.judge(NOW, &tokens[0]), Err(refused(Refusal::Replayed)));
    }
    let gone = Use { withdrawn: true, key: TokenKey([7; 32]), ..claim };
    first.read(NOW, 2, gone.message().unwrap(), &mut fates).unwrap();
    assert_eq!(fates, [(claim, Fate::Accepted), (claim, Fate::First), (gone, Fate::Withdrawal)]);
    let ((position, accepts), beside, record) = (first.mark().unwrap(), first.beside().unwrap(), first.tell().unwrap());
    assert_eq!((position.passed, accepts), (2, true));
    let start = LogStart { position, ready: 2, beside: &beside };
    let mut next = LogMember::open(&ledger(), bundles(), &good, &start).unwrap();
    next.take(NOW, &record).unwrap();
    assert_eq!((next.mark().unwrap(), next.tell().unwrap()), ((position, true), record));
    assert_eq!(next.judge(NOW, &tokens[0]), Err(refused(Refusal::Replayed)));
    assert_eq!(next.renew("{}"), Ok(()));
    assert_eq!(next.judge(NOW, &tokens[1]), Err(refused(Refusal::UnknownDomain)));
}

/// As a guard does.
#[test]
fn what_a_member_of_a_log_answers() {
    let token = &tokens()[0];
    for (answer, due) in [
        (Ok(false), refused(Refusal::BadSignature)),
        (Err(Unverified::NoMemory), Error::NoMemory),
        (Err(Unverified::Unsupported), Error::Unsupported),
    ] {
        let mut member = member(Always::new(answer));
        assert_eq!(member.judge(NOW, token), Err(due));
        // (that there is no token, or that it has expired, comes first; and both advance the record)
        assert_eq!(member.judge(4_102_444_800, "no token").unwrap_err().refusal(), Some(Refusal::NotThreeParts));
        assert_eq!(member.judge(NOW, token).map_err(|why| why.refusal()).unwrap_err().is_some(), answer != Err(Unverified::NoMemory));
    }
    let log = |options: Options, start: &LogStart<'_>| LogMember::open(&options, b"{}", (), start).map(drop);
    let none = LogStart { beside: b"none", ..LogStart::default() };
    assert!(matches!(log(ledger(), &none), Err(Error::Messages(_))));
    for options in [ledger().mode(Mode::Reuse), ledger().callers(["spiffe://example.org"])] {
        assert_eq!(log(options, &LogStart::default()), Err(Error::Options(OptionsFault::Guard)));
    }
    assert_eq!(log(Options::new([""; 0]), &LogStart::default()), Err(Error::Options(OptionsFault::NoAudience)));
    assert!(OptionsFault::Guard.to_string().contains(": "), "it says what to do");
}

/// A clock that is not to be trusted, and values that are missing.
#[test]
fn a_log_whose_values_are_missing() {
    let mut member = LogMember::open(&ledger().longest(100).step(60), b"{}", (), &LogStart::default()).unwrap();
    member.take(NOW, b"").unwrap();
    assert_eq!(member.read(NOW + 61, 1, b"", &mut Vec::new()), Err(Error::Jump));
    assert!(member.read(0, 1, b"", &mut Vec::new()).unwrap().is_whole);
    assert_eq!(member.read(0, 3, b"", &mut Vec::new()), Err(Error::Jump), "a gap wants a clock");
    assert!(member.read(NOW, 3, b"", &mut Vec::new()).unwrap().is_whole);
    // (the longest life, and twice what the clocks may differ)
    assert_eq!(member.mark().map(|(position, accepts)| (position.passed, position.deaf, accepts)), Ok((3, NOW + 160, false)));
    member.go_on().unwrap();
    assert_eq!(member.mark().map(|(position, accepts)| (position.deaf, accepts)), Ok((0, true)));
}

/// A value of more uses than are read at once.
#[test]
fn a_long_value_of_a_log() {
    let uses = (0..200u8).map(|number| Use {
        expires: NOW + 100,
        key: TokenKey([number; 32]),
        validator_id: ValidatorId([9; 16]),
        at: NOW,
        withdrawn: false,
    });
    let value: Vec<u8> = uses.clone().flat_map(|it| it.message().unwrap()).collect();
    let (mut member, mut fates, mut calls) = (member(()), Vec::new(), 0);
    loop {
        let from = fates.len();
        let read = member.read(NOW, 1, &value, &mut fates).unwrap();
        assert_eq!((read.from, read.fault), (from, None));
        calls += 1;
        if read.is_whole {
            break;
        }
    }
    assert!(calls > 1);
    assert_eq!(fates, uses.map(|it| (it, Fate::First)).collect::<Vec<_>>());
    assert_eq!(member.mark().unwrap().0.passed, 1);
}

#[test]
fn answers_to_requests() {
    let busy = Denied::from(Error::NoMemory);
    assert_eq!((busy.status(), busy.challenge()), (503, None));
    assert_eq!(Denied::from(Error::Unsupported).status(), 503);
    for why in Refusal::all() {
        let denied = Denied::from(Error::Refused(why));
        let challenge = format!("Bearer error=\"invalid_token\", error_description=\"{}\"", why.name());
        assert_eq!((denied.status(), denied.challenge()), (401, Some(challenge.as_str())));
    }
    let guard = opened(Always::new(Ok(true)));
    let header = format!("bearer  {}", tokens()[0]);
    assert_eq!(guard.admit([&header]).unwrap().path(), "/billing/api");
    assert_eq!(guard.admit([&header]).unwrap_err(), Denied::Refused(Refusal::Replayed));
    let malformed = "Bearer error=\"invalid_request\", error_description=\"NotBearer\"";
    assert_eq!(bearer_token([&header, &header]).unwrap_err().challenge(), Some(malformed));
}

#[test]
fn who_may_call() {
    let guard = opened(Always::new(Ok(true)));
    let header = format!("Bearer {}", tokens()[0]);
    let patterns = |texts: &[&'static str]| texts.iter().map(|text| Pattern::parse(text).unwrap()).collect::<Vec<_>>();
    let others = patterns(&["spiffe://example.org/bill/*", "spiffe://example.org/billing/api/*", "spiffe://example.com"]);
    for callers in [&others[..], &[]] {
        for _ in 0..2 {
            let denied = guard.admit_only(callers, [&header]).unwrap_err();
            assert_eq!((denied, denied.status()), (Denied::NotAllowed, 403));
            assert_eq!(denied.challenge(), Some("Bearer error=\"insufficient_scope\", error_description=\"NotAllowed\""));
        }
    }
    // Of a bad token it says what is wrong with it, and not that its caller may not call: nobody has vouched for that.
    assert_eq!(guard.admit_only(&others, ["Bearer a.b.c"]).unwrap_err(), Denied::Refused(Refusal::HeaderSpelling));
    assert_eq!(guard.admit_only::<str>(&others, []).unwrap_err().challenge(), Some("Bearer realm=\"svid\""));
    let spoilt = opened(Always::new(Ok(false)));
    assert_eq!(spoilt.admit_only(&others, [&header]).unwrap_err(), Denied::Refused(Refusal::BadSignature));
    // The token was not used up.
    let callers = patterns(&["spiffe://example.com", "spiffe://example.org/billing/*"]);
    assert_eq!(guard.admit_only(&callers, [&header]).unwrap().path(), "/billing/api");
    for callers in [&callers, &others] {
        assert_eq!(guard.admit_only(callers, [&header]).unwrap_err(), Denied::Refused(Refusal::Replayed));
    }
}

/// No call panics, whatever it is given.
#[test]
fn bytes_of_any_kind() {
    let mut state = 1u64;
    let mut next = || {
        // (Marsaglia's xorshift)
        state ^= state << 13;
        state ^= state >> 7;
        state ^= state << 17;
        state
    };
    let (guard, token) = (opened_at(0, Always::new(Ok(true))), tokens().remove(0));
    let (record, mut member) = (guard.tell().unwrap(), member(Always::new(Ok(true))));
    for round in 0..3000u64 {
        let mut bytes = match round % 4 {
            0 => token.clone().into_bytes(),
            1 => record.clone(),
            2 => bundles(),
            _ => Vec::new(),
        };
        for _ in 0..=next() % 4 {
            let at = next() as usize % (bytes.len() + 1);
            bytes.insert(at, next() as u8);
            bytes.truncate(bytes.len() - next() as usize % (bytes.len() / 8 + 1));
        }
        let _ = (guard.check(&bytes), guard.judge(&bytes), Said::of(&bytes), guard.take(&bytes), guard.answer(&bytes));
        let _ = (Guard::open(&ledger(), &bytes, ()), join([("a", bytes.as_slice()), ("b", b"{}")]));
        let _ = (member.read(0, round, &bytes, &mut Vec::new()), member.judge(0, &bytes), member.renew(&bytes), member.take(0, &bytes));
        let _ = (bearer_token([&bytes]), SpiffeId::parse(&String::from_utf8_lossy(&bytes)).map(|id| id.path().len()));
    }
}

/// What threads share.
#[test]
fn types_of_threads() {
    fn is_shared<T: Send + Sync>() {}
    is_shared::<Guard<Always>>();
    is_shared::<svid::Journal>();
    is_shared::<std::sync::Mutex<LogMember<Always>>>();
    is_shared::<Options>();
    is_shared::<Sources>();
    #[cfg(feature = "openssl")]
    is_shared::<svid::OpenSsl>();
    #[cfg(feature = "ring")]
    is_shared::<svid::Ring>();
}

/// Why a call does nothing: `?` turns each into what `main` returns, and a thread may tell another one.
#[test]
fn errors_of_all_calls() {
    fn is<T: std::error::Error + Send + Sync + 'static>() {}
    is::<Error>();
    is::<svid::BundlesFault>();
    is::<svid::Denied>();
    is::<svid::IdError>();
    is::<svid::JournalError>();
    is::<svid::KeyError>();
    is::<svid::MessagesError>();
    is::<svid::OptionsFault>();
    is::<svid::PatternError>();
    is::<Refusal>();
    is::<svid::SourceFault>();
    is::<svid::Unavailable>();
    is::<svid::Unexpected>();
    is::<svid::Unverified>();
    #[cfg(feature = "postgres")]
    is::<svid::PostgresError>();
}
