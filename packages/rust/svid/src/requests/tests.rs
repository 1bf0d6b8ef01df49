//! Requests, and their answers: the modes, the store of a group, deadlines and readiness.

use std::collections::hash_map::RandomState;
use std::fmt::Display;
use std::hash::{BuildHasher, Hasher};
use std::sync::atomic::{AtomicBool, AtomicU64, AtomicUsize, Ordering};
use std::sync::{Arc, Mutex};
use std::thread::{self, JoinHandle};
use std::time::{Duration, Instant};

use crate::common::*;
use crate::journal::Journal;
use crate::key::Candidate;
use crate::open_token::OpenToken;
use crate::requests::{About, Due, Report, Step};
use crate::testing::{Clock, MemoryStore};
use crate::*;

const SUBJECT: &str = "spiffe://example.org/billing/api";
const THREADS: usize = 32;
const LONG: Duration = Duration::from_secs(500);
const SHORT: Duration = Duration::from_millis(200);
const KEEPS_NOTHING: &str = "the state folder takes no acceptance: mend the disk";

/// The time of all calls: that of the system's clock at the first one, since a state folder is read at its time.
fn time() -> u64 {
    static TIME: AtomicU64 = AtomicU64::new(0);
    let now = now().expect("the clock is right");
    TIME.compare_exchange(0, now, Ordering::Relaxed, Ordering::Relaxed).map_or_else(|first| first, |_| now)
}

/// Waits for something that must come. (A test that waits in vain is named with its line.)
#[track_caller]
fn until(holds: impl FnMut() -> bool) {
    within(patience(), holds);
}

#[track_caller]
fn within(patience: Duration, mut holds: impl FnMut() -> bool) {
    let begun = Instant::now();
    while !holds() {
        assert!(begun.elapsed() < patience, "it does not come");
        thread::sleep(Duration::from_millis(1));
    }
}

/// Holds up a call until a test lets it go on: for longer than the test has patience.
fn held(go: &AtomicBool) {
    within(3 * patience(), || go.load(Ordering::Acquire));
}

fn base64(bytes: &[u8]) -> String {
    const DIGITS: &[u8] = b"ABCDEFGHIJKLMNOPQRSTUVWXYZabcdefghijklmnopqrstuvwxyz0123456789-_";
    let digits = |it: &[u8]| {
        let word = it.iter().fold(0u32, |word, byte| word << 8 | u32::from(*byte)) << (8 * (3 - it.len()));
        (0..=it.len()).map(|at| DIGITS[(word >> (18 - 6 * at) & 63) as usize] as char).collect::<String>()
    };
    bytes.chunks(3).map(digits).collect()
}

/// The options of these tests, by their time.
fn ledger() -> Options {
    crate::common::ledger().clock(time)
}

const GOOD: &[u8] = b"a good signature";

/// A token of this number, with this signature.
fn signed(number: usize, signature: &[u8]) -> String {
    let header = base64(br#"{"alg":"ES256","kid":"ec-1"}"#);
    let (sub, exp) = (SUBJECT, time() + 600);
    let payload = base64(format!(r#"{{"sub":"{sub}","aud":["ledger"],"exp":{exp},"jti":"{number}"}}"#).as_bytes());
    format!("{header}.{payload}.{}", base64(signature))
}

/// A good token of this number.
fn fresh(number: usize) -> String {
    signed(number, GOOD)
}

/// A number that no other token has.
fn another() -> usize {
    static NUMBER: AtomicUsize = AtomicUsize::new(1_000_000);
    NUMBER.fetch_add(1, Ordering::Relaxed)
}

/// A coordinate of the key of good signatures, and that of another one.
const OWN: &str = "ddDZA3C24xcsCvdB9019MFUYHMEJgQjRhP_lsBcIMfM";
const OTHER: &str = "AAAAAAAAAAAAAAAAAAAAAAAAAAAAAAAAAAAAAAAAAAA";

/// Takes one signature for good, but not by another key, after it has done what a test wants.
struct By<F>(F);

impl<F> std::fmt::Debug for By<F> {
    fn fmt(&self, f: &mut std::fmt::Formatter<'_>) -> std::fmt::Result {
        f.write_str("By")
    }
}

impl<F: Fn()> Verify for By<F> {
    fn verify(&self, candidate: &Candidate<'_>, _: &[u8], signature: &[u8]) -> Result<bool, Unverified> {
        (self.0)();
        Ok(signature == GOOD && !candidate.jwk().windows(OTHER.len()).any(|it| it == OTHER.as_bytes()))
    }
}

type Plain = Guard<By<fn()>>;

fn bundles() -> Vec<u8> {
    std::fs::read(top().join("examples/bundles.json")).expect("the bundles of the examples")
}

fn plain() -> By<fn()> {
    By(|| {})
}

fn opened(options: &Options) -> Arc<Plain> {
    verifying(options, plain())
}

fn verifying<F: Fn()>(options: &Options, verifier: By<F>) -> Arc<Guard<By<F>>> {
    Arc::new(Guard::open(options, bundles(), verifier).expect("it opens"))
}

fn kept(options: &Options, journal: Journal) -> Arc<Plain> {
    Arc::new(Guard::with_journal(options, bundles(), plain(), journal).expect("it opens"))
}

// The journal of a folder, once nobody has it: the end of a guard waits some seconds for its threads, and a busy machine may need more.
fn at(room: &Room) -> Journal {
    let mut found = Err(JournalError::NoMemory);
    until(|| {
        found = Journal::open(&room.0);
        !matches!(found, Err(JournalError::Held { .. }))
    });
    found.expect("it opens")
}

fn strict(store: &Arc<impl Store + 'static>) -> Options {
    ledger().mode(Mode::Strict).store(Arc::clone(store) as Arc<dyn Store>)
}

fn bound(store: &Arc<impl Store + 'static>) -> Options {
    ledger().mode(Mode::Bound).store(Arc::clone(store) as Arc<dyn Store>)
}

fn memory() -> MemoryStore {
    MemoryStore::new().clock(time)
}

/// The outcome of a check, in a word.
fn word<T>(answer: Result<T, Error>) -> String {
    match answer {
        Ok(_) => "accepted".to_owned(),
        Err(Error::Refused(why)) => why.name().to_owned(),
        Err(Error::Unavailable(_)) => "Unavailable".to_owned(),
        Err(why) => format!("{why:?}"),
    }
}

/// The outcome of a check. It is made in a thread of its own, for which nobody waits without an end.
#[track_caller]
fn check<F: Fn() + Send + Sync + 'static>(guard: &Arc<Guard<By<F>>>, token: &str) -> String {
    answer(soon(guard, token))
}

fn soon<F: Fn() + Send + Sync + 'static>(guard: &Arc<Guard<By<F>>>, token: &str) -> JoinHandle<String> {
    let (guard, token) = (Arc::clone(guard), token.to_owned());
    thread::spawn(move || {
        let answer = guard.check(token);
        if let Ok(it) = &answer {
            assert_eq!((it.spiffe_id(), it.expires()), (SUBJECT, time() + 600));
        }
        word(answer)
    })
}

/// Why a check is not accepted, in words.
fn words_of(guard: &Arc<Plain>, token: &str) -> String {
    let (guard, token) = (Arc::clone(guard), token.to_owned());
    answer(thread::spawn(move || guard.check(token))).unwrap_err().to_string()
}

#[track_caller]
fn answer<T>(of: JoinHandle<T>) -> T {
    until(|| of.is_finished());
    of.join().expect("it does not panic")
}

fn uses<V>(guard: &Guard<V>) -> usize {
    guard.size().expect("it is open").uses
}

/// No request and no withdrawal is left behind.
fn nothing_waits<V>(guard: &Guard<V>) -> bool {
    guard.requests.core().waits() == 0
}

fn unready<V>(guard: &Guard<V>) -> String {
    guard.unready().map_or(String::new(), |why| why.to_string())
}

/// A withdrawal of the token of this number, which has the expiry of all.
fn withdraw(guard: &Arc<Plain>, number: usize) -> Result<Use, Error> {
    let (guard, key) = (Arc::clone(guard), Said::of(fresh(number)).expect("it is a token").key());
    answer(thread::spawn(move || guard.withdraw(key, time() + 600)))
}

/// A store whose calls do `before` what is put, and `after` it, as a test wants.
struct Fickle {
    store: MemoryStore,
    puts: Mutex<Vec<Vec<Claim>>>,
    before: Mutex<Arc<Fault>>,
    after: Mutex<Arc<Fault>>,
    /// How often it was asked for withdrawals, and whether it tells none.
    asked: AtomicUsize,
    is_mute: AtomicBool,
}

type Fault = dyn Fn() -> Result<(), StoreError> + Send + Sync;

impl Fickle {
    fn new() -> Arc<Fickle> {
        Fickle::over(memory())
    }

    fn over(store: MemoryStore) -> Arc<Fickle> {
        let nothing = || Mutex::new(Arc::new(|| Ok(())) as Arc<Fault>);
        Arc::new(Fickle {
            store,
            puts: Mutex::default(),
            before: nothing(),
            after: nothing(),
            asked: AtomicUsize::new(0),
            is_mute: AtomicBool::new(false),
        })
    }

    fn before(&self, fault: impl Fn() -> Result<(), StoreError> + Send + Sync + 'static) {
        *self.before.lock().unwrap() = Arc::new(fault);
    }

    fn after(&self, fault: impl Fn() -> Result<(), StoreError> + Send + Sync + 'static) {
        *self.after.lock().unwrap() = Arc::new(fault);
    }

    fn is_well(&self) {
        self.before(|| Ok(()));
        self.after(|| Ok(()));
    }

    /// How many claims each call had.
    fn counts(&self) -> Vec<usize> {
        self.puts.lock().unwrap().iter().map(Vec::len).collect()
    }

    /// The store answers nothing until the returned flag is set.
    fn hold(&self) -> Arc<AtomicBool> {
        let go = Arc::new(AtomicBool::new(false));
        let waits = Arc::clone(&go);
        self.before(move || {
            held(&waits);
            Ok(())
        });
        go
    }
}

impl Store for Fickle {
    fn put(&self, claims: &[Claim]) -> Result<Vec<Found>, StoreError> {
        if !claims.is_empty() {
            self.puts.lock().unwrap().push(claims.to_vec());
        }
        let (before, after) = (Arc::clone(&self.before.lock().unwrap()), Arc::clone(&self.after.lock().unwrap()));
        before()?;
        let found = self.store.put(claims)?;
        after().map(|()| found)
    }

    fn withdraw(&self, key: TokenKey, expires: u64) -> Result<(), StoreError> {
        let before = Arc::clone(&self.before.lock().unwrap());
        before()?;
        self.store.withdraw(key, expires)
    }

    fn withdrawals(&self, after: &str) -> Result<(Vec<(TokenKey, u64)>, String), StoreError> {
        self.asked.fetch_add(1, Ordering::Relaxed);
        if self.is_mute.load(Ordering::Acquire) {
            return Err("the store is away".into());
        }
        // (one at a time, as of a store that has many)
        let (mut all, last) = self.store.withdrawals(after)?;
        let from = after.split('.').nth(1).filter(|_| after.split('.').next() == last.split('.').next());
        match all.len() {
            0 | 1 => Ok((all, last)),
            _ => {
                all.truncate(1);
                let epoch = last.split('.').next().unwrap_or_default();
                Ok((all, format!("{epoch}.{}", from.and_then(|it| it.parse().ok()).unwrap_or(0) + 1)))
            }
        }
    }
}

fn away() -> Result<(), StoreError> {
    Err("the store is away".into())
}

/// The outcome of a check, once it is not too late: a wait may be short for a busy machine.
fn in_time(guard: &Arc<Plain>, token: &str) -> String {
    let mut said = String::new();
    until(|| {
        said = check(guard, token);
        said != "Unavailable"
    });
    said
}

/// Hears what a guard warns of.
fn hearing(options: Options) -> (Options, Arc<Mutex<Vec<String>>>) {
    let heard = Arc::new(Mutex::new(Vec::new()));
    let hears = Arc::clone(&heard);
    (options.warns(move |what: &dyn Display| hears.lock().unwrap().push(what.to_string())), heard)
}

// -- Modes

#[test]
fn once_over_restarts() {
    let room = Room::new("restarts");
    for said in ["accepted", "Replayed", "Replayed"] {
        assert_eq!(check(&kept(&ledger(), at(&room)), &fresh(1)), said);
    }
}

#[test]
fn a_token_that_may_come_again() {
    let guard = opened(&ledger().mode(Mode::Reuse));
    for _ in 0..3 {
        assert_eq!(check(&guard, &fresh(1)), "accepted");
    }
    assert_eq!(uses(&guard), 0);
    assert!(withdraw(&guard, 1).expect("it has not expired").withdrawn);
    assert_eq!(check(&guard, &fresh(1)), "Withdrawn");
}

#[test]
fn options_that_cannot_be() {
    let patterns = |of: &[&str]| ledger().callers(of.iter().copied());
    let rows = [
        (ledger().mode(Mode::Strict), OptionsFault::Store),
        (ledger().mode(Mode::Bound), OptionsFault::Store),
        (Options::new([""; 0]), OptionsFault::NoAudience),
        (ledger().open_paths(["/healthz", "/a//b"]), OptionsFault::Path { number: 1 }),
        (ledger().wait(Duration::from_micros(999)), OptionsFault::Wait),
        (patterns(&[]), OptionsFault::Callers),
        (patterns(&["spiffe://example.org", "*"]), OptionsFault::Caller { number: 1, fault: PatternFault::Scheme }),
        (patterns(&["spiffe://a\nspiffe://b"]), OptionsFault::Caller { number: 0, fault: PatternFault::DomainByte }),
        (Options::new(["ledger", "a\nb"]).callers([SUBJECT]), OptionsFault::Audience),
        (Options::new(["ledger", ""]).callers([SUBJECT]), OptionsFault::Audience),
    ];
    for (options, why) in rows {
        assert_eq!(Guard::open(&options, bundles(), plain()).map(drop), Err(Error::Options(why)));
        assert!(why.to_string().contains(": "), "it says what to do");
    }
}

#[test]
fn one_of_many_threads_is_accepted() {
    let store = Fickle::new();
    let guard = opened(&strict(&store).wait(LONG));
    let go = store.hold();
    let calls: Vec<_> = (0..THREADS).map(|_| soon(&guard, &fresh(1))).collect();
    until(|| !store.counts().is_empty() && guard.requests.core().waits() == THREADS);
    go.store(true, Ordering::Release);
    let said: Vec<_> = calls.into_iter().map(answer).collect();
    assert_eq!(said.iter().filter(|it| *it == "accepted").count(), 1, "{said:?}");
    assert_eq!(said.iter().filter(|it| *it == "Replayed").count(), THREADS - 1, "{said:?}");
    assert_eq!(store.counts(), [1], "the others wait for the answer to that");
    assert_eq!(uses(&guard), 1);
    assert!(nothing_waits(&guard));
}

#[test]
fn validators_of_one_store() {
    let store = Arc::new(memory());
    let guards = [(); 2].map(|()| opened(&strict(&store).wait(LONG)));
    let calls: Vec<_> = (0..80).map(|it| soon(&guards[it % 2], &fresh(it / 4))).collect();
    let said: Vec<_> = calls.into_iter().map(answer).collect();
    for four in said.chunks(4) {
        assert_eq!(four.iter().filter(|it| *it == "accepted").count(), 1, "{said:?}");
        assert_eq!(four.iter().filter(|it| *it == "Replayed").count(), 3, "{said:?}");
    }
}

/// Calls fail before or after they are made, or take long: no token is accepted twice.
#[test]
fn a_store_that_fails_now_and_then() {
    let (store, seed) = (Fickle::new(), RandomState::new());
    let count = Arc::new(AtomicU64::new(0));
    let fault = move || {
        let mut hasher = seed.build_hasher();
        hasher.write_u64(count.fetch_add(1, Ordering::Relaxed));
        match hasher.finish() % 8 {
            0 | 1 => away(),
            2 => {
                thread::sleep(Duration::from_millis(30));
                Ok(())
            }
            _ => Ok(()),
        }
    };
    let fault = Arc::new(fault);
    let (before, after) = (Arc::clone(&fault), fault);
    let guards = [(); 2].map(|()| opened(&strict(&store).wait(SHORT)));
    store.before(move || before());
    store.after(move || after());
    let works: Vec<_> = (0..8)
        .map(|number| {
            let guard = Arc::clone(&guards[number % 2]);
            thread::spawn(move || (0..40).map(|it| (it + 5 * number) % 40).map(|it| (it, check(&guard, &fresh(it)))).collect::<Vec<_>>())
        })
        .collect();
    let said: Vec<_> = works.into_iter().flat_map(answer).collect();
    let mut won: Vec<_> = said.iter().filter(|it| it.1 == "accepted").map(|it| it.0).collect();
    assert!(said.iter().all(|it| ["accepted", "Replayed", "Unavailable"].contains(&it.1.as_str())), "{said:?}");
    let count = won.len();
    won.sort_unstable();
    won.dedup();
    assert!(won.len() == count, "{said:?}");
    until(|| check(&guards[0], &fresh(another())) == "accepted");
    assert!(guards.iter().all(|it| nothing_waits(it)));
}

/// A restart does not take the claims of the life before for its own.
#[test]
fn each_life_has_claims_of_its_own() {
    let store = Arc::new(memory());
    for said in ["accepted", "Replayed"] {
        assert_eq!(check(&opened(&strict(&store).validator_id(ValidatorId([7; 16]))), &fresh(1)), said);
    }
}

#[test]
fn a_store_and_a_state_folder() {
    let room = Room::new("both");
    let guard = kept(&strict(&Arc::new(memory())), at(&room));
    assert_eq!(check(&guard, &fresh(1)), "accepted");
    withdraw(&guard, 2).expect("both are well");
    drop(guard);
    let guard = kept(&strict(&Arc::new(memory())), at(&room));
    assert_eq!(check(&guard, &fresh(2)), "Withdrawn");
}

#[test]
fn a_token_is_bound_to_its_caller() {
    let store = Arc::new(memory());
    let (one, other) = (opened(&bound(&store)), opened(&bound(&store)));
    let (owner, thief) = (Caller([1; 32]), Caller([2; 32]));
    for guard in [&one, &other, &one] {
        assert_eq!(word(guard.check_from(owner, fresh(1))), "accepted");
        assert_eq!(word(guard.check_from(thief, fresh(1))), "Replayed");
    }
    withdraw(&one, 1).expect("the store is well");
    for guard in [&one, &other] {
        assert_eq!(word(guard.check_from(owner, fresh(1))), "Withdrawn");
    }
}

#[test]
fn a_caller_is_given_in_mode_bound_alone() {
    let (store, presenter) = (Arc::new(memory()), Error::Options(OptionsFault::Presenter));
    assert_eq!(opened(&bound(&store)).check(fresh(1)), Err(presenter));
    for options in [ledger(), strict(&store), ledger().mode(Mode::Reuse)] {
        assert_eq!(opened(&options).check_from(Caller([1; 32]), fresh(1)), Err(presenter));
    }
}

// -- The store

#[test]
fn a_store_that_answers_late() {
    let store = Fickle::new();
    let guard = opened(&strict(&store).wait(SHORT));
    let go = store.hold();
    assert_eq!(check(&guard, &fresh(1)), "Unavailable");
    assert!(nothing_waits(&guard));
    store.is_well();
    go.store(true, Ordering::Release);
    // (the claim is of this life, so the token is not lost)
    assert_eq!(in_time(&guard, &fresh(1)), "accepted");
    assert_eq!(in_time(&guard, &fresh(1)), "Replayed");
}

#[test]
fn a_store_that_never_answers() {
    let store = Fickle::new();
    let (options, heard) = hearing(strict(&store).wait(SHORT));
    let guard = opened(&options);
    until(|| unready(&guard).is_empty());
    store.before(away);
    let why = "the group's store does not answer: the store is away".to_owned();
    until(|| {
        // (a check that is late before it was put shows nothing)
        assert_eq!(check(&guard, &fresh(1)), "Unavailable");
        heard.lock().unwrap().contains(&why) && store.counts().len() > 2
    });
    // (ten milliseconds after the first time, and then less and less often)
    let before = store.counts().len();
    assert_eq!(check(&guard, &fresh(another())), "Unavailable");
    assert!(store.counts().len() - before < 20, "{:?}", store.counts());
    store.is_well();
    assert_eq!(in_time(&guard, &fresh(1)), "accepted");
    assert!(nothing_waits(&guard));
}

/// The same claim is put again, and finds its own entry.
#[test]
fn an_answer_that_is_lost() {
    let (store, fails) = (Fickle::new(), AtomicBool::new(true));
    let guard = opened(&strict(&store).wait(LONG));
    store.after(move || if fails.swap(false, Ordering::Relaxed) { away() } else { Ok(()) });
    assert_eq!(check(&guard, &fresh(1)), "accepted");
    assert_eq!(store.counts(), [1, 1]);
    let puts = store.puts.lock().unwrap().clone();
    assert_eq!(puts[0], puts[1]);
    assert_eq!(check(&guard, &fresh(1)), "Replayed");
}

/// Nothing comes of it.
#[test]
fn an_answer_that_comes_again() {
    let store = Fickle::new();
    let guard = opened(&strict(&store).wait(LONG));
    let go = store.hold();
    let call = soon(&guard, &fresh(1));
    until(|| !store.counts().is_empty());
    let claim = store.puts.lock().unwrap()[0][0];
    let found = Found { owner: claim.owner, time: time(), deaf: 0 };
    let again = || (0..4).for_each(|number| guard.requests.found(number, &found));
    again();
    again();
    assert_eq!(answer(call), "accepted");
    go.store(true, Ordering::Release);
    again();
    assert_eq!(check(&guard, &fresh(1)), "Replayed");
    again();
    assert_eq!(uses(&guard), 1);
    assert!(nothing_waits(&guard));
}

type Answer = Result<Vec<Found>, StoreError>;

/// A store that answers what a test makes of good answers.
struct Theirs(Box<dyn Fn(Vec<Found>) -> Answer + Send + Sync>);

impl Store for Theirs {
    fn put(&self, claims: &[Claim]) -> Result<Vec<Found>, StoreError> {
        (self.0)(claims.iter().map(|it| Found { owner: it.owner, time: time(), deaf: 0 }).collect())
    }

    fn withdraw(&self, _: TokenKey, _: u64) -> Result<(), StoreError> {
        std::panic::panic_any("a test")
    }
}

#[test]
fn an_entry_of_another_owner() {
    for (owner, said, count) in [([7; 32], "Replayed", 0), (WITHDRAWN, "Withdrawn", 1)] {
        let theirs = Theirs(Box::new(move |found| Ok(found.into_iter().map(|it| Found { owner, ..it }).collect())));
        let guard = opened(&strict(&Arc::new(theirs)).wait(LONG));
        assert_eq!(check(&guard, &fresh(1)), said);
        assert_eq!(uses(&guard), count);
    }
}

/// It counts as no answer: the claim is put again.
#[test]
fn an_answer_that_is_none() {
    let wrongs: [fn(Vec<Found>) -> Answer; 3] =
        [|_| Ok(Vec::new()), |it| Ok([&it[..], &it[..]].concat()), |_| std::panic::panic_any("a test")];
    for wrong in wrongs {
        let count = Arc::new(AtomicUsize::new(0));
        let counts = Arc::clone(&count);
        let theirs = Theirs(Box::new(move |found| {
            if found.is_empty() || counts.load(Ordering::Relaxed) == 2 {
                return Ok(found);
            }
            counts.fetch_add(1, Ordering::Relaxed);
            wrong(found)
        }));
        let guard = opened(&strict(&Arc::new(theirs)).wait(LONG));
        assert_eq!(check(&guard, &fresh(1)), "accepted");
        assert_eq!(count.load(Ordering::Relaxed), 2);
        // (a panic of a withdrawal says that the store may not have it)
        assert_eq!(word(withdraw(&guard, 2)), "Unavailable");
    }
}

#[test]
fn many_claims_share_a_call() {
    let store = Fickle::new();
    let guard = opened(&strict(&store).wait(LONG));
    let claims = guard.requests.claims.as_ref().expect("it has a store");
    claims.let_be_under_way(64); // (as many as may be)
    let count = 300;
    let calls: Vec<_> = (0..count).map(|it| soon(&guard, &fresh(it))).collect();
    until(|| claims.waiting() == count);
    claims.let_be_under_way(0);
    assert!(calls.into_iter().map(answer).all(|it| it == "accepted"));
    let mut counts = store.counts();
    counts.sort_unstable();
    assert_eq!(counts, [44, 256]);
}

#[test]
fn a_call_that_hangs_does_not_hold_up_the_others() {
    let store = Fickle::new();
    let guard = opened(&strict(&store).wait(LONG));
    let go = store.hold();
    let first = soon(&guard, &fresh(1));
    until(|| !store.counts().is_empty());
    store.is_well();
    for _ in 0..3 {
        assert_eq!(answer(soon(&guard, &fresh(another()))), "accepted");
    }
    assert!(!first.is_finished());
    go.store(true, Ordering::Release);
    assert_eq!(answer(first), "accepted");
}

/// Nobody would get the answer, and the token would be lost.
#[test]
fn a_claim_that_is_late_is_not_put() {
    let store = Fickle::new();
    let guard = opened(&strict(&store).wait(SHORT));
    let claims = guard.requests.claims.as_ref().expect("it has a store");
    claims.let_be_under_way(64);
    assert_eq!(check(&guard, &fresh(1)), "Unavailable");
    claims.let_be_under_way(0);
    until(|| check(&guard, &fresh(another())) == "accepted");
    let late = Said::of(fresh(1)).expect("it is a token").key();
    assert!(store.puts.lock().unwrap().iter().flatten().all(|it| it.key != late));
}

#[test]
fn a_store_that_has_lost_entries() {
    let (store, clock) = (Arc::new(memory().lasts(3620)), Clock::at(time()));
    let guard = opened(&strict(&store).longest(3600).clock(clock.reader()));
    assert_eq!(check(&guard, &fresh(1)), "accepted");
    assert_eq!(unready(&guard), "");
    store.lose();
    let why = words_of(&guard, &fresh(2));
    assert!(why.contains("before the store lost entries"), "{why}");
    assert!(unready(&guard).starts_with("the store has lost entries"));
    clock.advance(60);
    assert_eq!(guard.unready(), None);
}

#[test]
fn a_token_that_lives_longer_than_the_store_keeps_it() {
    let store = Arc::new(MemoryStore::new().clock(|| time() - 3600));
    let why = words_of(&opened(&strict(&store).longest(3600)), &fresh(1));
    assert!(why.contains("lasts seconds past the store's time"), "{why}");
}

#[test]
fn the_memory_of_a_store() {
    let clock = Arc::new(AtomicU64::new(1000));
    let time = Arc::clone(&clock);
    let store = MemoryStore::new().clock(move || time.load(Ordering::Relaxed)).margin(10).lasts(100);
    let claim = |key, owner, expires| Claim { key: TokenKey([key; 32]), owner: [owner; 32], expires };
    let found = |owner, time, deaf| Found { owner: [owner; 32], time, deaf };
    let put = |claims: &[Claim]| store.put(claims).expect("there is memory");
    let (mine, theirs) = (claim(1, 1, 1050), claim(1, 2, 1050));
    assert_eq!(put(&[]), []);
    assert_eq!(put(&[mine, theirs, mine]), [found(1, 1000, 0); 3]);
    clock.store(1059, Ordering::Relaxed);
    assert_eq!(put(&[theirs]), [found(1, 1059, 0)]);
    clock.store(1060, Ordering::Relaxed);
    assert_eq!(put(&[theirs]), [found(2, 1060, 0)]);
    put(&[claim(2, 1, 1200)]);
    store.withdraw(TokenKey([2; 32]), 1100).expect("there is memory");
    clock.store(1209, Ordering::Relaxed);
    assert_eq!(put(&[claim(2, 2, 1050)]), [found(0, 1209, 0)]);
    let (_, last) = store.withdrawals("").expect("there is memory");
    store.lose();
    assert_eq!(put(&[claim(2, 2, 1050)]), [found(2, 1209, 1309)]);
    // (a position from before the loss reads all again)
    store.withdraw(TokenKey([3; 32]), 1300).expect("there is memory");
    assert_eq!(store.withdrawals(&last).expect("there is memory").0, [(TokenKey([3; 32]), 1300)]);
}

// -- Withdrawals

#[test]
fn a_withdrawal_reaches_the_other_validators() {
    let store = Arc::new(memory());
    let (one, other) = (opened(&strict(&store)), opened(&strict(&store)));
    assert!(withdraw(&one, 1).expect("the store is well").withdrawn);
    for guard in [&one, &other, &other] {
        assert_eq!(check(guard, &fresh(1)), "Withdrawn");
    }
    assert_eq!(uses(&other), 1);
    assert!(nothing_waits(&one));
}

#[test]
fn a_withdrawal_that_the_store_may_not_have() {
    let store = Fickle::new();
    let (options, heard) = hearing(strict(&store).wait(SHORT));
    let guard = opened(&options);
    store.before(away);
    let why = withdraw(&guard, 1).unwrap_err();
    assert!(why.to_string().ends_with(": withdraw it again"), "{why}");
    until(|| heard.lock().unwrap().iter().any(|it| it == "the group's store did not take a withdrawal: the store is away"));
    let go = store.hold();
    assert_eq!(word(withdraw(&guard, 1)), "Unavailable");
    store.is_well();
    go.store(true, Ordering::Release);
    assert_eq!(in_time(&guard, &fresh(1)), "Withdrawn");
    until(|| withdraw(&guard, 1).is_ok());
    assert!(nothing_waits(&guard));
}

#[test]
fn a_withdrawal_that_the_disk_may_not_have() {
    let room = Room::new("withdrawal");
    let (journal, faults) = Journal::failing(&room.0);
    let guard = kept(&ledger(), journal);
    faults.let_fail(&["write"]);
    assert_eq!(word(withdraw(&guard, 1)), "Unavailable");
    withdraw(&guard, 1).expect("the disk is well");
    assert!(nothing_waits(&guard));
    drop(guard);
    assert_eq!(check(&kept(&ledger(), at(&room)), &fresh(1)), "Withdrawn");
}

/// However long the guard is up by then.
#[test]
fn requests_and_withdrawals_have_their_time_from_when_they_come() {
    let guard = opened(&strict(&Arc::new(memory())).wait(Duration::from_secs(2)));
    let (mut core, up) = (guard.requests.core(), 100_000_000);
    let number = core.come(up, [0; 32]).expect("it comes");
    assert_eq!(core.due(), Ok(up + 2000));
    core.leave(up, number).expect("it is there");
    let number = core.withdrawal_comes(up).expect("it comes");
    assert_eq!(core.due(), Ok(up + 2000));
    core.overdue(up + 1999).expect("it is open");
    assert!(core.withdrawal_ended(number).is_none());
    core.overdue(up + 2000).expect("it is open");
    assert_eq!(core.withdrawal_ended(number).map(|it| it.store), Some(ffi::MAY_LACK));
    core.leave_withdrawal(number);
}

/// In the modes that don't ask the store of each token, its withdrawals are read.
#[test]
fn withdrawals_are_heard() {
    let store = Fickle::new();
    let other = opened(&strict(&store));
    for mode in [Mode::Once, Mode::Reuse, Mode::Bound] {
        let (before, after) = (another(), another());
        withdraw(&other, before).expect("the store is well");
        let guard = opened(&ledger().mode(mode).store(Arc::clone(&store) as Arc<dyn Store>).wait(LONG));
        let judged = |number: usize| word(guard.judge(fresh(number)));
        assert_eq!((unready(&guard).as_str(), judged(before).as_str()), ("", "Withdrawn"));
        // (one whose token has expired holds up none of the others)
        store.store.withdraw(TokenKey([9; 32]), time() - 1).expect("there is memory");
        withdraw(&other, after).expect("the store is well");
        until(|| judged(after) == "Withdrawn");
        // (what it lost, it tells no more)
        store.store.lose();
        let late = another();
        withdraw(&other, late).expect("the store is well");
        until(|| judged(late) == "Withdrawn");
    }
    // Nobody asks for them in mode strict.
    let asked = store.asked.load(Ordering::Relaxed);
    assert!(asked >= 6, "{asked}");
    let alone = Fickle::new();
    let guard = opened(&strict(&alone));
    assert_eq!(check(&guard, &fresh(another())), "accepted");
    until(|| unready(&guard).is_empty());
    assert_eq!(alone.asked.load(Ordering::Relaxed), 0);
}

/// A clock of the service that panics does not end who hears of them, and one that jumps loses none: they are heard once it is well.
#[test]
fn withdrawals_while_the_clock_panics() {
    for panics in [true, false] {
        let (store, is_wrong, token) = (Fickle::new(), Arc::new(AtomicBool::new(false)), another());
        let wrong = Arc::clone(&is_wrong);
        let clock = move || match wrong.load(Ordering::Acquire) {
            true if panics => std::panic::panic_any("a test"),
            true => time() + 7200,
            false => time(),
        };
        let (options, heard) = hearing(ledger().step(3600).store(Arc::clone(&store) as Arc<dyn Store>).wait(LONG).clock(clock));
        let guard = opened(&options);
        assert_eq!(unready(&guard), "");
        is_wrong.store(true, Ordering::Release);
        withdraw(&opened(&strict(&store)), token).expect("the store is well");
        let why = if panics { "the call panicked" } else { "now is more than step seconds past" };
        let is_heard = |it: &String| it.starts_with(&format!("the withdrawals of the group's store can't be read: {why}"));
        until(|| heard.lock().unwrap().iter().any(is_heard));
        is_wrong.store(false, Ordering::Release);
        until(|| word(guard.judge(fresh(token))) == "Withdrawn");
    }
}

/// Until they were read, no token is judged.
#[test]
fn withdrawals_that_are_not_heard_yet() {
    let store = Fickle::new();
    store.is_mute.store(true, Ordering::Release);
    let (options, heard) = hearing(ledger().store(Arc::clone(&store) as Arc<dyn Store>).wait(SHORT));
    let guard = opened(&options);
    let due = "the store's withdrawals are being read";
    until(|| unready(&guard) == due);
    assert_eq!(words_of(&guard, &fresh(2)), due);
    let why = "the withdrawals of the group's store can't be read: the store is away".to_owned();
    let told = || heard.lock().unwrap().iter().filter(|it| **it == why).count();
    until(|| told() == 1);
    // (each fault is reported once)
    let asked = store.asked.load(Ordering::Relaxed);
    until(|| store.asked.load(Ordering::Relaxed) > asked + 1);
    assert_eq!(told(), 1);
    store.is_mute.store(false, Ordering::Release);
    until(|| unready(&guard).is_empty());
    assert_eq!(in_time(&guard, &fresh(2)), "accepted");
    // Later on tokens are judged though it fails again.
    store.is_mute.store(true, Ordering::Release);
    until(|| told() == 2);
    assert_eq!(unready(&guard), "");
    assert_eq!(in_time(&guard, &fresh(another())), "accepted");
}

// -- After a suspension

/// A store whose guards look at it once, and then where that is due.
struct Suspended {
    store: MemoryStore,
    clock: Clock,
    asked: AtomicUsize,
    before: Mutex<Arc<Fault>>,
    after: Mutex<Arc<Fault>>,
}

impl Suspended {
    fn new() -> Arc<Suspended> {
        let nothing = || Mutex::new(Arc::new(|| Ok(())) as Arc<Fault>);
        let clock = Clock::at(time());
        Arc::new(Suspended { store: memory(), clock, asked: AtomicUsize::new(0), before: nothing(), after: nothing() })
    }

    fn guard(self: &Arc<Suspended>, mode: Mode, wait: Duration) -> Arc<Plain> {
        let store = Arc::clone(self) as Arc<dyn Store>;
        let guard = opened(&ledger().mode(mode).store(store).wait(wait).clock(self.clock.reader()));
        looks_of(&guard).rest();
        until(|| looks_of(&guard).is_at_rest());
        until(|| unready(&guard).is_empty());
        guard
    }

    fn asked(&self) -> usize {
        self.asked.load(Ordering::Acquire)
    }

    /// Each call for withdrawals does this before it reads them, or after.
    fn does(&self, before: bool, fault: impl Fn() -> Result<(), StoreError> + Send + Sync + 'static) {
        *(if before { &self.before } else { &self.after }).lock().unwrap() = Arc::new(fault);
    }

    /// Such a call hangs until the flag is set, and then fails, or not.
    fn hold(&self, before: bool, fails: bool) -> Arc<AtomicBool> {
        let go = Arc::new(AtomicBool::new(false));
        let waits = Arc::clone(&go);
        self.does(before, move || {
            held(&waits);
            if fails {
                away()
            } else {
                Ok(())
            }
        });
        go
    }

    /// Another guard withdraws a token while the machine is suspended for so many seconds.
    fn withdraw_meanwhile(&self, token: &str, seconds: u64) {
        let key = Said::of(token.as_bytes()).expect("it is a token").key();
        self.store.withdraw(key, time() + 600).expect("the store is in memory");
        self.clock.advance(seconds);
    }
}

impl Store for Suspended {
    fn put(&self, claims: &[Claim]) -> Result<Vec<Found>, StoreError> {
        self.store.put(claims)
    }

    fn withdraw(&self, key: TokenKey, expires: u64) -> Result<(), StoreError> {
        self.store.withdraw(key, expires)
    }

    fn withdrawals(&self, after: &str) -> Result<(Vec<(TokenKey, u64)>, String), StoreError> {
        self.asked.fetch_add(1, Ordering::AcqRel);
        let (before, done) = (Arc::clone(&self.before.lock().unwrap()), Arc::clone(&self.after.lock().unwrap()));
        before()?;
        let page = self.store.withdrawals(after)?;
        done().map(|()| page) // (what was read may be old by now)
    }
}

fn looks_of<V>(guard: &Guard<V>) -> &crate::looks::Looks {
    &guard.requests.claims.as_ref().expect("it has a store").looks
}

fn checked(guard: &Arc<Plain>, mode: Mode, token: &str) -> String {
    match mode {
        Mode::Bound => word(guard.check_from(Caller::of("10.0.0.7"), token)),
        _ => word(guard.check(token)),
    }
}

#[test]
fn a_withdrawal_while_the_machine_was_suspended() {
    for mode in [Mode::Once, Mode::Reuse, Mode::Bound] {
        let store = Suspended::new();
        let guard = store.guard(mode, LONG);
        for judges in [false, true] {
            let token = fresh(another());
            store.withdraw_meanwhile(&token, 9);
            let said = if judges { word(guard.judge(&token)) } else { checked(&guard, mode, &token) };
            assert_eq!(said, "Withdrawn");
        }
    }
}

#[test]
fn a_look_from_before_a_suspension_does_not_count() {
    let (store, token) = (Suspended::new(), fresh(another()));
    let guard = store.guard(Mode::Reuse, LONG);
    let asked = store.asked();
    let go = store.hold(false, false);
    looks_of(&guard).wake();
    until(|| store.asked() > asked);
    store.withdraw_meanwhile(&token, 100);
    let call = soon(&guard, &token);
    until(|| looks_of(&guard).is_wanted() || call.is_finished());
    go.store(true, Ordering::Release);
    assert_eq!(answer(call), "Withdrawn");
}

/// Also where it fails: whoever comes then is answered at once, as before.
#[test]
fn requests_after_a_suspension_share_a_look() {
    for fails in [false, true] {
        let (store, token) = (Suspended::new(), fresh(another()));
        let guard = store.guard(Mode::Reuse, LONG);
        let asked = store.asked();
        let go = store.hold(true, fails);
        store.withdraw_meanwhile(&token, 100);
        let mut calls = vec![soon(&guard, &token)];
        until(|| store.asked() > asked);
        calls.extend((1..THREADS).map(|_| soon(&guard, &token)));
        until(|| guard.requests.core().waits() == THREADS);
        go.store(true, Ordering::Release);
        for call in calls {
            assert_eq!(answer(call), if fails { "accepted" } else { "Withdrawn" });
        }
        assert_eq!(check(&guard, &fresh(another())), "accepted");
        assert_eq!(store.asked() - asked, if fails { 1 } else { 2 });
    }
}

/// A request waits for a part of its time, and is answered then. The next one is at once.
#[test]
fn a_store_that_hangs_after_a_suspension() {
    for mode in [Mode::Once, Mode::Reuse, Mode::Bound] {
        let store = Suspended::new();
        let guard = store.guard(mode, Duration::from_secs(2));
        let asked = store.asked();
        let go = store.hold(true, false);
        looks_of(&guard).wake(); // (the store hung before)
        until(|| store.asked() > asked);
        until(|| {
            store.clock.advance(10);
            checked(&guard, mode, &fresh(another())) == "accepted"
        });
        until(|| {
            let begun = Instant::now();
            checked(&guard, mode, &fresh(another())) == "accepted" && begun.elapsed() < Duration::from_millis(500)
        });
        go.store(true, Ordering::Release);
    }
}

// -- Callers

#[test]
fn callers() {
    let store = Arc::new(memory());
    for options in [ledger(), ledger().mode(Mode::Reuse), strict(&store)] {
        let closed = opened(&options.clone().callers(["spiffe://example.org/other", "spiffe://example.com"]));
        for _ in 0..2 {
            assert_eq!(closed.check(fresh(1)), Err(Error::NotAllowed));
            assert_eq!(check(&closed, &signed(1, b"a bad signature")), "BadSignature");
        }
        assert_eq!(uses(&closed), 0);
        assert!(nothing_waits(&closed));
        assert_eq!(
            check(&opened(&options.clone().callers(["spiffe://example.com", "spiffe://example.org/billing/*"])), &fresh(another())),
            "accepted"
        );
        assert_eq!(check(&opened(&options), &fresh(another())), "accepted");
    }
}

// -- Deadlines

/// The token is not used up: it was not judged in time.
#[test]
fn a_verifier_that_takes_too_long() {
    let slow = Arc::new(AtomicBool::new(true));
    let is_slow = Arc::clone(&slow);
    let verifier = By(move || {
        let begun = Instant::now();
        until(|| !is_slow.load(Ordering::Acquire) || begun.elapsed() > 3 * SHORT);
    });
    let guard = verifying(&ledger().wait(SHORT), verifier);
    assert_eq!(check(&guard, &fresh(1)), "Unavailable");
    assert_eq!(uses(&guard), 0);
    assert!(nothing_waits(&guard));
    slow.store(false, Ordering::Release);
    until(|| check(&guard, &fresh(1)) == "accepted");
}

#[test]
fn those_that_wait_are_late_one_by_one() {
    let store = Fickle::new();
    let guard = opened(&strict(&store).wait(SHORT));
    let go = store.hold();
    let calls: Vec<_> = (0..8).map(|it| soon(&guard, &fresh(it % 4))).collect();
    assert!(calls.into_iter().map(answer).all(|it| it == "Unavailable"));
    assert!(nothing_waits(&guard));
    go.store(true, Ordering::Release);
}

/// No thread waits for the lock while another one verifies.
#[test]
fn a_slow_verifier_holds_up_nobody() {
    let (is_first, go) = (AtomicBool::new(true), Arc::new(AtomicBool::new(false)));
    let (begun, goes) = (Arc::new(AtomicBool::new(false)), Arc::clone(&go));
    let begins = Arc::clone(&begun);
    let verifier = By(move || {
        if is_first.swap(false, Ordering::Relaxed) {
            begins.store(true, Ordering::Release);
            held(&goes);
        }
    });
    let guard = verifying(&ledger().wait(LONG), verifier);
    let first = soon(&guard, &fresh(1));
    until(|| begun.load(Ordering::Acquire));
    assert_eq!(check(&guard, &fresh(2)), "accepted");
    go.store(true, Ordering::Release);
    assert_eq!(answer(first), "accepted");
}

/// It is asked about right before it goes out.
#[test]
fn a_claim_of_who_does_not_know_yet_that_it_is_late() {
    let guard = opened(&strict(&Arc::new(memory())).wait(SHORT));
    until(|| unready(&guard).is_empty());
    let requests = &guard.requests;
    until(|| {
        let token = fresh(another());
        let mut read = OpenToken::read(token.as_bytes(), &[]).expect("it is a token");
        let (mut core, up) = (requests.core(), requests.clock.up());
        let number = core.come(up, [0; 32]).expect("it judges");
        let len = core.keys_of(&mut read).expect("there is memory");
        read.look(len, &plain()).expect("there is memory");
        core.judge_request(time(), up, number, &mut read, None).expect("it is judged");
        let used = match core.step(up, number) {
            Ok(Some(Step::Deed(deed))) if deed.what == ffi::DEED_CLAIM => deed.used,
            _ => panic!("no claim is due"),
        };
        let at = core.due().expect("it is open");
        drop(core);
        let due = Due { number, used };
        // (a busy machine may be late for it)
        let is_in_time = requests.send(&due).is_some();
        until(|| requests.clock.up() >= at);
        assert!(requests.send(&due).is_none());
        assert!(matches!(requests.core().step(at, number), Ok(Some(Step::Deed(deed))) if deed.status() == ffi::LATE));
        assert!(nothing_waits(&guard));
        is_in_time
    });
}

/// Who waits behind a request that ends by a panic has its turn.
#[test]
fn a_panic_leaves_nobody_behind() {
    let (store, asked) = (Fickle::new(), AtomicUsize::new(0));
    let verifier = By(move || {
        if asked.fetch_add(1, Ordering::Relaxed) == 0 {
            std::panic::panic_any("a test");
        }
    });
    let guard = verifying(&strict(&store).wait(LONG), verifier);
    assert!(soon(&guard, &fresh(1)).join().is_err());
    assert!(nothing_waits(&guard));
    assert_eq!(guard.requests.core().due(), Ok(u64::MAX));
    assert_eq!(answer(soon(&guard, &fresh(1))), "accepted");
}

/// So it has where that one was first in the store.
#[test]
fn a_panic_after_an_answer_of_the_store_leaves_nobody_behind() {
    let (store, panics) = (Fickle::new(), Arc::new(AtomicBool::new(false)));
    let does = Arc::clone(&panics);
    let verifier = By(move || {
        if does.swap(false, Ordering::AcqRel) {
            std::panic::panic_any("a test");
        }
    });
    let guard = verifying(&strict(&store).wait(LONG), verifier);
    let go = store.hold();
    let first = soon(&guard, &fresh(1));
    until(|| !store.counts().is_empty());
    let second = soon(&guard, &fresh(1));
    until(|| guard.requests.core().waits() == 2);
    // (so the first one looks for its keys again)
    guard.follow(bundles()).expect("they are good");
    panics.store(true, Ordering::Release);
    go.store(true, Ordering::Release);
    until(|| first.is_finished());
    assert!(first.join().is_err());
    assert_eq!(answer(second), "accepted");
}

/// What a service writes into its log has neither bundles nor tokens, and is short.
#[test]
fn a_guard_that_is_printed() {
    let guard = opened(&ledger());
    assert_eq!(check(&guard, &fresh(1)), "accepted");
    let member = LogMember::open(&crate::common::ledger(), bundles(), plain(), &LogStart::default()).expect("it opens");
    for text in [format!("{guard:?}"), format!("{member:?}")] {
        assert!(text.len() < 1000 && text.contains("validator_id"), "{text}");
    }
}

/// A thread that panics with the record in its hands takes it from nobody.
#[test]
fn a_thread_that_panics() {
    let guard = opened(&ledger());
    let other = Arc::clone(&guard);
    let panics = thread::spawn(move || {
        let _held = other.requests.core();
        std::panic::panic_any("a test");
    });
    assert!(panics.join().is_err());
    assert_eq!(check(&guard, &fresh(1)), "accepted");
}

/// Nobody waits for a store that hangs.
#[test]
fn a_guard_that_is_dropped_ends_its_threads() {
    let store = Fickle::new();
    let guard = opened(&strict(&store));
    assert_eq!(check(&guard, &fresh(1)), "accepted");
    let go = store.hold();
    assert!(guard.requests.core().waits() == 0);
    drop(guard);
    go.store(true, Ordering::Release);
    until(|| Arc::strong_count(&store) == 1);
}

/// To drop a guard takes some seconds at most, though the disk hangs, and who is warned of a bundle.
#[test]
fn a_guard_that_is_dropped_ends() {
    let (room, goes, hangs) = (Room::new("dropped"), Arc::new(AtomicBool::new(true)), Arc::new(AtomicBool::new(false)));
    let (bundle, state) = (room.0.join("bundle"), room.0.join("state"));
    let whole: serde_json::Value = serde_json::from_slice(&bundles()).expect("an object");
    std::fs::write(&bundle, whole["example.org"].to_string()).expect("it is written");
    let (journal, faults) = Journal::failing(&state);
    let go = Arc::clone(&goes);
    faults.before_writes(move || held(&go));
    let (go, begins) = (Arc::clone(&goes), Arc::clone(&hangs));
    let options = ledger().wait(SHORT).warns(move |_| {
        begins.store(true, Ordering::Release);
        held(&go);
    });
    let sources = Sources::new().file("example.org", &bundle);
    let guard = Arc::new(Guard::with_journal(&options, sources, plain(), journal).expect("it opens"));
    until(|| in_time(&guard, &fresh(another())) == "accepted");
    goes.store(false, Ordering::Release);
    std::fs::write(&bundle, "half").expect("it is written");
    until(|| hangs.load(Ordering::Acquire));
    assert_eq!(check(&guard, &fresh(another())), "Unavailable");
    answer(thread::spawn(move || drop(guard)));
    let why = Journal::open(&state).map(drop).expect_err("what is under way goes there yet");
    assert!(matches!(why, JournalError::Held { .. }), "{why}");
    goes.store(true, Ordering::Release);
    until(|| Journal::open(&state).is_ok());
}

// -- Readiness

#[test]
fn a_disk_that_fails() {
    let room = Room::new("fails");
    let (journal, faults) = Journal::failing(&room.0);
    let (options, heard) = hearing(ledger());
    let guard = kept(&options, journal);
    assert_eq!(unready(&guard), "");
    faults.let_fail(&["write", "write"]);
    assert_eq!(words_of(&guard, &fresh(1)), "the state folder did not take the acceptance: mend the disk");
    assert!(heard.lock().unwrap()[0].starts_with("the state folder did not keep an entry: "));
    assert_eq!(unready(&guard), KEEPS_NOTHING);
    until(|| unready(&guard).is_empty()); // (each look tries to keep that use)
    assert_eq!(check(&guard, &fresh(2)), "accepted");
    assert_eq!(check(&guard, &fresh(1)), "Replayed");
    drop(guard);
    assert_eq!(uses(&kept(&ledger(), at(&room))), 2);
}

/// A look may keep the use again before the thread of the request sees that its write failed.
#[test]
fn a_disk_that_is_well_again_at_once() {
    let room = Room::new("at-once");
    let (guard, token) = (kept(&ledger(), at(&room)), fresh(1));
    let requests = &guard.requests;
    let mut read = OpenToken::read(token.as_bytes(), &[]).expect("it is a token");
    let (mut core, up) = (requests.core(), requests.clock.up());
    let number = core.come(up, [0; 32]).expect("it judges");
    let len = core.keys_of(&mut read).expect("there is memory");
    read.look(len, &plain()).expect("there is memory");
    core.judge_request(time(), up, number, &mut read, None).expect("it is judged");
    let used = match core.step(up, number) {
        Ok(Some(Step::Deed(deed))) if deed.what == ffi::DEED_APPEND => deed.used,
        _ => panic!("no write is due"),
    };
    core.writes(number, true);
    drop(core);
    let about = About::Use { number, message: Use::of(&used, false).message().expect("it is live") };
    for ended in [Err(JournalError::Late), Ok(())] {
        Report { to: Arc::downgrade(requests), about }.tell(&ended);
    }
    assert!(matches!(requests.core().step(up, number), Ok(Some(Step::Deed(deed))) if deed.status() == ffi::NOT_KEPT));
    assert_eq!(unready(&guard), "");
}

/// It ends neither what writes to the disk nor what puts claims.
#[test]
fn who_is_warned_may_panic() {
    let (room, store) = (Room::new("warned"), Fickle::new());
    let (journal, faults) = Journal::failing(&room.0);
    let guard = kept(&strict(&store).wait(LONG).warns(|_| std::panic::panic_any("a test")), journal);
    faults.let_fail(&["write"]);
    assert_eq!(word(withdraw(&guard, 1)), "Unavailable");
    withdraw(&guard, 1).expect("the disk is well");
    let fails = AtomicUsize::new(3);
    store.after(move || fails.fetch_update(Ordering::Relaxed, Ordering::Relaxed, |it| it.checked_sub(1)).map_or(Ok(()), |_| away()));
    assert_eq!(check(&guard, &fresh(2)), "accepted");
}

#[test]
fn a_disk_that_hangs() {
    let (room, goes) = (Room::new("hangs"), Arc::new(AtomicBool::new(true)));
    let (journal, faults) = Journal::failing(&room.0);
    let go = Arc::clone(&goes);
    faults.before_writes(move || held(&go));
    let guard = kept(&ledger().wait(SHORT), journal);
    goes.store(false, Ordering::Release);
    until(|| {
        assert_eq!(check(&guard, &fresh(another())), "Unavailable");
        unready(&guard) == KEEPS_NOTHING
    });
    assert!(nothing_waits(&guard));
    goes.store(true, Ordering::Release);
    until(|| unready(&guard).is_empty());
    until(|| check(&guard, &fresh(another())) == "accepted");
}

#[test]
fn a_store_that_is_not_there_yet() {
    let store = Fickle::new();
    store.before(away);
    let (options, heard) = hearing(strict(&store).wait(SHORT));
    let guard = opened(&options);
    let due = "the group's store was not reached yet";
    assert_eq!(unready(&guard), due);
    assert_eq!(words_of(&guard, &fresh(1)), due);
    assert!(store.counts().is_empty());
    until(|| !heard.lock().unwrap().is_empty());
    assert_eq!(heard.lock().unwrap()[0], "the group's store does not answer: the store is away");
    let unseen = opened(&strict(&store).wait(SHORT));
    store.is_well();
    // (though nobody looks)
    assert_eq!(in_time(&unseen, &fresh(another())), "accepted");
    until(|| unready(&guard).is_empty());
    assert_eq!(in_time(&guard, &fresh(1)), "accepted");
}

/// Who has looked before does not say later that it was not reached.
#[test]
fn a_store_that_is_reached_meanwhile() {
    let store = Fickle::new();
    store.before(away);
    // (in mode strict nobody reads withdrawals)
    for options in [strict(&store), bound(&store)] {
        let guard = opened(&options.wait(SHORT));
        let known = |it| ffi::Known { bundled: 1, loaded: 1, heard: it, joined: 1, caught_up: 1, opened: it, ..ffi::Known::default() };
        let mut core = guard.requests.core();
        assert!(core.ready().is_err());
        for is_known in [1, 0] {
            core.know(&known(is_known)).expect("it is open");
            assert_eq!(core.ready(), Ok(()));
        }
    }
}

#[test]
fn a_store_that_goes_away() {
    let store = Fickle::new();
    let guard = opened(&strict(&store).wait(SHORT));
    until(|| unready(&guard).is_empty());
    store.before(away);
    assert_eq!(check(&guard, &fresh(1)), "Unavailable");
    until(|| unready(&guard).starts_with("the group's store does not answer"));
    store.is_well();
    until(|| unready(&guard).is_empty()); // (each look asks the store)
}

/// Each time the guard warns, and puts claims again as soon as the first time: an answer ends the pauses that have grown.
#[test]
fn a_store_that_goes_away_again_and_again() {
    let store = Fickle::new();
    let (options, heard) = hearing(strict(&store).wait(LONG));
    let guard = opened(&options);
    let told = || heard.lock().unwrap().iter().filter(|it| it.starts_with("the group's store does not answer")).count();
    for times in 1..=3 {
        let before = store.counts().len();
        store.before(away);
        let call = soon(&guard, &fresh(another()));
        until(|| store.counts().len() > before + 3 && told() == times);
        store.is_well();
        assert_eq!(answer(call), "accepted");
    }
    assert_eq!(told(), 3);
}

/// A store that answers claims, and whose withdrawals can't be read, is away: in mode bound nobody is to send it tokens, in the others it is well.
#[test]
fn a_store_that_tells_no_withdrawals_any_more() {
    let away = |guard: &Plain| unready(guard).starts_with("the group's store does not answer");
    for is_bound in [true, false] {
        let store = Fickle::new();
        let options = if is_bound { bound(&store) } else { ledger().store(Arc::clone(&store) as Arc<dyn Store>) };
        let guard = opened(&options.wait(SHORT));
        until(|| unready(&guard).is_empty());
        store.is_mute.store(true, Ordering::Release);
        let asked = store.asked.load(Ordering::Acquire);
        if is_bound {
            until(|| away(&guard));
            let claims = store.counts().len();
            let caller = || Caller::of("a caller");
            until(|| guard.check_from(caller(), fresh(another())).is_ok());
            assert!(store.counts().len() > claims && away(&guard), "a claim that is answered does not say that withdrawals are read");
        }
        until(|| store.asked.load(Ordering::Acquire) > asked + 2);
        assert_eq!(away(&guard), is_bound);
        store.is_mute.store(false, Ordering::Release);
        until(|| unready(&guard).is_empty());
    }
}

/// An answer to no claims does not say whether the store lost entries.
#[test]
fn a_store_that_lost_entries_and_goes_away() {
    let store = Fickle::over(memory().lasts(3620));
    let guard = opened(&strict(&store).longest(3600).wait(SHORT));
    let away_for_now = "the group's store does not answer";
    store.store.lose();
    let comes_to = |due: &str| {
        until(|| {
            let _ = check(&guard, &fresh(another()));
            unready(&guard).starts_with(due)
        })
    };
    comes_to("the store has lost entries");
    store.before(away);
    comes_to(away_for_now);
    store.is_well();
    until(|| !unready(&guard).starts_with(away_for_now)); // (each look asks the store)
    assert!(unready(&guard).starts_with("the store has lost entries"));
}

#[test]
fn a_clock_that_jumps() {
    let clock = Clock::at(time());
    let guard = opened(&ledger().step(3600).clock(clock.reader()));
    assert_eq!(guard.unready(), None);
    clock.advance(7200);
    let why = guard.unready().expect("it is not ready");
    assert_eq!(why.to_string(), "the clock went ahead too far at once: set the clock right");
    clock.set(time());
    assert_eq!(guard.unready(), None);
}

/// A key that is gone by then lets nobody in.
#[test]
fn renewed_bundles_count_for_who_waits() {
    let store = Fickle::new();
    let guard = opened(&strict(&store).wait(LONG));
    let go = store.hold();
    let calls: Vec<_> = (0..2).map(|_| soon(&guard, &fresh(1))).collect();
    until(|| !store.counts().is_empty() && guard.requests.core().waits() == 2);
    guard.follow(br#"{"example.org":{"keys":[]}}"#).expect("they are good");
    go.store(true, Ordering::Release);
    assert!(calls.into_iter().map(answer).all(|it| it == "NoKey"));
}

/// A key that is spelt otherwise by then lets its tokens in.
#[test]
fn keys_are_looked_for_again_in_renewed_bundles() {
    let store = Fickle::new();
    let guard = opened(&strict(&store).wait(LONG));
    let go = store.hold();
    let call = soon(&guard, &fresh(1));
    until(|| !store.counts().is_empty());
    let text = String::from_utf8(bundles()).expect("a text");
    guard.follow(text.replace("\"ec-1\"", "\"ec-1\", \"alg\": \"ES256\"").as_bytes()).expect("they are good");
    go.store(true, Ordering::Release);
    assert_eq!(answer(call), "accepted");
}

/// A key that has its name by then did not make its signature.
#[test]
fn another_key_of_the_same_name_lets_nobody_in() {
    let store = Fickle::new();
    let guard = opened(&strict(&store).wait(LONG));
    let go = store.hold();
    let call = soon(&guard, &fresh(1));
    until(|| !store.counts().is_empty());
    let text = String::from_utf8(bundles()).expect("a text");
    assert!(text.contains(OWN));
    guard.follow(text.replace(OWN, OTHER).as_bytes()).expect("they are good");
    go.store(true, Ordering::Release);
    assert_eq!(answer(call), "BadSignature");
}

/// Nothing is there.
fn no_bundle() -> Sources {
    Sources::new().file("later.example", "/nowhere/bundle.json")
}

/// The last bundle may go while a token is on its way to its answer. That is not the token's fault: it is accepted once the bundle is there again.
#[test]
fn the_last_bundle_goes_meanwhile() {
    let store = Fickle::new();
    let rows = [(ledger(), false), (ledger().mode(Mode::Reuse), false), (strict(&store), false), (strict(&store), true)];
    for (options, is_at_store) in rows {
        let (goes, token) = (Arc::new(Mutex::new(None::<Box<dyn FnOnce() + Send>>)), fresh(another()));
        let does = |now: bool| {
            let goes = Arc::clone(&goes);
            move || {
                let does = if now { goes.lock().unwrap().take() } else { None };
                if let Some(does) = does {
                    does();
                }
            }
        };
        let guard = verifying(&options.wait(LONG), By(does(!is_at_store)));
        let at_store = does(is_at_store);
        store.before(move || {
            at_store();
            Ok(())
        });
        let other = Arc::clone(&guard);
        *goes.lock().unwrap() = Some(Box::new(move || other.follow(no_bundle()).expect("it can be followed")));
        assert_eq!(check(&guard, &token), "Unavailable", "{is_at_store}");
        assert_eq!(word(guard.judge(&token)), "Unavailable");
        let denied = guard.admit_only(&[], [&format!("Bearer {token}")]).unwrap_err();
        assert_eq!((denied.status(), denied.reason()), (503, "NoBundle"));
        guard.follow(bundles()).expect("they are good");
        assert_eq!(check(&guard, &token), "accepted");
        assert!(nothing_waits(&guard));
        store.is_well();
    }
}

/// A token is good, or has no answer, while the only bundle comes and goes.
#[test]
fn no_token_is_refused_where_there_is_no_bundle() {
    let (guard, token, is_over) = (opened(&ledger().mode(Mode::Reuse)), fresh(1), AtomicBool::new(false));
    let seen = [(); 2].map(|()| AtomicUsize::new(0));
    thread::scope(|scope| {
        for _ in 0..2 {
            scope.spawn(|| {
                while !is_over.load(Ordering::Acquire) {
                    match guard.check(&token) {
                        Ok(_) => &seen[0],
                        Err(Error::Unavailable(_)) => &seen[1],
                        Err(why) => panic!("{why}"),
                    }
                    .fetch_add(1, Ordering::Relaxed);
                }
            });
        }
        let comes_and_goes = || {
            guard.follow(no_bundle()).expect("it can be followed");
            guard.follow(bundles()).expect("they are good");
            seen.iter().all(|it| it.load(Ordering::Relaxed) > 200)
        };
        let ended = std::panic::catch_unwind(std::panic::AssertUnwindSafe(|| until(comes_and_goes)));
        is_over.store(true, Ordering::Release);
        ended.expect("both answers come");
    });
}

/// In mode bound without a store, over starts.
#[test]
fn a_token_belongs_to_its_first_caller() {
    let room = Room::new("first-caller");
    let options = ledger().mode(Mode::Bound).wait(LONG);
    for start in 0..2 {
        let guard = kept(&options, at(&room));
        for (caller, is_accepted) in [(1, true), (2, false), (1, true)] {
            let said = guard.check_from(Caller([caller; 32]), fresh(1));
            assert_eq!(said.as_ref().err(), (!is_accepted).then_some(&Error::Refused(Refusal::Replayed)), "{caller}");
        }
        if start == 1 {
            let said = guard.judge(fresh(1)).expect("it is good");
            guard.withdraw(said.used().key, said.expires()).expect("it is kept");
        }
    }
    let why = kept(&options, at(&room)).check_from(Caller([1; 32]), fresh(1));
    assert_eq!(why.err(), Some(Error::Refused(Refusal::Withdrawn)));
    assert_eq!(Guard::open(&options, bundles(), plain()).err(), Some(Error::Options(OptionsFault::Store)));
}

// -- What a service hears, answers to requests, and snapshots

#[test]
fn who_hears_of_tokens_that_are_not_accepted() {
    let heard = Arc::new(Mutex::new(Vec::new()));
    let hears = Arc::clone(&heard);
    let options = ledger().callers([SUBJECT]).refuses(move |why| {
        hears.lock().unwrap().push(why.to_string());
        std::panic::panic_any("a test");
    });
    let guard = opened(&options);
    assert_eq!(check(&guard, &fresh(1)), "accepted");
    for token in [fresh(1), signed(2, b"a bad signature"), "no token".to_owned()] {
        assert_ne!(check(&guard, &token), "accepted");
        let _ = guard.judge(&token);
    }
    let nobody = |token: String| guard.admit_only(&[], [format!("Bearer {token}").as_str()]).map_err(|why| why.status()).map(drop);
    assert_eq!(nobody(fresh(3)), Err(403));
    assert_eq!(nobody("no token".to_owned()), Err(401)); // (its header has two words after Bearer, and so no token)
    for token in [signed(4, b"a bad signature"), "none".to_owned(), "x".repeat(65_537)] {
        assert_eq!(nobody(token), Err(401));
    }
    let said: Vec<String> = heard.lock().unwrap().iter().map(|it| it.split(':').next().unwrap_or_default().to_owned()).collect();
    let due = ["Replayed", "BadSignature", "NotThreeParts", "NotAllowed", "BadSignature", "NotThreeParts", "TooLong"];
    assert_eq!(said, due);
}

/// A guard says once of each token that several accepted, as soon as it hears of that.
#[test]
fn who_hears_of_tokens_that_several_accepted() {
    let heard = Arc::new(Mutex::new(Vec::new()));
    let hearing = || {
        let hears = Arc::clone(&heard);
        opened(&ledger().twice(move |key| {
            hears.lock().unwrap().push(key);
            std::panic::panic_any("a test");
        }))
    };
    let (one, two, three) = (hearing(), opened(&ledger()), opened(&ledger()));
    let accepted = |guard: &Arc<Plain>, number| *guard.check(fresh(number)).expect("it is good").used();
    let message = |it: &Use| it.message().expect("it is live");
    let uses: Vec<Use> = (0..40).map(|it| accepted(&two, it)).collect();
    one.take(uses[..20].iter().flat_map(message).collect::<Vec<u8>>()).expect("it takes them");
    assert_eq!(*heard.lock().unwrap(), []);
    let mine = accepted(&one, 30);
    for _ in 0..2 {
        one.take(message(&uses[30])).expect("it takes it");
        assert_eq!(*heard.lock().unwrap(), [mine.key]);
    }
    // (a withdrawal is no acceptance)
    let withdrawn = three.withdraw(uses[1].key, uses[1].expires).expect("it is live");
    one.take(message(&withdrawn)).expect("it takes it");
    assert_eq!(heard.lock().unwrap().len(), 1);
    // Of two that neither of them made, in one piece.
    let again = accepted(&three, 5);
    hearing().take([message(&uses[5]), message(&again)].concat()).expect("it takes both");
    assert_eq!(heard.lock().unwrap()[1..], [again.key]);
    // Bad messages are an error, and long ones are taken.
    assert!(matches!(one.take(b"no message"), Err(Error::Messages(_))));
    let long = message(&accepted(&two, 41)).repeat((1 << 22) / 82 + 1);
    assert_eq!(one.take(&long), Ok(()));
}

#[test]
#[cfg(feature = "http")]
fn answers_of_a_service() {
    let store = Fickle::new();
    store.before(away);
    let options = strict(&store).wait(SHORT).callers(["spiffe://example.com"]).open_paths(["/healthz", "/static/*"]);
    let guard = opened(&options);
    let ask = |path: &str, header: Option<String>| {
        let mut request = http::Request::get(path);
        if let Some(header) = header {
            request = request.header("authorization", header);
        }
        guard.admit_request(&request.body(()).expect("it is a request"))
    };
    for path in ["/healthz", "/healthz?a=b", "/static/a.css"] {
        assert!(matches!(ask(path, None), Ok(None)), "{path}");
    }
    let answer = |denied: Denied| {
        let response: http::Response<String> = denied.response();
        let field = |name: &str| response.headers().get(name).map(|it| it.to_str().expect("a text").to_owned());
        assert_eq!((field("cache-control").as_deref(), field("content-type").as_deref()), (Some("no-store"), Some("application/json")));
        (response.status().as_u16(), field("www-authenticate"), field("retry-after"), response.into_body())
    };
    let said = |text: &str| Some(text.to_owned());
    let refused = |reason: &str| format!("{{\"reason\":\"{reason}\",\"result\":\"refused\"}}\n");
    let unavailable = |reason: &str| format!("{{\"reason\":\"{reason}\",\"result\":\"unavailable\"}}\n");
    assert_eq!(answer(ask("/healthz/", None).unwrap_err()), (401, said("Bearer realm=\"svid\""), None, refused("NoToken")));
    let basic = ask("/", said("Basic YTpi")).unwrap_err();
    assert_eq!(answer(basic), (401, said("Bearer realm=\"svid\""), None, refused("NotBearer")));
    assert_eq!(answer(ask("/", said(&format!("Bearer {}", fresh(1)))).unwrap_err()), (503, None, said("1"), unavailable("NotReady")));
    for (why, reason) in [(Error::NoMemory, "NoMemory"), (Error::Jump, "ClockJump"), (Error::Unsupported, "NotJudged")] {
        assert_eq!(answer(Denied::from(why)), (503, None, said("1"), unavailable(reason)));
    }
    let malformed = "Bearer error=\"invalid_token\", error_description=\"HeaderSpelling\"";
    assert_eq!(answer(ask("/", said("Bearer a.b.c")).unwrap_err()), (401, said(malformed), None, refused("HeaderSpelling")));
    let scope = "Bearer error=\"insufficient_scope\", error_description=\"NotAllowed\"";
    assert_eq!(answer(Denied::NotAllowed), (403, said(scope), None, refused("NotAllowed")));
}

#[test]
fn answers_to_requests() {
    let store = Fickle::new();
    let guard = opened(&strict(&store).wait(LONG).callers(["spiffe://example.org"]));
    let header = |token: String| [format!("Bearer {token}")];
    assert!(guard.admit(&header(fresh(1))).is_ok());
    assert_eq!(guard.admit(&header(fresh(1))).unwrap_err(), Denied::Refused(Refusal::Replayed));
    store.before(away);
    let denied = opened(&strict(&store).wait(SHORT)).admit(&header(fresh(2))).unwrap_err();
    assert_eq!((denied.status(), denied.challenge(), denied.reason()), (503, None, "NotReady"));
    let denied = guard.admit_from(|| Caller([0; 32]), &header(fresh(2))).unwrap_err();
    assert_eq!(denied, Denied::Failed(Error::Options(OptionsFault::Presenter)));
    let closed = opened(&ledger().callers(["spiffe://example.com"]));
    assert_eq!(closed.admit(&header(fresh(1))).unwrap_err(), Denied::NotAllowed);
    let guard = opened(&bound(&Arc::new(memory())));
    for (caller, status) in [(1, 200), (2, 401), (1, 200)] {
        let said = guard.admit_from(|| Caller([caller; 32]), &header(fresh(1)));
        assert_eq!(said.map_or_else(|denied| denied.status(), |_| 200), status);
    }
}

#[test]
fn a_guard_takes_snapshots_by_itself() {
    let room = Room::new("snapshots");
    let (journal, faults) = Journal::failing(&room.0);
    let (options, heard) = hearing(ledger());
    let guard = kept(&options, journal);
    assert!(room.0.join("snapshot").exists(), "one is taken at the start");
    let journal = guard.journal.as_ref().expect("it has one");
    assert_eq!(guard.validator_id(), journal.validator_id());
    for withdraws in [false, false, true] {
        std::fs::remove_file(room.0.join("snapshot")).expect("it is there");
        until(|| {
            journal.let_a_snapshot_be_due();
            let is_kept = if withdraws { withdraw(&guard, another()).is_ok() } else { check(&guard, &fresh(another())) == "accepted" };
            is_kept && room.0.join("snapshot").exists()
        });
    }
    assert_eq!(*heard.lock().unwrap(), [""; 0]);
    faults.let_fail(&["rename"]);
    until(|| {
        journal.let_a_snapshot_be_due();
        check(&guard, &fresh(another())) == "accepted" && !heard.lock().unwrap().is_empty()
    });
    let said = heard.lock().unwrap().clone();
    assert!(said.len() == 1 && said[0].starts_with("the state folder has no new snapshot: "), "{said:?}");
    let count = uses(&guard);
    drop(guard);
    // (each start begins a journal)
    for _ in 0..20 {
        assert_eq!(uses(&kept(&ledger(), at(&room))), count);
    }
    let files = std::fs::read_dir(&room.0).expect("it is there").count();
    assert!(files < 16, "{files} files");
}
