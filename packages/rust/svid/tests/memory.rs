//! Want of memory: in each call, each allocation is refused once, whether this crate makes it, the C library or OpenSSL. The call says so, or
//! does without; nothing is accepted by one that fails; and the same call succeeds then. So it is where no thread can be started.

#![deny(unsafe_op_in_unsafe_fn)]
#![allow(clippy::declare_interior_mutable_const)] // (the macro of std writes it so)

mod common;

use std::cell::Cell;
use std::os::raw::{c_char, c_int, c_void};

use common::*;
use svid::{
    BundlesFault, Candidate, DocumentFault, Error, Guard, LogMember, LogStart, Options, Said, Sources, TokenKey, Unverified, Verify,
};

extern "C" {
    fn __libc_malloc(size: usize) -> *mut c_void;
    fn __libc_calloc(count: usize, size: usize) -> *mut c_void;
    fn __libc_realloc(old: *mut c_void, size: usize) -> *mut c_void;
    fn dlsym(handle: *mut c_void, name: *const c_char) -> *mut c_void;
}

thread_local! {
    /// How many allocations of this thread succeed until one is refused; below 0, none is.
    static LEFT: Cell<i64> = const { Cell::new(-1) };
    /// How many threads this one has started, and how many it may.
    static THREADS: Cell<(usize, usize)> = const { Cell::new((0, usize::MAX)) };
}

fn is_refused() -> bool {
    LEFT.try_with(|left| {
        let before = left.get();
        if before >= 0 {
            left.set(before - 1);
        }
        before == 0
    })
    .unwrap_or(false)
}

/// # Safety
///
/// As that of C.
#[no_mangle]
pub unsafe extern "C" fn malloc(size: usize) -> *mut c_void {
    if is_refused() {
        return std::ptr::null_mut();
    }
    // SAFETY: it is that of glibc, whose `free` is used.
    unsafe { __libc_malloc(size) }
}

/// # Safety
///
/// As that of C.
#[no_mangle]
pub unsafe extern "C" fn calloc(count: usize, size: usize) -> *mut c_void {
    if is_refused() {
        return std::ptr::null_mut();
    }
    // SAFETY: it is that of glibc, whose `free` is used.
    unsafe { __libc_calloc(count, size) }
}

/// # Safety
///
/// As that of C.
#[no_mangle]
pub unsafe extern "C" fn realloc(old: *mut c_void, size: usize) -> *mut c_void {
    if is_refused() {
        return std::ptr::null_mut();
    }
    // SAFETY: it is that of glibc, which made `old`.
    unsafe { __libc_realloc(old, size) }
}

type Create = unsafe extern "C" fn(*mut c_void, *const c_void, *const c_void, *mut c_void) -> c_int;

/// # Safety
///
/// As that of C.
#[no_mangle]
pub unsafe extern "C" fn pthread_create(thread: *mut c_void, how: *const c_void, begin: *const c_void, of: *mut c_void) -> c_int {
    const NEXT: *mut c_void = -1isize as *mut c_void;
    const EAGAIN: c_int = 11;
    let (started, most) = THREADS.try_with(|it| it.replace((it.get().0 + 1, it.get().1))).unwrap_or((0, 1));
    if started >= most {
        // (whatever they could do by then, they have done)
        until("all threads of bundles to wait", || waiting() == started);
        return EAGAIN;
    }
    // SAFETY: the C library has the function of this name, which takes these.
    unsafe { std::mem::transmute::<*mut c_void, Create>(dlsym(NEXT, b"pthread_create\0".as_ptr().cast()))(thread, how, begin, of) }
}

/// How many threads of bundles wait for something.
fn waiting() -> usize {
    let tasks = std::fs::read_dir("/proc/self/task").expect("Linux has it");
    let stats = tasks.filter_map(|it| std::fs::read_to_string(it.ok()?.path().join("stat")).ok());
    stats.filter(|it| it.contains("(svid-bundles) S ")).count()
}

/// Makes a call on what `begin` makes, with each of its allocations refused, until it needs no further one. What it answers must be what it
/// answers with memory, or else out of memory; and then that answer when it is made again. Says how many were refused.
fn refused<B, T: PartialEq + std::fmt::Debug>(begin: impl Fn() -> B, call: impl Fn(&mut B) -> Result<T, Error>) -> usize {
    refused_as(&[Error::NoMemory], begin, call)
}

fn refused_as<B, T: PartialEq + std::fmt::Debug>(
    whys: &[Error],
    begin: impl Fn() -> B,
    call: impl Fn(&mut B) -> Result<T, Error>,
) -> usize {
    let due = call(&mut begin()).expect("with memory it succeeds");
    for count in 0.. {
        let mut of = begin();
        LEFT.with(|left| left.set(count));
        let answer = call(&mut of);
        let is_over = LEFT.with(|left| left.replace(-1)) >= 0;
        match answer {
            Ok(it) => assert_eq!(it, due, "with allocation {count} refused"),
            Err(why) => {
                assert!(whys.contains(&why), "with allocation {count} refused: {why}");
                assert_eq!(call(&mut of).as_ref(), Ok(&due), "behind allocation {count}");
            }
        }
        if is_over {
            return count as usize;
        }
    }
    unreachable!("it ends")
}

const NOW: u64 = 1_767_225_600;

fn bundles() -> Vec<u8> {
    std::fs::read(top().join("examples/bundles.json")).expect("the bundles of the examples")
}

fn token() -> String {
    std::fs::read_to_string(top().join("examples/token.txt")).expect("the token of the examples").trim().to_owned()
}

/// Takes each signature for good.
struct All;

impl Verify for All {
    fn verify(&self, _: &Candidate<'_>, _: &[u8], _: &[u8]) -> Result<bool, Unverified> {
        Ok(true)
    }
}

fn options() -> Options {
    Time::at(NOW).of(ledger()).validator_id(svid::ValidatorId([7; 16]))
}

fn opened() -> Guard<All> {
    Guard::open(&options(), bundles(), All).expect("it opens")
}

/// A record of some uses.
fn record() -> Vec<u8> {
    let guard = opened();
    for number in 0..40 {
        guard.withdraw(TokenKey([number; 32]), NOW + 100).expect("it has not expired");
    }
    guard.tell().expect("it has one")
}

#[test]
fn calls_on_a_guard() {
    let (token, record) = (token(), record());
    assert!(refused(opened, |it| it.check(&token)) > 5);
    assert!(refused(opened, |it| it.judge(&token)) > 5);
    assert!(refused(opened, |it| it.withdraw(TokenKey([7; 32]), NOW + 1)) > 0);
    assert!(refused(opened, |it| it.take(&record)) > 0);
    assert!(refused(|| (), |_| Said::of(&token)) > 5);
    let holds = || {
        let guard = opened();
        guard.take(&record).expect("it is a record");
        guard
    };
    assert!(refused(holds, |it| it.tell()) > 0);
    assert!(refused(holds, |it| it.summary()) > 0);
    let summary = opened().summary().expect("it has one");
    assert!(refused(holds, |it| it.answer(&summary)) > 0);
}

#[test]
fn calls_on_a_member_of_a_log() {
    let (given, token, record) = (bundles(), token(), record());
    let member = || LogMember::open(&options(), &given, All, &LogStart::default()).expect("it opens");
    let claim = *member().judge(NOW, &token).expect("it is good").used();
    let value = [&claim.message().unwrap()[..], &record].concat();
    assert!(refused(member, |it| it.judge(NOW, &token)) > 5);
    assert!(refused(member, |it| it.renew(&given)) > 5);
    let read_all = |it: &mut LogMember<All>| {
        while !it.read(NOW, 1, &value, &mut Vec::new())?.is_whole {}
        it.tell()
    };
    assert!(refused(member, read_all) > 0);
    let start = LogStart { beside: &record, ..LogStart::default() };
    assert!(refused(|| LogMember::open(&options(), &given, All, &start).expect("it opens"), |it| it.beside()) > 0);
}

/// Want of memory is no fault of a bundle.
#[test]
fn bundles_that_are_joined() {
    let (guard, none) = (opened(), r#"{"keys":[]}"#);
    let fault = BundlesFault::Document { number: 2, fault: DocumentFault::NotObject };
    let bad = Sources::from(bundles()).bundle("a.example", none).bundle("b.example", "[]");
    for count in 0.. {
        let sources = bad.clone();
        LEFT.with(|left| left.set(count));
        let why = guard.follow(sources).unwrap_err();
        if LEFT.with(|left| left.replace(-1)) >= 0 {
            assert_eq!((why, count > 10), (Error::Bundles(fault), true));
            break;
        }
        assert!([Error::NoMemory, Error::Bundles(fault)].contains(&why), "with allocation {count} refused: {why}");
    }
}

/// With the signature. (The first check lets OpenSSL load what it keeps: where that lacks memory, OpenSSL 3.0 may crash.)
#[test]
#[cfg(feature = "openssl")]
fn a_signature() {
    let (given, token) = (bundles(), token());
    let guard = || Guard::open(&options(), &given, svid::OpenSsl::new()).expect("it opens");
    guard().check(&token).expect("it is good");
    // (OpenSSL answers of some that the signature is bad)
    let whys = [Error::NoMemory, Error::Refused(svid::Refusal::BadSignature)];
    assert!(refused_as(&whys, guard, |it| it.check(&token)) > 20);
    assert!(refused_as(&whys, guard, |it| it.judge(&token)) > 10);
    assert!(refused(guard, |it| Ok(it.unready())) == 0);
}

/// The threads of claims have no allocation refused.
#[test]
#[cfg(feature = "testing")]
fn a_claim() {
    let (given, token) = (bundles(), token());
    let strict = || {
        let store = std::sync::Arc::new(svid::testing::MemoryStore::new().clock(|| NOW));
        Guard::open(&options().mode(svid::Mode::Strict).store(store), &given, All).expect("it opens")
    };
    strict().check(&token).expect("it is good");
    assert!(refused(strict, |it| it.check(&token)) > 20);
}

/// The guard goes on with the sources before, and with no bundle of the others.
#[test]
#[cfg(all(feature = "https", feature = "testing"))]
fn threads_of_sources() {
    use svid::testing::Issuer;
    let (room, mut issuer, other) = (Room::new("threads"), Issuer::new("example.org"), Issuer::new("other.example"));
    let [file, beside] = ["bundle", "beside"].map(|it| room.0.join(it));
    let writes = |issuer: &Issuer| std::fs::write(&file, issuer.bundle()).expect("it is written");
    writes(&issuer);
    std::fs::write(&beside, other.bundle()).expect("it is written");
    let guard = Guard::open(&ledger(), Sources::new().file("example.org", &file), svid::OpenSsl::new()).expect("it opens");
    let is_good = |issuer: &Issuer| guard.check(issuer.token("/web", "ledger")).is_ok();
    // (nobody listens there)
    let none = |all: Sources, name: &str| all.https_web(name, "https://127.0.0.1:1/", None);
    let sources = none(none(Sources::new().file("other.example", &beside), "a.example"), "b.example");
    for count in 0..3 {
        THREADS.with(|it| it.set((1, 1 + count)));
        assert_eq!(guard.follow(sources.clone()), Err(Error::NoMemory));
        assert!(is_good(&issuer) && !is_good(&other), "with thread {count} refused");
    }
    THREADS.with(|it| it.set((0, usize::MAX)));
    issuer.rotate();
    writes(&issuer);
    until("the new key", || is_good(&issuer));
    assert_eq!((guard.follow(sources), is_good(&issuer), is_good(&other)), (Ok(()), false, true));
}
