//! What a thousand lives of guards leave: no thread, no descriptor, and no memory. (This is the one test of its process.)
#![cfg(feature = "testing")]

use std::fs;
use std::sync::Arc;

use crate::common::*;
use svid::testing::{Clock, Issuer, MemoryStore, Wrong};
use svid::{Caller, Error, Guard, Journal, LogMember, LogStart, Mode, OpenSsl, Refusal, Said, Sources};

/// So many lives, and how many of them come before the first count.
const LIVES: (usize, usize) = (1000, 100);
/// How many bytes more there may be after all lives: less than one allocation of each twentieth one.
const MOST: usize = 1 << 10;

/// `struct mallinfo2` of the C library's malloc, from which Rust, OpenSSL and libsvid have their memory.
#[repr(C)]
#[derive(Default)]
struct Mallinfo {
    before: [usize; 4],
    hblkhd: usize,
    between: [usize; 2],
    uordblks: usize,
    after: [usize; 2],
}

extern "C" {
    fn mallinfo2() -> Mallinfo;
}

/// How many threads, descriptors, and bytes this process has.
fn held() -> [usize; 3] {
    let count = |folder: &str| fs::read_dir(folder).expect("Linux has it").count();
    // SAFETY: it takes nothing, and gives a structure by value.
    let memory = unsafe { mallinfo2() };
    [count("/proc/self/task"), count("/proc/self/fd"), memory.uordblks + memory.hblkhd]
}

/// What is the same in all lives.
struct World {
    room: Room,
    issuer: Issuer,
    sources: Sources,
    /// Tokens that are refused.
    wrong: Vec<String>,
}

impl World {
    fn new() -> World {
        let (room, issuer) = (Room::new("leaks"), Issuer::new("example.org"));
        fs::create_dir(room.0.join("folder")).expect("it is made");
        fs::write(room.0.join("folder/other.example.json"), issuer.bundle()).expect("it is written");
        fs::write(room.0.join("bundle.json"), issuer.bundle()).expect("it is written");
        let sources = Sources::new().folder(room.0.join("folder")).file("example.org", room.0.join("bundle.json"));
        let kinds = [Wrong::Expired, Wrong::Audience, Wrong::Signature, Wrong::Key, Wrong::Malformed];
        let wrong = kinds.into_iter().map(|it| issuer.wrong(it, "/web", "ledger")).collect();
        World { sources: sources.file("third.example", room.0.join("none")), room, issuer, wrong }
    }

    /// Opens guards of each mode, makes calls that succeed and calls that fail, and drops them.
    fn live(&self, number: usize) {
        let token = || self.issuer.token("/web", "ledger");
        let quiet = || ledger().warns(|_| {}).refuses(|_| {}).twice(|_| {});
        let store = Arc::new(MemoryStore::new());
        let rows = [
            (Mode::Once, quiet()),
            (Mode::Reuse, quiet()),
            (Mode::Strict, quiet().store(store.clone())),
            (Mode::Bound, quiet().store(store)),
        ];
        for (at, (mode, options)) in rows.into_iter().enumerate() {
            let (options, token) = (options.mode(mode).callers(["spiffe://example.org/*"]), token());
            let caller = || Caller::of("127.0.0.1");
            let check = |guard: &Guard<OpenSsl>, token: &str| match mode {
                Mode::Bound => guard.check_from(caller(), token),
                _ => guard.check(token),
            };
            // (each fifth life has a state folder, since a disk takes its time)
            let guard = match number % 20 == at {
                true => {
                    let folder = self.room.0.join(format!("state{at}"));
                    let journal = Journal::open(&folder).expect("nobody has it");
                    assert!(Journal::open(&folder).is_err());
                    Guard::with_journal(&options, self.sources.clone(), OpenSsl::new(), journal).expect("it opens")
                }
                false => Guard::open(&options, self.sources.clone(), OpenSsl::new()).expect("it opens"),
            };
            until("the store's withdrawals", || guard.unready().is_none());
            let accepted = check(&guard, &token).expect("it is good");
            assert!(accepted.claims().is_ok() && accepted.spiffe_id() == "spiffe://example.org/web");
            let again = check(&guard, &token).map(drop);
            assert_eq!(again.is_ok(), matches!(mode, Mode::Bound | Mode::Reuse), "{again:?}");
            assert!(self.wrong.iter().all(|it| check(&guard, it).is_err()));
            let values = ["Basic a", "Bearer a", "Bearer b"].map(str::as_bytes);
            assert!(guard.admit(values).is_err() && guard.unready().is_none());
            guard.withdraw(Said::of(&token).expect("it is one").key(), accepted.expires()).expect("it is kept");
            assert!(matches!(check(&guard, &token), Err(Error::Refused(Refusal::Replayed | Refusal::Withdrawn))));
            assert!(guard.follow(Sources::new()).is_err() && guard.follow(b"half").is_err());
            guard.follow(self.issuer.bundles()).expect("they are good");
            assert!(check(&guard, "a.b.c").is_err());
        }
        self.log_member();
    }

    /// A member of a log reads what another one has put.
    fn log_member(&self) {
        let mut member = LogMember::open(&ledger(), self.issuer.bundles(), OpenSsl::new(), &LogStart::default()).expect("it opens");
        let told = Guard::open(&ledger(), self.issuer.bundles(), OpenSsl::new()).expect("it opens");
        told.check(self.issuer.token("/web", "ledger")).expect("it is good");
        let messages = told.tell().expect("it tells");
        let now = told.size().map(|_| Clock::new().now()).expect("it has a size");
        member.take(now, messages).expect("they are good");
        assert!(member.take(now, "half").is_err() && member.renew("half").is_err());
        member.renew(self.issuer.bundles()).expect("they are good");
    }
}

#[test]
fn lives_leave_nothing() {
    if !is_alone() {
        // (what a thread keeps of its freed memory to use it again counts as held otherwise)
        let tunables = "glibc.malloc.tcache_count=0:glibc.malloc.arena_max=1";
        return alone("leaks::lives_leave_nothing", |own| {
            own.env("GLIBC_TUNABLES", tunables);
        });
    }
    let (world, threads) = (World::new(), held()[0]);
    let mut last = [0; 3];
    let mut lives = |from: usize, to: usize| {
        (from..to).for_each(|number| world.live(number));
        // (threads that put claims end by themselves, and nobody waits for them)
        until("the end of all threads", || {
            last = held();
            last[0] == threads
        });
        println!("after {to} lives: {last:?}");
        last
    };
    let first = lives(0, LIVES.1);
    let last = lives(LIVES.1, LIVES.0);
    assert_eq!(last[1], first[1], "descriptors");
    assert!(last[2] < first[2] + MOST, "{} bytes are left by {} lives", last[2] - first[2], LIVES.0 - LIVES.1);
}
