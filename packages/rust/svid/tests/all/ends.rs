//! What a guard leaves that is dropped: nothing.
#![cfg(all(feature = "https", feature = "testing"))]

use std::fs;
use std::net::TcpListener;
use std::sync::Arc;
use std::time::Duration;

use crate::common::*;
use svid::testing::{Issuer, MemoryStore};
use svid::{Guard, Journal, OpenSsl, Sources};

fn counts() -> (usize, usize) {
    let count = |folder: &str| fs::read_dir(folder).expect("Linux has it").count();
    (count("/proc/self/task"), count("/proc/self/fd"))
}

#[test]
fn a_guard_that_is_dropped_leaves_nothing() {
    if !is_alone() {
        return alone("ends::a_guard_that_is_dropped_leaves_nothing", |_| ());
    }
    let (room, issuer) = (Room::new("ends"), Issuer::new("example.org"));
    fs::write(room.0.join("example.org.json"), issuer.bundle()).expect("it is written");
    // (it takes connections, and never answers)
    let server = TcpListener::bind("127.0.0.1:0").expect("a port");
    server.set_nonblocking(true).expect("it can be");
    let address = format!("https://{}/bundle", server.local_addr().expect("an address"));
    let sources = Sources::new().folder(&room.0).https_web("other.example", address, None);
    let before = counts();
    let live = || {
        let options = ledger().store(Arc::new(MemoryStore::new()));
        let journal = Journal::open(room.0.join("state")).expect("nobody has it");
        let guard = Guard::with_journal(&options, sources.clone(), OpenSsl::new(), journal).expect("it opens");
        assert!(guard.check(issuer.token("/web", "ledger")).is_ok());
        let (asked, _) = accepted(|| server.accept());
        assert!(counts().0 > before.0);
        drop(guard);
        drop(asked);
        // (threads that put claims wait for nothing, and nobody waits for them)
        until("the end of all threads and descriptors", || counts() == before);
    };
    (0..2).for_each(|_| live());
    // (an answer has fifteen seconds)
    until_within(Duration::from_secs(14), "an end that waits for no answer", live);
}
