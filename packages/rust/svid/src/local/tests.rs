//! The claims of a guard that is alone, in a folder.

use std::sync::atomic::{AtomicU64, Ordering};

use super::*;
use crate::common::*;

const NOW: u64 = 2_000_000_000;
const LASTS: u64 = 3600 + 2 * 30;
const MARGIN: u64 = 120;

/// A folder whose store is opened again and again, and its clock.
struct Reopened {
    room: Room,
    clock: Arc<AtomicU64>,
    open: Option<Local>,
}

impl Reopened {
    fn new(name: &str) -> Reopened {
        Reopened { room: Room::new(name), clock: Arc::new(AtomicU64::new(NOW)), open: None }
    }

    fn again(&mut self) {
        if let Some(old) = self.open.take() {
            old.0.close();
        }
        let clock = Arc::clone(&self.clock);
        let options = ledger().longest(3600).wait(patience()).clock(move || clock.load(Ordering::Relaxed));
        self.open = Some(Local(LocalStore::open(&self.room.0.join("claims"), &options).expect("it is well")));
    }

    fn set(&self, now: u64) {
        self.clock.store(now, Ordering::Relaxed);
    }

    fn put(&self, claims: &[Claim]) -> Result<Vec<Found>, StoreError> {
        self.open.as_ref().expect("it is open").put(claims)
    }

    /// The owner that a key has after a claim of this one, and what is deaf.
    fn owner(&self, key: u8, owner: u8, expires: u64) -> (u8, u64) {
        let found = self.put(&[Claim { key: TokenKey([key; 32]), owner: [owner; 32], expires }]).expect("it answers");
        assert_eq!(found[0].time, self.clock.load(Ordering::Relaxed));
        (found[0].owner[31], found[0].deaf)
    }
}

#[test]
fn a_restart_forgets_nothing() {
    let mut reopened = Reopened::new("local-restart");
    reopened.again();
    let owner: [u8; 32] = std::array::from_fn(|it| it as u8);
    let whole = |owner| [Claim { key: TokenKey([8; 32]), owner, expires: NOW + 600 }];
    assert_eq!(reopened.put(&whole(owner)).unwrap()[0].owner, owner);
    assert_eq!(reopened.owner(7, 1, NOW + 600), (1, 0));
    reopened.open.as_ref().unwrap().withdraw(TokenKey([9; 32]), NOW + 600).expect("it is kept");
    for _ in 0..3 {
        reopened.again();
        assert_eq!(reopened.owner(7, 2, NOW + 600), (1, 0));
        assert_eq!(reopened.owner(9, 2, NOW + 600), (0, 0));
        assert_eq!(reopened.put(&whole([3; 32])).unwrap()[0].owner, owner);
    }
}

#[test]
fn what_is_over_is_claimed_anew() {
    let mut reopened = Reopened::new("local-over");
    reopened.again();
    assert_eq!(reopened.owner(7, 1, NOW + 100), (1, 0));
    reopened.set(NOW + 100 + MARGIN - 1);
    assert_eq!(reopened.owner(7, 2, NOW + 300), (1, 0));
    reopened.set(NOW + 100 + MARGIN);
    assert_eq!(reopened.owner(7, 2, NOW + 300), (2, 0));
    reopened.again();
    assert_eq!(reopened.owner(7, 1, NOW + 300), (2, 0));
    // (nobody accepts a token that expired so long ago)
    for owner in 1..3 {
        assert_eq!(reopened.owner(6, owner, NOW), (owner, 0));
    }
}

#[test]
fn a_clock_that_goes_back_ends_the_epoch() {
    for is_restarted in [false, true] {
        let mut reopened = Reopened::new("local-clock");
        reopened.again();
        reopened.owner(7, 1, NOW + 600);
        reopened.set(NOW + 1000);
        reopened.put(&[]).expect("it answers");
        if is_restarted {
            reopened.again();
        }
        // (by a minute it may)
        reopened.set(NOW + 940);
        assert_eq!(reopened.owner(6, 1, NOW + 950).1, 0);
        reopened.set(NOW + 939);
        assert_eq!(reopened.owner(6, 1, NOW + 950).1, NOW + 1000 + LASTS);
        reopened.again();
        assert_eq!(reopened.owner(7, 2, NOW + 600).1, NOW + 1000 + LASTS);
        // (no message tells what is over)
        reopened.set(NOW + 1000 + LASTS);
        reopened.put(&[]).expect("it answers");
        reopened.open.as_ref().unwrap().0.snapshot().expect("it is written");
    }
}

#[test]
fn a_claim_is_on_the_disk_before_it_is_answered() {
    let mut reopened = Reopened::new("local-disk");
    reopened.again();
    assert_eq!(reopened.owner(5, 1, NOW + 600), (1, 0));
    std::fs::rename(reopened.room.0.join("claims"), reopened.room.0.join("moved")).expect("it is there");
    let claim = [Claim { key: TokenKey([7; 32]), owner: [1; 32], expires: NOW + 600 }];
    for _ in 0..2 {
        assert!(reopened.put(&claim).is_err());
        assert!(reopened.open.as_ref().unwrap().withdraw(TokenKey([7; 32]), NOW + 600).is_err());
        // (what is there needs no disk)
        assert_eq!(reopened.owner(5, 2, NOW + 600), (1, 0));
    }
    reopened.open.as_ref().unwrap().0.close();
    assert!(reopened.put(&[]).is_err());
}

fn key_of(round: u32, number: u32) -> TokenKey {
    let mut key = [1; 32];
    key[..4].copy_from_slice(&round.to_be_bytes());
    key[4..8].copy_from_slice(&number.to_be_bytes());
    TokenKey(key)
}

#[test]
fn a_snapshot_has_what_is_live() {
    let mut reopened = Reopened::new("local-snapshot");
    reopened.again();
    let keys = |round: u32| (0..5000u32).map(move |it| key_of(round, it));
    for round in 0..2 {
        let claims: Vec<Claim> = keys(round).map(|key| Claim { key, owner: [1; 32], expires: NOW + 30 }).collect();
        reopened.put(&claims).expect("it is kept");
        reopened.set(NOW + u64::from(round) * 300);
    }
    reopened.set(NOW + 240);
    reopened.put(&[]).expect("it is kept");
    let store = &reopened.open.as_ref().unwrap().0;
    store.snapshot().expect("it is written");
    let size = std::fs::metadata(reopened.room.0.join("claims/snapshot")).expect("it is there").len();
    assert!(size < 1000, "what is over is in the snapshot of {size} bytes");
    let live: Vec<Claim> = keys(2).map(|key| Claim { key, owner: [1; 32], expires: NOW + 900 }).collect();
    reopened.put(&live).expect("it is kept");
    store.snapshot().expect("it is written");
    reopened.again();
    let found = reopened.put(&live.iter().map(|it| Claim { owner: [2; 32], ..*it }).collect::<Vec<_>>()).expect("it answers");
    assert!(found.iter().all(|it| it.owner == [1; 32]));
}

/// Who drops a guard waits for a snapshot, and not without an end.
#[test]
fn a_store_is_closed_while_a_call_is_under_way() {
    let mut reopened = Reopened::new("local-closed");
    let opens = |it: &Reopened| Journal::open(it.room.0.join("claims")).is_ok();
    // (on a busy machine the call may take longer than a close waits)
    until("a close that waits for a call", || {
        reopened.again();
        let held = reopened.open.as_ref().unwrap().0.journal();
        let ends = thread::spawn(move || {
            thread::sleep(Duration::from_millis(100));
            drop(held);
        });
        reopened.open.as_ref().unwrap().0.close();
        let is_free = opens(&reopened);
        returned("the end of a call", || ends.join().expect("it panics nowhere"));
        is_free
    });
    reopened.again();
    let store = Arc::clone(&reopened.open.as_ref().unwrap().0);
    let held = store.journal();
    let closes = thread::spawn(move || store.close());
    until("the end of the store", || closes.is_finished());
    assert!(reopened.put(&[]).is_err());
    assert!(!opens(&reopened), "the call may write yet");
    drop(held);
    until("the folder", || opens(&reopened));
}

#[test]
fn a_snapshot_that_fails_is_warned_of() {
    let (room, heard) = (Room::new("local-warns"), Heard::default());
    let store = Local(LocalStore::open(&room.0, &heard.options()).expect("it is well"));
    std::fs::create_dir(room.0.join("snapshot.new")).expect("nothing is there");
    store.put(&[]).expect("it answers");
    until("a warning", || heard.count("the folder of claims has no new snapshot: ") == 1);
}
