//! Sets of uses as one keeps them with the standard library, to be measured beside the stores (tools/bench/stores): two
//! `BTreeSet`s, by use and by key, and a `HashMap` by key, which has one use of a key and is sorted for each walk.

use crate::clock::clock;
use crate::token_use::{Told, Use};
use std::collections::{BTreeSet, HashMap};
use std::error::Error;

/// When the uses were made, in seconds, and how many seconds their tokens live at the most.
const MOMENT: u64 = 1_767_225_600;
const LIFE: u64 = 3600;

/// Lookups end after so many.
const MOST_LOOKUPS: u64 = 1_000_000;

trait Store: Default {
    fn insert(&mut self, used: Use);
    fn has(&self, key: &[u8; 32]) -> bool;
    /// How many uses a walk in order meets, and the xor of their last bytes.
    fn walk(&self) -> (u64, u8);
    /// How many uses expire by a moment, which go.
    fn drop_expired(&mut self, moment: u64) -> u64;
    fn len(&self) -> usize;
}

#[derive(Default)]
struct Trees {
    by_use: BTreeSet<Use>,
    by_key: BTreeSet<([u8; 32], u64)>,
}

impl Store for Trees {
    fn insert(&mut self, used: Use) {
        if self.by_use.insert(used) {
            self.by_key.insert((used.key, used.exp));
        }
    }

    fn has(&self, key: &[u8; 32]) -> bool {
        self.by_key
            .range((*key, 0)..=(*key, u64::MAX))
            .next()
            .is_some()
    }

    fn walk(&self) -> (u64, u8) {
        self.by_use
            .iter()
            .fold((0, 0), |(count, sum), used| (count + 1, sum ^ used.key[31]))
    }

    fn drop_expired(&mut self, moment: u64) -> u64 {
        let mut dropped = 0;
        while let Some(first) = self
            .by_use
            .first()
            .copied()
            .filter(|first| first.exp <= moment)
        {
            self.by_use.pop_first();
            self.by_key.remove(&(first.key, first.exp));
            dropped += 1;
        }
        dropped
    }

    fn len(&self) -> usize {
        self.by_use.len()
    }
}

#[derive(Default)]
struct Hashed {
    by_key: HashMap<[u8; 32], Use>,
}

impl Store for Hashed {
    fn insert(&mut self, used: Use) {
        self.by_key.entry(used.key).or_insert(used);
    }

    fn has(&self, key: &[u8; 32]) -> bool {
        self.by_key.contains_key(key)
    }

    fn walk(&self) -> (u64, u8) {
        let mut uses: Vec<Use> = self.by_key.values().copied().collect();
        uses.sort_unstable();
        uses.iter()
            .fold((0, 0), |(count, sum), used| (count + 1, sum ^ used.key[31]))
    }

    fn drop_expired(&mut self, moment: u64) -> u64 {
        let before = self.by_key.len();
        self.by_key.retain(|_, used| used.exp > moment);
        (before - self.by_key.len()) as u64
    }

    fn len(&self) -> usize {
        self.by_key.len()
    }
}

#[derive(Clone, Copy)]
struct Given {
    is_rising: bool,
    count: u64,
}

/// A number that looks like any other (the steps of SplitMix64).
fn mixed(number: u64) -> u64 {
    let a = number.wrapping_mul(0x9e37_79b9_7f4a_7c15);
    let b = (a ^ (a >> 30)).wrapping_mul(0xbf58_476d_1ce4_e5b9);
    let c = (b ^ (b >> 27)).wrapping_mul(0x94d0_49bb_1331_11eb);
    c ^ (c >> 31)
}

/// The use of a number: the same as in tools/bench/stores.d/main.rt.txt.
fn use_of(given: Given, number: u64) -> Use {
    let noise = mixed(number);
    let (second, first) = if given.is_rising {
        let count = given.count.max(1);
        let far = number.wrapping_mul(LIFE);
        let part = (far % count).wrapping_mul(1 << 32) / count;
        (far / count, part << 32 | noise >> 32)
    } else {
        (mixed(noise) % LIFE, noise)
    };
    let mut key = [0; 32];
    key[..8].copy_from_slice(&first.to_be_bytes());
    for (offset, salt) in [(8, 1), (16, 2), (24, 3)] {
        key[offset..offset + 8].copy_from_slice(&mixed(number ^ (salt << 60)).to_be_bytes());
    }
    Use {
        exp: MOMENT + 1 + second,
        key,
        validator_id: [7; 16],
        at: MOMENT,
        told: Told::Used,
    }
}

fn make_all(given: Given) -> u64 {
    (0..given.count).fold(0u64, |sum, number| {
        let made = use_of(given, number);
        sum.wrapping_add(made.exp) ^ u64::from(made.key[31]) ^ u64::from(made.key[7])
    })
}

fn insert_all(store: &mut impl Store, given: Given) {
    (0..given.count).for_each(|number| store.insert(use_of(given, number)));
}

/// Nanoseconds a piece, without what else takes as long as `rest`.
fn each(taken: u64, rest: u64, pieces: u64) -> u64 {
    taken.saturating_sub(rest) / pieces.max(1)
}

fn tell_mean<S: Store>(given: Given) {
    let mut store = S::default();
    let begun = clock();
    let sum = make_all(given);
    let made = clock();
    insert_all(&mut store, given);
    let inserted = clock();
    insert_all(&mut store, given);
    let again = clock();
    let looked = given.count.min(MOST_LOOKUPS) / 64 * 64;
    let found = (0..looked)
        .filter(|at| {
            let number = mixed(*at) % given.count.max(1);
            store.has(&use_of(given, number + at % 2 * given.count.min(1 << 32)).key)
        })
        .count();
    let looked_up = clock();
    let (walked, last) = store.walk();
    let walked_over = clock();
    let dropped = store.drop_expired(MOMENT + LIFE / 10);
    let ended = clock();
    let making = made - begun;
    eprintln!("{last}");
    println!(
        "{} {} {} {} {} {} {looked} {found} {walked} {dropped} {} {sum}",
        each(inserted - made, making, given.count),
        each(again - inserted, making, given.count),
        each(looked_up - again, 0, looked),
        each(walked_over - looked_up, 0, walked),
        (ended - walked_over) / 1000,
        given.count,
        store.len(),
    );
}

fn tell_longest<S: Store>(given: Given) {
    let mut store = S::default();
    let (mut longest, mut long) = (0, 0);
    for number in 0..given.count {
        let new = use_of(given, number);
        let begun = clock();
        store.insert(new);
        let taken = clock() - begun;
        longest = longest.max(taken);
        long += u64::from(taken > 1_000_000);
    }
    // The longest lookup, for two seconds at the most. (These sets have nothing to tidy.)
    let (mut other, from) = (0, clock());
    for number in 0..given.count.min(1_000_000) {
        let sought = use_of(given, mixed(number) % given.count.max(1));
        let begun = clock();
        let is_there = store.has(&sought.key);
        let ended = clock();
        other = other.max(ended - begun);
        if !is_there || ended - from >= 2_000_000_000 {
            break;
        }
    }
    println!("{} {long} {}", longest / 1000, other / 1000);
}

fn tell_tokens<S: Store>(given: Given) {
    let mut store = S::default();
    let begun = clock();
    let sum = make_all(given);
    let made = clock();
    for number in 0..given.count {
        let new = use_of(given, number);
        if !store.has(&new.key) {
            store.insert(new);
        }
    }
    println!(
        "{} {} {sum}",
        each(clock() - made, made - begun, given.count),
        store.len()
    );
}

fn tell<S: Store>(given: Given, what: &str) {
    match what {
        "longest" => tell_longest::<S>(given),
        "tokens" => tell_tokens::<S>(given),
        _ => tell_mean::<S>(given),
    }
}

/// `stores BTreeSet|HashMap rising|random COUNT mean|longest|tokens`: prints the numbers that tools/bench/stores reads.
pub fn run(words: &[String]) -> Result<bool, Box<dyn Error>> {
    let [store, order, count, what] = words else {
        return Err(
            "usage: plain stores BTreeSet|HashMap rising|random COUNT mean|longest|tokens".into(),
        );
    };
    let given = Given {
        is_rising: order == "rising",
        count: count.parse()?,
    };
    match store.as_str() {
        "BTreeSet" => tell::<Trees>(given, what),
        _ => tell::<Hashed>(given, what),
    }
    Ok(true)
}
