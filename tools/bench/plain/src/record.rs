use crate::batch::Batch;
use crate::token_use::{Told, Use};
use std::collections::hash_map::Entry;
use std::collections::{BTreeSet, HashMap};

/// What a check asks of a record.
pub trait Known {
    /// The record's moment, in seconds.
    fn moment(&self) -> u64;

    /// Raises the moment to this one where it is less, and drops the uses that expired by it.
    fn raise(&mut self, moment: u64);

    /// Whether a use of the record that is no withdrawal has this key.
    fn has(&self, key: &[u8; 32]) -> bool;

    /// Puts a live use into the record.
    fn insert(&mut self, used: Use);
}

/// A moment, and the uses of all batches that expire after it.
#[derive(Default)]
pub struct Record {
    moment: u64,
    uses: BTreeSet<Use>,
    /// How many of the uses each key has, withdrawals left out.
    keys: HashMap<[u8; 32], usize>,
}

impl Record {
    /// The uses, in rising order.
    pub fn uses(&self) -> impl ExactSizeIterator<Item = &Use> {
        self.uses.iter()
    }

    /// The keys that two or more uses have, in rising order, with their number.
    pub fn twice(&self) -> Vec<([u8; 32], usize)> {
        let mut twice: Vec<_> = self
            .keys
            .iter()
            .filter(|(_, &count)| count > 1)
            .map(|(&key, &count)| (key, count))
            .collect();
        twice.sort_unstable();
        twice
    }

    /// Joins a batch: the greater moment, and the uses of both that expire after it.
    pub fn absorb(&mut self, batch: &Batch) {
        self.raise(batch.moment);
        for used in &batch.uses {
            if used.exp > self.moment {
                self.insert(*used);
            }
        }
    }

    fn drop_first(&mut self) {
        let Some(used) = self.uses.pop_first() else {
            return;
        };
        if used.told == Told::Withdrawn {
            return;
        }
        if let Entry::Occupied(mut count) = self.keys.entry(used.key) {
            *count.get_mut() -= 1;
            if *count.get() == 0 {
                count.remove();
            }
        }
    }
}

impl Known for Record {
    fn moment(&self) -> u64 {
        self.moment
    }

    fn raise(&mut self, moment: u64) {
        self.moment = self.moment.max(moment);
        while self
            .uses
            .first()
            .is_some_and(|used| used.exp <= self.moment)
        {
            self.drop_first();
        }
    }

    fn has(&self, key: &[u8; 32]) -> bool {
        self.keys.contains_key(key)
    }

    fn insert(&mut self, used: Use) {
        if self.uses.insert(used) && used.told == Told::Used {
            *self.keys.entry(used.key).or_insert(0) += 1;
        }
    }
}
