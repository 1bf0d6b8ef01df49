//! A validator as one keeps it in a service, over a hash map, to be measured beside that of the C library
//! (tools/bench/live).

use crate::batch;
use crate::bundles;
use crate::check::Validator;
use crate::clock::clock;
use crate::inputs;
use crate::message::Message;
use crate::record::Known;
use crate::sha256::Digest;
use crate::token_use::Use;
use std::collections::hash_map::Entry;
use std::collections::{BTreeMap, BTreeSet, HashMap};
use std::error::Error;
use std::fs;
use std::io::Write;

/// The moment of all batches and checks, in seconds.
const NOW: u64 = 1_767_225_600;

/// A use for each key, found by the key; the other uses of a key; and the keys by the second in which they expire.
#[derive(Default)]
struct Kept {
    moment: u64,
    uses: HashMap<Digest, Use>,
    others: BTreeSet<Use>,
    expiring: BTreeMap<u64, Vec<Digest>>,
}

impl Known for Kept {
    fn moment(&self) -> u64 {
        self.moment
    }

    fn raise(&mut self, moment: u64) {
        self.moment = self.moment.max(moment);
        while self
            .expiring
            .first_key_value()
            .is_some_and(|(&exp, _)| exp <= self.moment)
        {
            for key in self
                .expiring
                .pop_first()
                .into_iter()
                .flat_map(|(_, keys)| keys)
            {
                self.uses.remove(&key);
            }
        }
        while self
            .others
            .first()
            .is_some_and(|used| used.exp <= self.moment)
        {
            self.others.pop_first();
        }
    }

    fn has(&self, key: &Digest) -> bool {
        self.uses.contains_key(key)
    }

    fn insert(&mut self, used: Use) {
        match self.uses.entry(used.key) {
            Entry::Vacant(free) => {
                self.expiring.entry(used.exp).or_default().push(used.key);
                free.insert(used);
            }
            Entry::Occupied(first) if *first.get() != used => {
                self.others.insert(used);
            }
            Entry::Occupied(_) => {}
        }
    }
}

impl Kept {
    fn take(&mut self, input: &[u8]) -> Result<(), String> {
        let (mut rest, mut batches) = (input, Vec::new());
        while !rest.is_empty() {
            match Message::read(&mut rest).map_err(|fault| fault.to_string())? {
                Message::Batch(batch) => batches.push(batch),
                Message::Summary(_) => {}
            }
        }
        for batch in batches {
            self.raise(batch.moment);
            for used in batch.uses {
                if used.exp > self.moment {
                    self.insert(used);
                }
            }
        }
        Ok(())
    }

    fn save(&self, out: &mut impl Write) -> std::io::Result<()> {
        let mut uses: Vec<Use> = self.uses.values().chain(&self.others).copied().collect();
        uses.sort_unstable();
        batch::write_parts(self.moment, &uses, out)
    }
}

/// What a call answers, and how many nanoseconds it took.
fn timed<T>(call: impl FnOnce() -> T) -> (T, u64) {
    let from = clock();
    let answer = call();
    (answer, clock() - from)
}

fn resident_mb() -> Result<f64, Box<dyn Error>> {
    let sizes = fs::read_to_string("/proc/self/statm")?;
    let pages: f64 = sizes.split(' ').nth(1).ok_or("statm")?.parse()?;
    Ok(pages * 4096.0 / 1e6)
}

/// Opens a validator, takes the inputs, asks for and checks each token, and saves: prints what tools/bench/live.d/live.c prints.
pub fn run(words: &[String], out: &mut impl Write) -> Result<(), Box<dyn Error>> {
    let (folder, files) = words
        .split_first()
        .ok_or("usage: plain live FOLDER [FILE...]")?;
    let text = fs::read(format!("{folder}/bundles.json"))?;
    let tokens = fs::read(format!("{folder}/tokens.txt"))?;
    let (validator, opening) = timed(|| -> Result<_, String> {
        let bundles = bundles::read(&text)?;
        Ok(Validator {
            bundles,
            validator_id: [1; 16],
            own: vec!["ledger".to_string()],
            record: Kept::default(),
        })
    });
    let mut validator = validator?;
    let mut taking = 0;
    for file in files {
        let input = inputs::read_bytes(1, inputs::open(file)?)?;
        let (taken, took) = timed(|| validator.record.take(&input));
        taken?;
        taking = took;
    }
    let (mut asks, mut checks) = (Vec::new(), Vec::new());
    for token in tokens
        .split(|&byte| byte == b'\n')
        .filter(|token| !token.is_empty())
    {
        let (yes, took) = timed(|| validator.ask(token));
        let yes = yes.map_err(|refusal| format!("{refusal:?}"))?;
        asks.push(took);
        let (accepted, took) =
            timed(|| validator.check(NOW, token, |question| yes.contains(question)));
        accepted.map_err(|refusal| format!("{refusal:?}"))?;
        checks.push(took);
    }
    let mut saved = Vec::new();
    let (done, saving) = timed(|| validator.record.save(&mut saved));
    done?;
    drop(saved);
    asks.sort_unstable();
    checks.sort_unstable();
    let median = |times: &[u64]| times[times.len() / 2] as f64 / 1e3;
    let longest = checks.last().map_or(0.0, |&time| time as f64 / 1e3);
    let ms = |time: u64| time as f64 / 1e6;
    writeln!(
        out,
        "{:.1} {:.1} {:.2} {:.2} {:.1} {:.1} {:.2} {:.0} {}",
        opening as f64 / 1e3,
        ms(taking),
        median(&asks),
        median(&checks),
        longest,
        ms(saving),
        ms(saving),
        resident_mb()?,
        validator.record.uses.len() + validator.record.others.len()
    )?;
    Ok(())
}
