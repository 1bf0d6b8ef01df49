//! Measures a check without its signature, for packages/rust/bench: `checks FOLDER` opens a guard with the bundles of the folder, checks each of its tokens
//! with each signature taken for good, and prints the median microseconds of a check. Times are of this thread on the processor.

use std::os::raw::{c_int, c_long};

use svid::{Candidate, Guard, Options, Unverified, ValidatorId, Verify};

const NOW: u64 = 1_767_225_600;
const THREAD: c_int = 3; // CLOCK_THREAD_CPUTIME_ID of Linux

#[repr(C)]
struct Time {
    seconds: i64,
    nanoseconds: c_long,
}

extern "C" {
    fn clock_gettime(clock: c_int, time: *mut Time) -> c_int;
}

fn clock() -> f64 {
    let mut time = Time { seconds: 0, nanoseconds: 0 };
    // SAFETY: the time is written alone.
    assert_eq!(unsafe { clock_gettime(THREAD, &mut time) }, 0);
    time.seconds as f64 * 1e6 + time.nanoseconds as f64 / 1e3
}

fn median(times: &mut [f64]) -> f64 {
    times.sort_by(f64::total_cmp);
    times[times.len() / 2]
}

/// Every signature is good.
struct All;

impl Verify for All {
    fn verify(&self, _: &Candidate<'_>, _: &[u8], _: &[u8]) -> Result<bool, Unverified> {
        Ok(true)
    }
}

fn main() {
    let folder = std::env::args().nth(1).filter(|it| !it.starts_with("--"));
    let folder = match folder {
        Some(folder) => std::path::PathBuf::from(folder),
        None => return, // (cargo runs it among the tests)
    };
    let (bundles, tokens) =
        (std::fs::read(folder.join("bundles.json")).unwrap(), std::fs::read_to_string(folder.join("tokens.txt")).unwrap());
    let options = Options::new(["ledger"]).any_life().clock(|| NOW).validator_id(ValidatorId([1; 16]));
    let (guard, mut checks) = (Guard::open(&options, &bundles, All).unwrap(), Vec::new());
    for token in tokens.lines() {
        let from = clock();
        guard.check(token).unwrap();
        checks.push(clock() - from);
    }
    println!("{:.2}", median(&mut checks));
}
