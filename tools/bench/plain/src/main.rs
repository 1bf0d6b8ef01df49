//! The commands `report`, `merge`, `summary`, `answer` and `check` of `svid` as a plain Rust program over std
//! alone, to be measured beside it. It prints what `svid` prints, and reads version 2 alone; docs/FORMATS.md
//! has the formats. Its `check` begins with a new record and keeps none: it has no `--record`, `--out` and
//! `--longest`.

mod base64url;
mod batch;
mod bundles;
mod check;
mod clock;
mod fault;
mod hex;
mod inputs;
mod json;
mod live;
mod message;
mod record;
mod report;
mod sha256;
mod stores;
mod summary;
#[cfg(test)]
mod tests;
mod token;
mod token_use;

use check::Setting;
use record::{Known, Record};
use std::env;
use std::error::Error;
use std::io::{self, BufWriter, Write};
use std::process::ExitCode;
use summary::Summary;
use token_use::Use;

const USAGE: &str = "usage: plain report [--now N] [FILE...] | plain merge [FILE...] \
    | plain summary [FILE...] | plain answer --summary FILE [FILE...] \
    | plain check --bundles FILE --table FILE --now N --validator-id ID AUD... | plain live FOLDER [FILE...]";

/// How many bytes go out at once.
const ROOM: usize = 65_536;

/// The words of a command line behind its command.
#[derive(Default)]
struct Words {
    now: Option<u64>,
    summary: Option<String>,
    bundles: Option<String>,
    table: Option<String>,
    validator_id: Option<String>,
    /// Files, or audiences.
    others: Vec<String>,
}

impl Words {
    fn read(mut words: impl Iterator<Item = String>) -> Result<Words, Box<dyn Error>> {
        let mut read = Words::default();
        while let Some(word) = words.next() {
            match word.as_str() {
                "--now" => read.now = Some(words.next().ok_or(USAGE)?.parse()?),
                "--summary" => read.summary = Some(words.next().ok_or(USAGE)?),
                "--bundles" => read.bundles = Some(words.next().ok_or(USAGE)?),
                "--table" => read.table = Some(words.next().ok_or(USAGE)?),
                "--validator-id" => read.validator_id = Some(words.next().ok_or(USAGE)?),
                _ if word.starts_with('-') => return Err(USAGE.into()),
                _ => read.others.push(word),
            }
        }
        Ok(read)
    }
}

/// Runs a command over messages.
fn run_record(command: &str, words: Words, out: &mut impl Write) -> Result<(), Box<dyn Error>> {
    let mut record = Record::default();
    let files = words.others;
    match (command, words.now, words.summary) {
        ("report", now, None) => {
            inputs::join(1, &files, &mut record)?;
            record.raise(now.unwrap_or(0));
            report::write(&record, out)?;
        }
        ("merge", None, None) => {
            inputs::join(1, &files, &mut record)?;
            let uses: Vec<Use> = record.uses().copied().collect();
            batch::write_parts(record.moment(), &uses, out)?;
        }
        ("summary", None, None) => {
            inputs::join(1, &files, &mut record)?;
            Summary::of(&record).write(out)?;
        }
        ("answer", None, Some(file)) => {
            let asked = inputs::read_summary(&file)?;
            inputs::join(2, &files, &mut record)?;
            record.raise(asked.moment);
            batch::write_parts(record.moment(), &asked.differing(&record), out)?;
        }
        _ => return Err(USAGE.into()),
    }
    Ok(())
}

/// Runs a command, and says whether its answer is yes.
fn run(mut words: impl Iterator<Item = String>) -> Result<bool, Box<dyn Error>> {
    let command = words.next().ok_or(USAGE)?;
    let mut out = BufWriter::with_capacity(ROOM, io::stdout().lock());
    if command == "live" {
        live::run(&words.collect::<Vec<_>>(), &mut out)?;
        out.flush()?;
        return Ok(true);
    }
    if command == "stores" {
        return stores::run(&words.collect::<Vec<_>>());
    }
    let words = Words::read(words)?;
    let yes = if command == "check" {
        let setting = Setting {
            bundles: words.bundles.ok_or(USAGE)?,
            table: words.table.ok_or(USAGE)?,
            now: words.now.ok_or(USAGE)?,
            validator_id: words.validator_id.ok_or(USAGE)?,
            own: words.others,
        };
        check::run(setting, &mut out)?
    } else {
        run_record(&command, words, &mut out)?;
        true
    };
    out.flush()?;
    Ok(yes)
}

fn main() -> ExitCode {
    match run(env::args().skip(1)) {
        Ok(true) => ExitCode::SUCCESS,
        Ok(false) => ExitCode::FAILURE,
        Err(error) => {
            eprintln!("plain: {error}");
            ExitCode::FAILURE
        }
    }
}
