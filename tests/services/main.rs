//! Reads a token a line, and prints what becomes of it: service once FOLDER, or service MODE URL (strict, or reuse).

use std::env::args;
use std::io::{stdin, BufRead};
use std::sync::Arc;
use std::time::Duration;

use svid::{Error, Guard, Journal, Mode, OpenSsl, Options, PostgresStore, Sources};

fn main() -> Result<(), Box<dyn std::error::Error + Send + Sync>> {
    let (mode, given) = (args().nth(1).unwrap_or_default(), args().nth(2).unwrap_or_default());
    let options = Options::new(["ledger"]).wait(Duration::from_secs(60));
    let sources = Sources::new().file("example.org", "example.org.json");
    let guard = if mode == "once" {
        Guard::with_journal(&options, sources, OpenSsl::new(), Journal::open(given)?)?
    } else {
        let store = PostgresStore::open(&options, &[&given], "svid", 1)?;
        let mode = if mode == "strict" { Mode::Strict } else { Mode::Reuse };
        Guard::open(&options.mode(mode).store(Arc::new(store)), sources, OpenSsl::new())?
    };
    for token in stdin().lock().lines() {
        match guard.check(&token?) {
            Ok(accepted) => println!("accepted {}", accepted.spiffe_id()),
            Err(Error::Refused(why)) => println!("{}", why.name()),
            Err(why) => {
                eprintln!("{why}");
                println!("unavailable");
            }
        }
    }
    Ok(())
}
