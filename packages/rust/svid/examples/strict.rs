//! Two guards that share a store accept a token once: `cargo run --features testing --example strict`

use std::{error::Error, sync::Arc};

use svid::testing::{Issuer, MemoryStore};
use svid::{Guard, Mode, OpenSsl, Options};

fn main() -> Result<(), Box<dyn Error>> {
    let issuer = Issuer::new("example.org");
    let token = issuer.token("/billing/api", "ledger");
    let options = Options::new(["ledger"]).mode(Mode::Strict).store(Arc::new(MemoryStore::new()));
    for _ in 0..2 {
        let guard = Guard::open(&options, issuer.bundles(), OpenSsl::new())?;
        match guard.check(&token) {
            Ok(accepted) => println!("hello {}", accepted.spiffe_id()),
            Err(why) => println!("{why}"),
        }
    }
    Ok(())
}
