use crate::hex::Hex;
use crate::record::{Known, Record};
use crate::token_use::Told;
use std::io::{self, Write};

/// Writes the report of a record: its moment, its uses, and the keys that are used more than once.
pub fn write(record: &Record, out: &mut impl Write) -> io::Result<()> {
    let uses = record.uses();
    writeln!(out, "moment {}", record.moment())?;
    writeln!(out, "uses {}", uses.len())?;
    for used in uses {
        let (key, id) = (Hex(used.key), Hex(used.validator_id));
        write!(out, "{} {key} {id} {}", used.exp, used.at)?;
        match used.told {
            Told::Used => writeln!(out)?,
            Told::Withdrawn => writeln!(out, " withdrawn")?,
        }
    }
    let twice = record.twice();
    writeln!(out, "twice {}", twice.len())?;
    for (key, count) in twice {
        writeln!(out, "{} {count}", Hex(key))?;
    }
    Ok(())
}
