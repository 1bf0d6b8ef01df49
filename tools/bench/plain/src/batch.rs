use crate::fault::{Fault, Reason};
use crate::message::{self, Kind};
use crate::token_use::{take, Use};
use std::io::{self, Write};

/// How many uses a batch has at most.
const MOST_USES: usize = 65_536;

/// How many bytes stand before the first use, and how many a use has.
const HEAD_LEN: usize = 17;
const USE_LEN: usize = 65;

/// Where the number of uses stands.
const COUNT_OFFSET: usize = 13;

/// A moment, and uses in rising order that were made by then and expire later.
#[derive(Debug, PartialEq, Eq)]
pub struct Batch {
    pub moment: u64,
    pub uses: Vec<Use>,
}

impl Batch {
    /// Takes what stands behind the kind of a batch, or answers the first field that is bad: `truncated`
    /// where the bytes end within it.
    pub fn read(rest: &mut &[u8], truncated: Fault) -> Result<Batch, Fault> {
        let moment = u64::from_be_bytes(take(rest).ok_or(truncated)?);
        let count = u32::from_be_bytes(take(rest).ok_or(truncated)?) as usize;
        if count > MOST_USES {
            return Err(fault(COUNT_OFFSET, Reason::Count));
        }
        let mut uses: Vec<Use> = Vec::with_capacity(count);
        for index in 0..count {
            let offset = HEAD_LEN + USE_LEN * index;
            let used = Use::read(rest).ok_or(truncated)?;
            let used = used.ok_or(fault(offset, Reason::UseKind))?;
            if let Some(reason) = flaw(moment, uses.last(), &used) {
                return Err(fault(offset, reason));
            }
            uses.push(used);
        }
        Ok(Batch { moment, uses })
    }
}

fn fault(offset: usize, reason: Reason) -> Fault {
    Fault { offset, reason }
}

/// What is wrong with a use behind another one in a batch of this moment, if anything is.
fn flaw(moment: u64, before: Option<&Use>, used: &Use) -> Option<Reason> {
    if used.exp <= moment {
        Some(Reason::UseExpired)
    } else if used.at > moment {
        Some(Reason::UseFuture)
    } else if before.is_some_and(|before| used <= before) {
        Some(Reason::UseOrder)
    } else {
        None
    }
}

fn write(moment: u64, uses: &[Use], out: &mut impl Write) -> io::Result<()> {
    message::write_head(Kind::Batch, moment, out)?;
    out.write_all(&(uses.len() as u32).to_be_bytes())?;
    uses.iter().try_for_each(|used| out.write_all(&used.text()))
}

/// Writes uses as batches of this moment, each of 65,536 uses but the last; no use as one empty batch.
pub fn write_parts(moment: u64, uses: &[Use], out: &mut impl Write) -> io::Result<()> {
    if uses.is_empty() {
        return write(moment, &[], out);
    }
    uses.chunks(MOST_USES)
        .try_for_each(|part| write(moment, part, out))
}
