use crate::message::{self, Kind};
use crate::record::{Known, Record};
use crate::sha256::{Digest, Sha256};
use crate::token_use::{take, Use};
use std::io::{self, Write};

/// How many buckets a record has: one for each first byte of a key.
const BUCKETS: usize = 256;

/// A moment, and the digest of each bucket of a record.
#[derive(Debug, PartialEq, Eq)]
pub struct Summary {
    pub moment: u64,
    digests: Vec<Digest>,
}

impl Summary {
    /// The summary of a record: of each bucket the digest of the texts of its uses, in rising order.
    pub fn of(record: &Record) -> Summary {
        let mut buckets = vec![Sha256::new(); BUCKETS];
        for used in record.uses() {
            buckets[used.bucket()].update(&used.text());
        }
        Summary {
            moment: record.moment(),
            digests: buckets.into_iter().map(Sha256::finish).collect(),
        }
    }

    /// Takes what stands behind the kind of a summary, or answers `None` where the bytes end within it.
    pub fn read(rest: &mut &[u8]) -> Option<Summary> {
        Some(Summary {
            moment: u64::from_be_bytes(take(rest)?),
            digests: (0..BUCKETS).map(|_| take(rest)).collect::<Option<_>>()?,
        })
    }

    /// Writes the 8,205 bytes of the summary.
    pub fn write(&self, out: &mut impl Write) -> io::Result<()> {
        message::write_head(Kind::Summary, self.moment, out)?;
        out.write_all(self.digests.as_flattened())
    }

    /// The uses of all buckets of a record whose digest differs from this summary's, in rising order.
    pub fn differing(&self, record: &Record) -> Vec<Use> {
        let own = Summary::of(record);
        let differs = |used: &&Use| own.digests[used.bucket()] != self.digests[used.bucket()];
        record.uses().filter(differs).copied().collect()
    }
}
