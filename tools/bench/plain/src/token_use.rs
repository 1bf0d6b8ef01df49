/// Whether a token was accepted or withdrawn. A use stands before a withdrawal.
#[derive(Clone, Copy, Debug, PartialEq, Eq, PartialOrd, Ord)]
pub enum Told {
    Used = 0,
    Withdrawn = 1,
}

impl Told {
    fn read(byte: u8) -> Option<Told> {
        [Told::Used, Told::Withdrawn]
            .into_iter()
            .find(|&told| told as u8 == byte)
    }
}

/// The fact that a token was accepted once, or withdrawn. The fields stand in the order in which uses are
/// compared and sorted.
#[derive(Clone, Copy, Debug, PartialEq, Eq, PartialOrd, Ord)]
pub struct Use {
    /// When the token expires, in seconds.
    pub exp: u64,
    /// The key of the token.
    pub key: [u8; 32],
    /// The validator that accepted or withdrew it.
    pub validator_id: [u8; 16],
    /// When it did, in seconds.
    pub at: u64,
    /// Which of the two it is.
    pub told: Told,
}

/// Takes the first `N` bytes of the rest, or nothing where there are fewer.
pub fn take<const N: usize>(rest: &mut &[u8]) -> Option<[u8; N]> {
    let (field, behind) = rest.split_first_chunk()?;
    *rest = behind;
    Some(*field)
}

impl Use {
    /// Takes the use that stands first in what is left. Answers `None` where the bytes end within it, and
    /// `Some(None)` where its last byte is no kind.
    pub fn read(rest: &mut &[u8]) -> Option<Option<Use>> {
        let (exp, key, validator_id) = (take(rest)?, take(rest)?, take(rest)?);
        let (at, [told]) = (take(rest)?, take(rest)?);
        Some(Told::read(told).map(|told| Use {
            exp: u64::from_be_bytes(exp),
            key,
            validator_id,
            at: u64::from_be_bytes(at),
            told,
        }))
    }

    /// The 65 bytes of the use.
    pub fn text(&self) -> [u8; 65] {
        let mut text = [0; 65];
        text[..8].copy_from_slice(&self.exp.to_be_bytes());
        text[8..40].copy_from_slice(&self.key);
        text[40..56].copy_from_slice(&self.validator_id);
        text[56..64].copy_from_slice(&self.at.to_be_bytes());
        text[64] = self.told as u8;
        text
    }

    /// The bucket of the use: the first byte of its key.
    pub fn bucket(&self) -> usize {
        usize::from(self.key[0])
    }
}
