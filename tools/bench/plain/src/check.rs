use crate::bundles::{self, Bundles};
use crate::inputs;
use crate::record::{Known, Record};
use crate::sha256::Digest;
use crate::token::{Refusal, Token};
use crate::token_use::{Told, Use};
use std::collections::HashSet;
use std::error::Error;
use std::io::{self, Write};

/// The settings of a run of checks.
pub struct Setting {
    pub bundles: String,
    pub table: String,
    /// The moment, in seconds.
    pub now: u64,
    /// 32 hexadecimal digits.
    pub validator_id: String,
    /// The validator's own audiences.
    pub own: Vec<String>,
}

/// A validator that began with no uses, so that it has no withdrawals.
pub struct Validator<R> {
    pub bundles: Bundles,
    pub validator_id: [u8; 16],
    pub own: Vec<String>,
    pub record: R,
}

/// Checks the tokens of standard input, and says whether all are accepted.
pub fn run(setting: Setting, out: &mut impl Write) -> Result<bool, Box<dyn Error>> {
    let bundles = inputs::read_bytes(1, inputs::open(&setting.bundles)?)?;
    let table = inputs::read_bytes(2, inputs::open(&setting.table)?)?;
    let tokens = inputs::read_bytes(3, io::stdin().lock())?;
    let table = read_table(&table)?;
    let mut validator = Validator {
        bundles: bundles::read(&bundles).map_err(|fault| format!("bundles: {fault}"))?,
        validator_id: digits(setting.validator_id.as_bytes()).ok_or("bad place")?,
        own: setting.own,
        record: Record::default(),
    };
    let mut all_accepted = true;
    for (_, line) in lines(&tokens) {
        match validator.check(setting.now, line, |question| table.contains(question)) {
            Ok(token) => writeln!(out, "accepted {} {}", token.subject, token.exp)?,
            Err(refusal) => {
                all_accepted = false;
                writeln!(out, "refused {refusal:?}")?;
            }
        }
    }
    Ok(all_accepted)
}

/// The lines that are not empty, with their numbers.
fn lines(text: &[u8]) -> impl Iterator<Item = (usize, &[u8])> {
    text.split(|&byte| byte == b'\n')
        .map(|line| line.strip_suffix(b"\r").unwrap_or(line))
        .enumerate()
        .filter(|(_, line)| !line.is_empty())
}

/// The bytes that these hexadecimal digits stand for.
fn digits<const N: usize>(text: &[u8]) -> Option<[u8; N]> {
    let mut bytes = [0; N];
    if text.len() != 2 * N {
        return None;
    }
    for (byte, pair) in bytes.iter_mut().zip(text.chunks_exact(2)) {
        let digit = |at: usize| char::from(pair[at]).to_digit(16);
        *byte = (digit(0)? << 4 | digit(1)?) as u8;
    }
    Some(bytes)
}

fn read_table(text: &[u8]) -> Result<HashSet<Digest>, String> {
    lines(text)
        .map(|(at, line)| digits(line).ok_or_else(|| format!("table: line {}", at + 1)))
        .collect()
}

impl<R: Known> Validator<R> {
    /// The questions that a verifier of signatures is to answer.
    pub fn ask(&self, line: &[u8]) -> Result<Vec<Digest>, Refusal> {
        let token = Token::read(line)?;
        let questions = self.candidates(&token)?;
        Ok(questions.map(|key| token.question(key)).collect())
    }

    /// Reads a token and judges it. What is accepted is a use from then on.
    pub fn check<'a>(
        &mut self,
        now: u64,
        line: &'a [u8],
        says: impl Fn(&Digest) -> bool,
    ) -> Result<Token<'a>, Refusal> {
        self.record.raise(now);
        let token = Token::read(line)?;
        self.judge(&token, says)?;
        let key = token.key();
        if self.record.has(&key) {
            return Err(Refusal::Replayed);
        }
        self.record.insert(Use {
            exp: token.exp,
            key,
            validator_id: self.validator_id,
            at: self.record.moment(),
            told: Told::Used,
        });
        Ok(token)
    }

    /// The texts of the keys that may have signed a token, at least one.
    fn candidates<'a>(
        &'a self,
        token: &'a Token,
    ) -> Result<impl Iterator<Item = &'a str> + 'a, Refusal> {
        let keys = self
            .bundles
            .get(token.domain())
            .ok_or(Refusal::UnknownDomain)?;
        let is_named = |kid: &String| token.kid.as_ref().is_none_or(|wanted| wanted == kid);
        let mut candidates = keys
            .iter()
            .filter(move |key| key.kind == token.key_kind && is_named(&key.kid))
            .map(|key| key.text.as_str())
            .peekable();
        candidates.peek().ok_or(Refusal::NoKey)?;
        Ok(candidates)
    }

    /// The refusals for the audience, the time and the keys.
    fn judge(&self, token: &Token, says: impl Fn(&Digest) -> bool) -> Result<(), Refusal> {
        if !token.audiences.iter().any(|said| self.own.contains(said)) {
            return Err(Refusal::NotAudience);
        }
        if token.exp <= self.record.moment() {
            return Err(Refusal::Expired);
        }
        if token.nbf.is_some_and(|nbf| nbf > self.record.moment()) {
            return Err(Refusal::NotYet);
        }
        let mut candidates = self.candidates(token)?;
        if !candidates.any(|key| says(&token.question(key))) {
            return Err(Refusal::BadSignature);
        }
        Ok(())
    }
}
