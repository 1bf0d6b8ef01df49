use crate::message::Message;
use crate::record::Record;
use crate::summary::Summary;
use std::error::Error;
use std::fs::File;
use std::io::{self, Read};

/// How many bytes an input has at the most.
const MOST_BYTES: u64 = 67_108_864;

/// Joins the batches of these files, or of standard input where there are none, to a record. The first
/// of them has this number.
pub fn join(first: usize, files: &[String], record: &mut Record) -> Result<(), Box<dyn Error>> {
    let mut absorb = |message| {
        if let Message::Batch(batch) = message {
            record.absorb(&batch);
        }
    };
    if files.is_empty() {
        return read_input(first, io::stdin().lock(), &mut absorb);
    }
    for (input, file) in (first..).zip(files) {
        read_input(input, open(file)?, &mut absorb)?;
    }
    Ok(())
}

/// The one summary that this file is, which is the first input.
pub fn read_summary(file: &str) -> Result<Summary, Box<dyn Error>> {
    let mut messages = Vec::new();
    read_input(1, open(file)?, &mut |message| messages.push(message))?;
    match messages.pop() {
        Some(Message::Summary(summary)) if messages.is_empty() => Ok(summary),
        _ => Err("not one summary".into()),
    }
}

pub fn open(file: &str) -> Result<File, String> {
    File::open(file).map_err(|error| format!("cannot open {file}: {error}"))
}

/// The bytes of the input with this number, counted from 1.
pub fn read_bytes(input: usize, source: impl Read) -> Result<Vec<u8>, String> {
    let mut bytes = Vec::new();
    source
        .take(MOST_BYTES + 1)
        .read_to_end(&mut bytes)
        .map_err(|error| format!("cannot read input {input}: {error}"))?;
    if bytes.len() as u64 > MOST_BYTES {
        return Err(format!("input {input} too long"));
    }
    Ok(bytes)
}

/// Hands over the messages of the input with this number.
fn read_input(
    input: usize,
    source: impl Read,
    each: &mut impl FnMut(Message),
) -> Result<(), Box<dyn Error>> {
    let bytes = read_bytes(input, source)?;
    let mut rest = bytes.as_slice();
    for message in 1.. {
        if rest.is_empty() {
            break;
        }
        let read = Message::read(&mut rest)
            .map_err(|fault| format!("input {input} message {message} {fault}"))?;
        each(read);
    }
    Ok(())
}
