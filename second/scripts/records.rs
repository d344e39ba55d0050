//! Scripts of records that are all of one size: strike sheets, transcripts, damaged transcripts,
//! calls on a stream or calls on the bank selects.

use crate::scripts::random::Random;
use std::io::{self, Write};

/// A script of that many records, from scenes of some records each.
pub fn script(seed: u64, count: u64, size: usize, scene: fn(&Random) -> Vec<u8>) -> Vec<u8> {
    let random = Random::new(seed);
    let length = count as usize * size;
    let mut script = Vec::new();
    while script.len() < length {
        script.extend(scene(&random));
    }
    script.truncate(length);
    script
}

/// Prints what each record answers; bytes after the last whole record end it with the line `bad
/// script`.
pub fn answers(
    script: &[u8],
    size: usize,
    out: &mut impl Write,
    mut answer: impl FnMut(&[u8]) -> Vec<u8>,
) -> io::Result<()> {
    let records = script.chunks_exact(size);
    let rest = records.remainder();
    for record in records {
        out.write_all(&answer(record))?;
    }
    if rest.is_empty() {
        Ok(())
    } else {
        writeln!(out, "bad script")
    }
}

/// A record of a script that one call carries out.
pub trait Call {
    const SIZE: usize;
    type Answer;

    fn parse(record: &[u8]) -> Self;

    /// Carries out the record, which is left as the call leaves it.
    fn call(&mut self) -> Self::Answer;

    /// What is printed after a call that answered so.
    fn printed(&self, answer: Self::Answer) -> Vec<u8>;
}

/// Carries out a script of such records.
pub fn carry_out<R: Call>(script: &[u8], out: &mut impl Write) -> io::Result<()> {
    answers(script, R::SIZE, out, |record| {
        let mut record = R::parse(record);
        let answer = record.call();
        record.printed(answer)
    })
}
