//! `second`: a model of the TMS34010 host port, its memory, fields, bus, blocks, strike sheets and
//! transcripts, sound, damaged or in deliveries, and of the bank selects of a TMS34094, written
//! from documents 01 and 02 and source document 001 without sight of the proved code, to compare
//! the results of both by running.

mod bank;
mod block;
mod bus;
mod calls;
mod field;
mod port;
mod refusal;
mod salvage;
mod scripts;
mod sheet;
mod stream;
mod transcript;

use std::io::{self, BufWriter, Read, Write};
use std::process::ExitCode;

const USAGE: &str = "second: script SEED CALLS | fields | answers
    | sheet-script SEED COUNT | sheet-answers
    | transcript-script SEED COUNT | transcript-answers
    | salvage-script SEED COUNT | salvage-answers | salvage-file SEED BYTES | salvage
    | stream-script SEED COUNT | stream-answers
    | bank-script SEED COUNT | bank-answers
    | examples";

type Out = BufWriter<io::StdoutLock<'static>>;

/// Answers the input, a script or a damaged transcript, by the function for its kind.
fn answers(carry_out: fn(&[u8], &mut Out) -> io::Result<()>) -> bool {
    let mut script = Vec::new();
    let mut out = BufWriter::with_capacity(1 << 16, io::stdout().lock());
    io::stdin()
        .read_to_end(&mut script)
        .and_then(|_| carry_out(&script, &mut out))
        .and_then(|()| out.flush())
        .is_ok()
}

/// Prints the script, or the damaged transcript, that a function makes from a seed and a count.
fn made(make: fn(u64, u64) -> Vec<u8>, seed: &str, count: &str) -> bool {
    match (seed.parse(), count.parse()) {
        (Ok(seed), Ok(count)) => io::stdout().write_all(&make(seed, count)).is_ok(),
        _ => false,
    }
}

fn usage() -> bool {
    eprintln!("{USAGE}");
    false
}

/// Whether the examples hold; says so, or which doesn't.
fn examples() -> bool {
    let subjects = [
        calls::examples::run,
        sheet::examples::run,
        transcript::examples::run,
        salvage::examples::run,
        stream::examples::run,
        bank::examples::run,
    ];
    let outcome: Result<usize, _> = subjects.into_iter().map(|run| run()).sum();
    match outcome {
        Ok(count) => println!("second: {count} examples hold"),
        Err(name) => println!("second: example {name} fails"),
    }
    outcome.is_ok()
}

fn main() -> ExitCode {
    let arguments: Vec<String> = std::env::args().skip(1).collect();
    let words: Vec<&str> = arguments.iter().map(String::as_str).collect();
    let done = match words[..] {
        ["script", seed, calls] => made(calls::script::script, seed, calls),
        ["fields"] => io::stdout().write_all(&field::script::script()).is_ok(),
        ["answers"] => answers(calls::run::answers),
        ["sheet-script", seed, count] => made(sheet::script::script, seed, count),
        ["sheet-answers"] => answers(sheet::run::answers),
        ["transcript-script", seed, count] => made(transcript::script::script, seed, count),
        ["transcript-answers"] => answers(transcript::run::answers),
        ["salvage-script", seed, count] => made(salvage::script::script, seed, count),
        ["salvage-answers"] => answers(salvage::run::answers),
        ["salvage-file", seed, bytes] => made(salvage::file::file, seed, bytes),
        ["salvage"] => answers(salvage::program::run),
        ["stream-script", seed, count] => made(stream::script::script, seed, count),
        ["stream-answers"] => answers(stream::run::answers),
        ["bank-script", seed, count] => made(bank::script::script, seed, count),
        ["bank-answers"] => answers(bank::run::answers),
        ["examples"] => examples(),
        _ => usage(),
    };
    if done {
        ExitCode::SUCCESS
    } else {
        ExitCode::FAILURE
    }
}
