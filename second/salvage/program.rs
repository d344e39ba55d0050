//! The program `salvage`: a damaged transcript of any length is the input, its run of whole good
//! records the output, and a line on the standard error tells what was kept, left and bad (document
//! 02, request (xii)).

use crate::salvage::{salvage, Answer};
use std::io::{self, Write};

/// The run of a damaged transcript, and the line that tells of it.
pub fn salvaged(damaged: &[u8]) -> (Vec<u8>, String) {
    let mut room = vec![0; damaged.len()];
    let answer = salvage(damaged, &mut room);
    room.truncate(damaged.len() - answer.left);
    (room, line(answer))
}

/// The line that tells what was kept, left and bad; its wording is ours.
fn line(answer: Answer) -> String {
    let (kept, left, stop) = (answer.kept, answer.left, answer.stop);
    let why = match stop {
        20 => "number cut off or missing",
        21 => "leading zero group",
        22 => "head over 31 or word over 65,535",
        23 => "lanes 0",
        _ => "nothing bad",
    };
    format!("salvage: records kept {kept}, bytes left {left}, stopped by {stop}: {why}")
}

pub fn run(damaged: &[u8], out: &mut impl Write) -> io::Result<()> {
    let (run, line) = salvaged(damaged);
    out.write_all(&run)?;
    writeln!(io::stderr(), "{line}")
}
