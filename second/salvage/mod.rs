//! Salvage of a damaged transcript: document 02, request (xii).

pub mod examples;
pub mod file;
pub mod program;
pub mod run;
pub mod script;

use crate::transcript::good_run::GoodRun;

/// What a call answers: number 0, how many records it kept, how many bytes it left and the refusal
/// that stopped it, 0 if none did; or number 24, and zeros.
pub struct Answer {
    pub number: u8,
    pub kept: usize,
    pub left: usize,
    pub stop: u8,
}

/// Writes "the longest run of whole good records from the start", from place 0 on; the other places
/// stay. It is refused "when that run doesn't fit the caller's bytes", and nothing is written.
pub fn salvage(damaged: &[u8], room: &mut [u8]) -> Answer {
    let run = GoodRun::of(damaged);
    let (good, left) = damaged.split_at(run.end);
    if good.len() > room.len() {
        return Answer {
            number: 24,
            kept: 0,
            left: 0,
            stop: 0,
        };
    }
    room[..good.len()].copy_from_slice(good);
    Answer {
        number: 0,
        kept: run.accesses.len(),
        left: left.len(),
        stop: run.stop,
    }
}
