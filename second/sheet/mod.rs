//! The strike sheet, by single host accesses of the port: document 02, requests (viii) and (ix).

pub mod examples;
pub mod run;
pub mod script;
mod struck;

use crate::port::{too_long, Port, INCR, LBL};
use crate::refusal::none_of;
use crate::sheet::struck::Struck;

/// "each sheet shows which was used": the rule, and its strokes, of a sheet that passes (ours); "A
/// refusal returns zeros".
#[derive(Default)]
pub struct Shown {
    pub rule: u32,
    pub strokes: u16,
}

/// What a sheet that passes shows, or the number of its refusal. "A refused sheet writes nothing;
/// under 42 to 44 the port has moved as its accesses say".
pub fn sheet(
    port: &mut Port,
    memory: &mut [u16],
    address: u32,
    struck: Struck,
    list: &mut [f64],
) -> Result<Shown, u8> {
    before_any_access(port, memory, struck, list)?;
    load(port, memory, address);
    let strokes = struck.strokes();
    let count = port.read(memory, 2, 3);
    let wrong = u64::from(count.word) != strokes;
    none_of(&[(count.hollow, 42), (wrong, 43)])?;
    // "the count word, then, if that is right, every tick": all are read before any is judged.
    // Hollow goes by the mark alone: FFFFh may be a good tick.
    let ticks: Vec<_> = (0..strokes).map(|_| port.read(memory, 2, 3)).collect();
    let hollow = ticks.iter().any(|tick| tick.hollow);
    let rising = ticks.windows(2).all(|pair| pair[0].word < pair[1].word);
    none_of(&[(hollow, 42), (!rising, 44)])?;
    let (first, last) = (ticks[0].word, ticks[ticks.len() - 1].word);
    for (k, place) in (0..strokes).zip(list) {
        *place = even_tempo(first, last, k, strokes);
    }
    Ok(Shown {
        rule: struck.rule,
        strokes: strokes as u16,
    })
}

/// The refusals that leave the port as it was, in order: after 1, 45 "unknown rule", 40 "time out
/// of range", 41 "list shorter than that many strokes", 46 "INCR not set".
fn before_any_access(port: &Port, memory: &[u16], struck: Struck, list: &[f64]) -> Result<(), u8> {
    none_of(&[
        (too_long(memory), 1),
        (!struck.known(), 45),
        (!struck.in_range(), 40),
        (struck.strokes() > list.len() as u64, 41),
        (port.control & INCR == 0, 46),
    ])
}

/// Loads the pointer "with two-lane writes, the half that fetches last": the high one if LBL is 0,
/// else the low one.
fn load(port: &mut Port, memory: &mut [u16], address: u32) {
    let order = if port.control & LBL == 0 {
        [0, 1]
    } else {
        [1, 0]
    };
    for register in order {
        port.write(memory, register, 3, (address >> (16 * register)) as u16);
    }
}

/// The time of stroke k, counted from 0: "the first tick plus a quotient, span times k over strokes
/// less one, each operation rounded once." "A single stroke takes its own tick".
fn even_tempo(first: u16, last: u16, k: u64, strokes: u64) -> f64 {
    let (first, last) = (f64::from(first), f64::from(last));
    if strokes == 1 {
        return first;
    }
    let (span, k, gaps) = (last - first, k as f64, (strokes - 1) as f64);
    first + (span * k) / gaps
}
