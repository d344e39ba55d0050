//! Salvages worked out by hand from document 02, requests (ii) and (xii). A line has the example's
//! name; how many bytes of the string and how many to be written are lent; the string; the number,
//! records kept, bytes left and stop that it must answer; and what it must write from the first
//! place on. All numbers are in hexadecimal. All other places hold a filler that must stay. Then
//! come strings with the line that the program must tell of them.

use crate::salvage::program::salvaged;
use crate::salvage::run::{answers, Record, BYTES};
use crate::salvage::Answer;
use crate::scripts::records::Call;
use crate::scripts::text::numbers;

const SALVAGES: &str = "
nothing from nothing | 0 0 | | 0 0 0 0 |
nothing from nothing, with room | 0 40 | | 0 0 0 0 |
the paper's write | 3 3 | 1D A4 34 | 0 1 0 0 | 1D A4 34
a read and two writes, sound, with room to spare | 7 9 | 08 17 83 FF 00 1B 00 | 0 3 0 0 \
    | 08 17 83 FF 00 1B 00
words at the ends of their groups | 10 10 | 09 7F 09 81 00 09 FF 7F 09 81 80 00 09 83 FF 7F \
    | 0 5 0 0 | 09 7F 09 81 00 09 FF 7F 09 81 80 00 09 83 FF 7F
bad bytes beyond the lent ones | 2 40 | 08 0A 07 80 | 0 2 0 0 | 08 0A
word missing | 2 40 | 08 1D | 0 1 1 14 | 08
word cut off, its end beyond the lent bytes | 3 40 | 08 1D A4 34 | 0 1 2 14 | 08
word cut off after a write | 5 40 | 1D A4 34 1D A4 | 0 1 2 14 | 1D A4 34
80h at the end | 2 40 | 08 80 | 0 1 1 14 | 08
80h alone | 1 40 | 80 | 0 0 1 14 |
a head cut off, too large already | 3 40 | FF FF FF | 0 0 3 14 |
a word cut off, led by a zero group | 3 40 | 1D 80 80 | 0 0 3 14 |
the top bit of a word's last byte set, the next record taken for its end | 7 40 | 1D A4 B4 08 1D A4 34 \
    | 0 0 7 16 |
the top bit of a word's first byte lost, its rest a bad head | 5 40 | 08 1D 24 34 08 | 0 2 2 16 | 08 1D 24
a head with a leading zero group, good records after | 4 40 | 08 80 08 08 | 0 1 3 15 | 08
a word with a leading zero group, good records after | 5 40 | 08 1D 80 34 0A | 0 1 4 15 | 08
a leading zero group at the start | 2 40 | 80 08 | 0 0 2 15 |
a leading zero group, too large too | 4 40 | 0A 80 FF 7F | 0 1 3 15 | 0A
head 32 at the start, good records after | 3 40 | 20 08 08 | 0 0 3 16 |
head 39, its word missing | 2 40 | 08 27 | 0 1 1 16 | 08
word 65,536 between good records | 8 40 | 1D A4 34 1D 84 80 00 08 | 0 1 5 16 | 1D A4 34
a head of forty bytes, 8 in its last | 2A 40 | 0A \
    81 80 80 80 80 80 80 80 80 80 80 80 80 80 80 80 80 80 80 80 \
    80 80 80 80 80 80 80 80 80 80 80 80 80 80 80 80 80 80 80 08 08 | 0 1 29 16 | 0A
a head of forty bytes, its last beyond the lent ones | 28 40 | 0A \
    81 80 80 80 80 80 80 80 80 80 80 80 80 80 80 80 80 80 80 80 \
    80 80 80 80 80 80 80 80 80 80 80 80 80 80 80 80 80 80 80 08 | 0 1 27 14 | 0A
head 0 alone | 1 40 | 00 | 0 0 1 17 |
head 7 between good records | 4 40 | 08 07 00 08 | 0 1 3 17 | 08
lanes 0, then head 32 | 3 40 | 08 06 20 | 0 1 2 17 | 08
a longer run after the bad record | 6 40 | 08 06 08 08 08 08 | 0 1 5 17 | 08
one byte too few | 3 2 | 1D A4 34 | 18 0 0 0 |
one byte too few for the last of two | 4 3 | 08 1D A4 34 | 18 0 0 0 |
no room for a read | 1 0 | 08 | 18 0 0 0 |
no room, none needed | 1 0 | 07 | 0 0 1 17 |
room for the run, not for the string | 4 2 | 08 0A 07 00 | 0 2 2 17 | 08 0A
too little room for the run, a bad record after it | 3 1 | 08 0A 07 | 18 0 0 0 |
room for the run and half the bad record | 5 3 | 08 0A 1D 80 34 | 0 2 3 15 | 08 0A
all the bytes that there are | FF 41 | \
    08 08 08 08 08 08 08 08 08 08 08 08 08 08 08 08 0A 0A 0A 0A 0A 0A 0A 0A 0A 0A 0A 0A 0A 0A 0A 0A \
    0C 0C 0C 0C 0C 0C 0C 0C 0C 0C 0C 0C 0C 0C 0C 0C 1E 1E 1E 1E 1E 1E 1E 1E 1E 1E 1E 1E 1E 1F 83 7F \
    | 0 3E 0 0 | \
    08 08 08 08 08 08 08 08 08 08 08 08 08 08 08 08 0A 0A 0A 0A 0A 0A 0A 0A 0A 0A 0A 0A 0A 0A 0A 0A \
    0C 0C 0C 0C 0C 0C 0C 0C 0C 0C 0C 0C 0C 0C 0C 0C 1E 1E 1E 1E 1E 1E 1E 1E 1E 1E 1E 1E 1E 1F 83 7F
";

const LINES: &str = "
| salvage: records kept 0, bytes left 0, stopped by 0: nothing bad
08 1D A4 34 | salvage: records kept 2, bytes left 0, stopped by 0: nothing bad
08 1D A4 | salvage: records kept 1, bytes left 2, stopped by 20: number cut off or missing
08 0A 80 0A | salvage: records kept 2, bytes left 2, stopped by 21: leading zero group
20 08 08 08 08 08 08 08 08 08 08 | salvage: records kept 0, bytes left 11, stopped by 22: head over 31 or word over 65,535
08 08 08 08 08 08 08 08 08 08 00 | salvage: records kept 10, bytes left 1, stopped by 23: lanes 0
";

fn bytes(text: &str) -> Option<Vec<u8>> {
    let byte = |digits| u8::from_str_radix(digits, 16).ok();
    text.split_whitespace().map(byte).collect()
}

/// Lays what a text says into the first places.
fn lay(places: &mut [u8; BYTES], text: &str) -> Option<()> {
    let bytes = bytes(text)?;
    places.get_mut(..bytes.len())?.copy_from_slice(&bytes);
    Some(())
}

/// Whether a call, carried out as a record, prints what its line asks for.
fn holds(lent: &str, damaged: &str, answer: &str, written: &str) -> Option<bool> {
    let [damaged_lent, room_lent] = numbers(lent)?.map(|number| number as u8);
    let mut record = Record {
        damaged_lent,
        room_lent,
        damaged: [0xEE; BYTES],
        room: [0xDD; BYTES],
    };
    lay(&mut record.damaged, damaged)?;
    let mut printed = Vec::new();
    answers(&record.to_bytes(), &mut printed).ok()?;
    lay(&mut record.room, written)?;
    let [number, kept, left, stop] = numbers(answer)?.map(|number| number as usize);
    let answer = Answer {
        number: number as u8,
        kept,
        left,
        stop: stop as u8,
    };
    Some(printed == record.printed(answer))
}

/// Whether the program tells that line, and writes all but the bytes that it tells as left.
fn told(damaged: &str, line: &str) -> Option<bool> {
    let damaged = bytes(damaged)?;
    let (run, told) = salvaged(&damaged);
    let left = line.split(',').nth(1)?.rsplit(' ').next()?.parse().ok()?;
    Some(told == line && run == damaged[..damaged.len().checked_sub(left)?])
}

/// How many hold, or the name of the first that doesn't.
pub fn run() -> Result<usize, &'static str> {
    let [salvages, lines] = [SALVAGES, LINES].map(|text| text.trim().lines());
    for line in salvages.clone().chain(lines.clone()) {
        let parts: Vec<&str> = line.split('|').map(str::trim).collect();
        let held = match parts[..] {
            [_, lent, damaged, answer, written] => holds(lent, damaged, answer, written),
            [damaged, line] => told(damaged, line),
            _ => None,
        };
        if held != Some(true) {
            return Err(line);
        }
    }
    Ok(salvages.chain(lines).count())
}
