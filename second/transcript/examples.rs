//! Transcripts worked out by hand from document 02, request (ii). A line has the example's name;
//! `W` for the writer or `R` for the reader; how many bytes and how many places of the lists of
//! kinds, registers, lanes and words are lent; what is given, a list (kind, register, lanes and
//! word of each access) or bytes; the number, count and place that it must answer; and what it must
//! write from the first place on. All numbers are in hexadecimal. All other places hold a filler
//! that must stay.

use crate::scripts::records::Call;
use crate::scripts::text::numbers;
use crate::transcript::list::{Access, PLACES};
use crate::transcript::run::{answers, Record, BYTES};
use crate::transcript::Answer;

const TRANSCRIPTS: &str = "
the paper's write | W | 3 1 1 1 1 | 1 2 3 1234 | 0 3 0 | 1D A4 34
the paper's write, read | R | 3 1 1 1 1 | 1D A4 34 | 0 1 0 | 1 2 3 1234
no access, no byte | W | 0 0 0 0 0 | | 0 0 0 |
no byte, no access | R | 0 0 0 0 0 | | 0 0 0 |
a read and two writes, one byte to spare | W | 8 3 3 3 3 \
    | 0 0 1 0, 1 3 2 FF80, 1 1 3 0 | 0 7 0 | 08 17 83 FF 00 1B 00
a read and two writes, one place to spare | R | 7 4 4 4 4 \
    | 08 17 83 FF 00 1B 00 | 0 3 0 | 0 0 1 0, 1 3 2 FF80, 1 1 3 0
words at the ends of their groups | W | 10 5 5 5 5 \
    | 1 0 1 7F, 1 0 1 80, 1 0 1 3FFF, 1 0 1 4000, 1 0 1 FFFF \
    | 0 10 0 | 09 7F 09 81 00 09 FF 7F 09 81 80 00 09 83 FF 7F
words at the ends of their groups, read | R | 10 5 5 5 5 \
    | 09 7F 09 81 00 09 FF 7F 09 81 80 00 09 83 FF 7F \
    | 0 5 0 | 1 0 1 7F, 1 0 1 80, 1 0 1 3FFF, 1 0 1 4000, 1 0 1 FFFF
the last head | R | 2 1 1 1 1 | 1F 01 | 0 1 0 | 1 3 3 1
a bad access beyond the shortest slice | W | 40 2 2 1 2 | 0 0 1 0, 9 9 9 9 | 0 1 0 | 08
all the bytes that there are | W | FF 6 6 6 FF | 0 0 1 0, 0 1 1 0, 0 2 1 0, 0 3 1 0, 0 0 2 0, \
    0 0 3 0 | 0 6 0 | 08 0A 0C 0E 10 18
one byte too few | W | 2 1 1 1 1 | 1 2 3 1234 | 18 0 0 |
one place too few | R | 4 2 2 2 1 | 08 1D A4 34 | 18 0 0 |
a place short in the words only, reads only | R | 2 2 2 2 1 | 08 0A | 18 0 0 |
register 4, lanes 0, kind 2 | W | 40 1 1 1 1 | 2 4 0 0 | 2 0 0 |
lanes 4, kind 2 | W | 40 2 2 2 2 | 0 0 1 0, 2 3 4 0 | 3 0 1 |
kind 2 | W | 40 1 1 1 1 | 2 0 1 0 | 16 0 0 |
kind 65,537 | W | 40 1 1 1 1 | 10001 0 1 0 | 16 0 0 |
a read's word not 0 | W | 40 3 3 3 3 | 1 0 1 1, 0 0 1 0, 0 0 1 1 | 16 0 2 |
word 65,536 | W | 40 1 1 1 1 | 1 0 1 10000 | 16 0 0 |
lanes 0 before register 4 in the list | W | 40 2 2 2 2 | 0 0 0 0, 0 4 1 0 | 3 0 0 |
a bad access after one that doesn't fit | W | 0 2 2 2 2 | 0 0 1 0, 0 4 1 0 | 2 0 1 |
word missing | R | 2 6 6 6 6 | 08 1D | 14 0 1 |
word cut off | R | 3 6 6 6 6 | 08 1D A4 34 | 14 0 1 |
80h at the end | R | 2 6 6 6 6 | 08 80 | 14 0 1 |
a head cut off, too large already | R | 3 6 6 6 6 | FF FF FF | 14 0 0 |
a head with a leading zero group | R | 3 6 6 6 6 | 08 80 08 | 15 0 1 |
a word with a leading zero group | R | 4 6 6 6 6 | 08 1D 80 34 | 15 0 1 |
a leading zero group, too large too | R | 3 6 6 6 6 | 80 FF 7F | 15 0 0 |
a leading zero group, lanes 0 too | R | 2 6 6 6 6 | 80 07 | 15 0 0 |
head 32 | R | 1 6 6 6 6 | 20 | 16 0 0 |
head 39, its word missing | R | 2 6 6 6 6 | 08 27 | 16 0 1 |
word 65,536, read | R | 5 6 6 6 6 | 08 1D 84 80 00 | 16 0 1 |
a head of forty bytes, 8 in its last | R | 28 6 6 6 6 \
    | 81 80 80 80 80 80 80 80 80 80 80 80 80 80 80 80 80 80 80 80 \
    80 80 80 80 80 80 80 80 80 80 80 80 80 80 80 80 80 80 80 08 | 16 0 0 |
a word of forty bytes, 34h in its last | R | 29 6 6 6 6 \
    | 1D 81 80 80 80 80 80 80 80 80 80 80 80 80 80 80 80 80 80 80 80 \
    80 80 80 80 80 80 80 80 80 80 80 80 80 80 80 80 80 80 80 34 | 16 0 0 |
head 0 | R | 1 6 6 6 6 | 00 | 17 0 0 |
head 7, its word missing | R | 2 6 6 6 6 | 08 07 | 17 0 1 |
lanes 0, then head 32 | R | 3 6 6 6 6 | 08 06 20 | 17 0 1 |
a bad record after one that doesn't fit | R | 5 0 6 6 6 | 1D A4 34 07 00 | 17 0 3 |
";

/// Lays what a text says into a record's first places, if it is well formed.
type Lay = fn(&mut Record, &str) -> Option<()>;

/// A record of that much lent, its lists and bytes full of filler.
fn blank(side: &str, lent: &str) -> Option<Record> {
    let [bytes, kinds, registers, lanes, words] = numbers(lent)?.map(|number| number as u8);
    Some(Record {
        side: u8::from(side == "R"),
        bytes_lent: bytes,
        places_lent: [kinds, registers, lanes, words],
        idle: [0; 2],
        parts: [[0xAAAA_AAAA; PLACES]; 4],
        bytes: [0xEE; BYTES],
    })
}

fn lay_list(record: &mut Record, text: &str) -> Option<()> {
    let accesses = text.split(',').filter(|access| !access.is_empty());
    for (k, access) in accesses.enumerate() {
        let access: Access = numbers(access)?;
        for (part, value) in record.parts.iter_mut().zip(access) {
            *part.get_mut(k)? = value;
        }
    }
    Some(())
}

fn lay_bytes(record: &mut Record, text: &str) -> Option<()> {
    for (k, digits) in text.split_whitespace().enumerate() {
        *record.bytes.get_mut(k)? = u8::from_str_radix(digits, 16).ok()?;
    }
    Some(())
}

/// Whether a call, carried out as a record, prints what its line asks for.
fn holds(side: &str, lent: &str, given: &str, answer: &str, written: &str) -> Option<bool> {
    let (lay_given, lay_written): (Lay, Lay) = match side {
        "W" => (lay_list, lay_bytes),
        _ => (lay_bytes, lay_list),
    };
    let mut record = blank(side, lent)?;
    lay_given(&mut record, given)?;
    let mut printed = Vec::new();
    answers(&record.to_bytes(), &mut printed).ok()?;
    lay_written(&mut record, written)?;
    let [number, count, place] = numbers(answer)?.map(|number| number as usize);
    let answer = Answer {
        number: number as u8,
        count,
        place,
    };
    Some(printed == record.printed(answer))
}

/// How many hold, or the name of the first that doesn't.
pub fn run() -> Result<usize, &'static str> {
    let lines = TRANSCRIPTS.trim().lines();
    for line in lines.clone() {
        let parts: Vec<&str> = line.split('|').map(str::trim).collect();
        match parts[..] {
            [_, side, lent, given, answer, written]
                if holds(side, lent, given, answer, written) == Some(true) => {}
            _ => return Err(parts[0]),
        }
    }
    Ok(lines.count())
}
