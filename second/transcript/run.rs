//! A run of transcripts: a script of lists to write and byte strings to read (document 02, request
//! (ii)), each carried out by itself.
//!
//! A script is records of 168 bytes. Byte 0 is what is done: the writer if even, the reader if odd.
//! Byte 1 is how many bytes are lent, at most 64, and bytes 2 to 5 how many places of the lists of
//! kinds, registers, lanes and words, at most 6 each. Bytes 6 and 7 play no part. Then come 24
//! numbers of 32 bits, their low byte first, six of each list, and 64 bytes. The writer turns the
//! lent places into the lent bytes; the reader turns the lent bytes into the lent places.
//!
//! Each record prints 170 bytes, with nothing between: number (2 lower-case hexadecimal digits),
//! count (4) and place (4), then the lists and the 64 bytes as the call left them, laid out as in
//! the record.

use crate::scripts::records::{carry_out, Call};
use crate::transcript::list::{List, PLACES};
use crate::transcript::reader::read;
use crate::transcript::writer::write;
use crate::transcript::Answer;
use std::io::{self, Write};

pub const RECORD: usize = 168;
pub const BYTES: usize = 64;
/// Where a record's numbers begin, and its bytes.
const NUMBERS_AT: usize = 8;
const BYTES_AT: usize = RECORD - BYTES;

/// One record of a script.
#[derive(Clone)]
pub struct Record {
    /// The writer if even, the reader if odd.
    pub side: u8,
    /// How many of the bytes, and of each list's places, are lent.
    pub bytes_lent: u8,
    pub places_lent: [u8; 4],
    pub idle: [u8; 2],
    /// Kinds, registers, lanes and words.
    pub parts: [[u32; PLACES]; 4],
    pub bytes: [u8; BYTES],
}

impl Record {
    pub fn to_bytes(&self) -> Vec<u8> {
        let mut record = vec![self.side, self.bytes_lent];
        record.extend(self.places_lent);
        record.extend(self.idle);
        record.extend(self.contents());
        record
    }

    /// The lists and bytes, laid out as in a record.
    fn contents(&self) -> Vec<u8> {
        let numbers = self.parts.into_iter().flatten();
        let mut contents: Vec<u8> = numbers.flat_map(u32::to_le_bytes).collect();
        contents.extend(self.bytes);
        contents
    }
}

impl Call for Record {
    const SIZE: usize = RECORD;
    type Answer = Answer;

    fn parse(record: &[u8]) -> Record {
        let number = |k: usize| {
            let at = NUMBERS_AT + 4 * k;
            u32::from_le_bytes(std::array::from_fn(|byte| record[at + byte]))
        };
        let part = |part: usize| std::array::from_fn(|k| number(PLACES * part + k));
        Record {
            side: record[0],
            bytes_lent: record[1],
            places_lent: std::array::from_fn(|k| record[2 + k]),
            idle: [record[6], record[7]],
            parts: std::array::from_fn(part),
            bytes: std::array::from_fn(|k| record[BYTES_AT + k]),
        }
    }

    fn call(&mut self) -> Answer {
        let lent = self.places_lent.map(usize::from);
        let mut list = List {
            parts: self.parts,
            lent: lent.map(|lent| lent.min(PLACES)),
        };
        let bytes = &mut self.bytes[..usize::from(self.bytes_lent).min(BYTES)];
        if self.side % 2 == 0 {
            return write(&list, bytes);
        }
        let answer = read(bytes, &mut list);
        self.parts = list.parts;
        answer
    }

    fn printed(&self, answer: Answer) -> Vec<u8> {
        let (number, count, place) = (answer.number, answer.count, answer.place);
        let mut printed = format!("{number:02x}{count:04x}{place:04x}").into_bytes();
        printed.extend(self.contents());
        printed
    }
}

/// Carries out a script.
pub fn answers(script: &[u8], out: &mut impl Write) -> io::Result<()> {
    carry_out::<Record>(script, out)
}
