//! A run of salvage: a script of damaged transcripts (document 02, request (xii)), each salvaged by
//! itself.
//!
//! A script is records of 130 bytes. Byte 0 is how many bytes of the damaged string are lent, and
//! byte 1 how many bytes to be written, at most 64 each. Then come the string, 64 bytes, and the
//! bytes to be written, 64 as they stand before the call.
//!
//! Each record prints 76 bytes, with nothing between: number (2 lower-case hexadecimal digits),
//! records kept (4), bytes left (4) and stop (2), then the 64 bytes to be written as the call left
//! them.

use crate::salvage::{salvage, Answer};
use crate::scripts::records::{carry_out, Call};
use std::io::{self, Write};

pub const RECORD: usize = 130;
pub const BYTES: usize = 64;
/// Where a record's damaged string begins, and its bytes to be written.
const DAMAGED_AT: usize = 2;
const ROOM_AT: usize = DAMAGED_AT + BYTES;

/// One record of a script.
#[derive(Clone)]
pub struct Record {
    /// How many of the string's bytes, and of those to be written, are lent.
    pub damaged_lent: u8,
    pub room_lent: u8,
    pub damaged: [u8; BYTES],
    pub room: [u8; BYTES],
}

impl Record {
    pub fn to_bytes(&self) -> Vec<u8> {
        let mut record = vec![self.damaged_lent, self.room_lent];
        record.extend(self.damaged);
        record.extend(self.room);
        record
    }
}

impl Call for Record {
    const SIZE: usize = RECORD;
    type Answer = Answer;

    fn parse(record: &[u8]) -> Record {
        Record {
            damaged_lent: record[0],
            room_lent: record[1],
            damaged: std::array::from_fn(|k| record[DAMAGED_AT + k]),
            room: std::array::from_fn(|k| record[ROOM_AT + k]),
        }
    }

    fn call(&mut self) -> Answer {
        let [damaged, room] =
            [self.damaged_lent, self.room_lent].map(|lent| BYTES.min(lent.into()));
        salvage(&self.damaged[..damaged], &mut self.room[..room])
    }

    fn printed(&self, answer: Answer) -> Vec<u8> {
        let (number, kept, left, stop) = (answer.number, answer.kept, answer.left, answer.stop);
        let mut printed = format!("{number:02x}{kept:04x}{left:04x}{stop:02x}").into_bytes();
        printed.extend(self.room);
        printed
    }
}

/// Carries out a script.
pub fn answers(script: &[u8], out: &mut impl Write) -> io::Result<()> {
    carry_out::<Record>(script, out)
}
