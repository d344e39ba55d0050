//! A run of streams: a script of calls (document 02, request (vii)) on one stream, which is kept
//! from call to call and is freshly started at 0 before the first.
//!
//! A script is records of 36 bytes. Byte 0 is what is done, modulo 3: 0 a fresh start, 1 a
//! delivery, 2 the end. Of a delivery, byte 1 is how many of the string's bytes are delivered, at
//! most 24, and bytes 2 to 5 are how many places of the lists of kinds, registers, lanes and words
//! are lent, at most 6 each. Bytes 6 and 7 play no part. Of a fresh start, bytes 8 to 11 are how
//! many bytes the stream had already, of whole good records, low byte first. Then comes the string,
//! 24 bytes. Before each call every place of the lists holds EEEEEEEEh.
//!
//! Each call prints a line in lower-case hexadecimal digits, with nothing between: number (2
//! digits), count (4), place (8); then, of the stream as the call left it, whether it has ended
//! (1), where the record begins that is being read (8) and how many bytes have been read (8); then
//! the lists as the call left them, six kinds, six registers, six lanes and six words (8 each).

use crate::scripts::records;
use crate::stream::{Answer, Stream};
use crate::transcript::list::{List, PLACES};
use std::io::{self, Write};

pub const RECORD: usize = 36;
pub const BYTES: usize = 24;
/// Where a record's number of earlier bytes begins, and its string.
const BEFORE_AT: usize = 8;
const STRING_AT: usize = RECORD - BYTES;
const FILLER: u32 = 0xEEEE_EEEE;

/// What a record does, modulo 3.
pub const START: u8 = 0;
pub const DELIVER: u8 = 1;
pub const END: u8 = 2;

/// One record of a script.
pub struct Record {
    /// What is done, modulo 3.
    pub deed: u8,
    /// How many of the string's bytes are delivered, and how many places of each list are lent.
    pub delivered: u8,
    pub places_lent: [u8; 4],
    pub idle: [u8; 2],
    pub before: u32,
    pub string: [u8; BYTES],
}

impl Record {
    pub fn parse(record: &[u8]) -> Record {
        let before = std::array::from_fn(|k| record[BEFORE_AT + k]);
        Record {
            deed: record[0],
            delivered: record[1],
            places_lent: std::array::from_fn(|k| record[2 + k]),
            idle: [record[6], record[7]],
            before: u32::from_le_bytes(before),
            string: std::array::from_fn(|k| record[STRING_AT + k]),
        }
    }

    pub fn to_bytes(&self) -> Vec<u8> {
        let mut record = vec![self.deed, self.delivered];
        record.extend(self.places_lent);
        record.extend(self.idle);
        record.extend(self.before.to_le_bytes());
        record.extend(self.string);
        record
    }

    /// Carries out the record on a stream: what is answered, and the lists as they are left.
    pub fn call(&self, stream: &mut Stream) -> (Answer, List) {
        let mut list = blank_list(self.places_lent);
        let delivered = BYTES.min(self.delivered.into());
        let answer = match self.deed % 3 {
            START => stream.start(self.before),
            DELIVER => stream.deliver(&self.string[..delivered], &mut list),
            _ => stream.end(),
        };
        (answer, list)
    }
}

/// The lists as they stand before a call that lends so many places of each.
pub fn blank_list(lent: [u8; 4]) -> List {
    List {
        parts: [[FILLER; PLACES]; 4],
        lent: lent.map(|lent| PLACES.min(lent.into())),
    }
}

/// What is printed of a call that answered so and left the stream and the lists so.
pub fn line(answer: Answer, stream: &Stream, list: &List) -> String {
    let (number, count, place) = (answer.number, answer.count, answer.place);
    let ended = u8::from(stream.ended);
    let (from, taken) = (stream.from, stream.taken);
    let mut line = format!("{number:02x}{count:04x}{place:08x}{ended}{from:08x}{taken:08x}");
    for value in list.parts.iter().flatten() {
        line += &format!("{value:08x}");
    }
    line + "\n"
}

/// Carries out a script.
pub fn answers(script: &[u8], out: &mut impl Write) -> io::Result<()> {
    let mut stream = Stream::new(0);
    records::answers(script, RECORD, out, |record| {
        let (answer, list) = Record::parse(record).call(&mut stream);
        line(answer, &stream, &list).into_bytes()
    })
}
