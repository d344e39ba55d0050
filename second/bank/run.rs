//! A run of the bank selects: a script of calls (document 02, request (vi)) on one bridge, whose
//! registers and index are kept from call to call and are all 0 before the first.
//!
//! A script is records of 40 bytes; numbers have their low byte first. Byte 0 is what is done,
//! modulo 4: 0 a fresh start, 1 a read, 2 a write, 3 a decode. Bytes 1 to 3 play no part. Bytes 4
//! to 7 are a number: of a fresh start the index, of a read or a write the lanes, of a decode the
//! kind. Of a fresh start bytes 8 to 39 are the registers, 4 bytes each: compare value 0, mask 0,
//! compare value 1, and so on to mask 3. Of a write bytes 8 and 9 are the word. Of a decode bytes 8
//! to 11 are the address, bytes 12 and 13 the control word. All others play no part.
//!
//! Each call prints a line in lower-case hexadecimal digits, with nothing between: number (2
//! digits), word (4), the selected banks (1, bit n for bank n); then, as the call left them, the
//! index (8), compare value 0, mask 0, compare value 1, and so on to mask 3 (8 each).

use crate::bank::port::Access;
use crate::bank::{Answer, Bank, Bridge, BANKS};
use crate::scripts::records;
use std::io::{self, Write};

pub const RECORD: usize = 40;
/// Where a record's number begins, and what comes behind it.
const NUMBER_AT: usize = 4;
const REST_AT: usize = 8;
const CONTROL_AT: usize = 12;

/// What one record does.
#[derive(Clone, Copy)]
pub enum Call {
    Start { index: u32, banks: [Bank; BANKS] },
    Read { lanes: u32 },
    Write { lanes: u32, word: u16 },
    Decode(Cycle),
}

/// A cycle that is decoded.
#[derive(Clone, Copy)]
pub struct Cycle {
    pub kind: u32,
    pub address: u32,
    pub control: u16,
}

impl Call {
    fn parse(record: &[u8]) -> Call {
        let short = |at: usize| u16::from_le_bytes([record[at], record[at + 1]]);
        let long = |at: usize| u32::from(short(at + 2)) << 16 | u32::from(short(at));
        let number = long(NUMBER_AT);
        match record[0] % 4 {
            0 => Call::Start {
                index: number,
                banks: std::array::from_fn(|bank| Bank {
                    compare: long(REST_AT + 8 * bank),
                    mask: long(REST_AT + 8 * bank + 4),
                }),
            },
            1 => Call::Read { lanes: number },
            2 => Call::Write {
                lanes: number,
                word: short(REST_AT),
            },
            _ => Call::Decode(Cycle {
                kind: number,
                address: long(REST_AT),
                control: short(CONTROL_AT),
            }),
        }
    }

    /// Lays the call into a record, whose bytes that play no part stay as they are.
    pub fn lay(self, record: &mut [u8; RECORD]) {
        let (deed, number, rest) = match self {
            Call::Start { index, banks } => {
                let registers = banks.iter().flat_map(|bank| [bank.compare, bank.mask]);
                (0, index, registers.flat_map(u32::to_le_bytes).collect())
            }
            Call::Read { lanes } => (1, lanes, Vec::new()),
            Call::Write { lanes, word } => (2, lanes, word.to_le_bytes().to_vec()),
            Call::Decode(cycle) => {
                let mut rest = cycle.address.to_le_bytes().to_vec();
                rest.extend(cycle.control.to_le_bytes());
                (3, cycle.kind, rest)
            }
        };
        record[0] = record[0] & 0xFC | deed;
        record[NUMBER_AT..REST_AT].copy_from_slice(&number.to_le_bytes());
        record[REST_AT..REST_AT + rest.len()].copy_from_slice(&rest);
    }

    pub fn carry_out(self, bridge: &mut Bridge) -> Answer {
        match self {
            Call::Start { index, banks } => bridge.start(index, banks),
            Call::Read { lanes } => bridge.access(lanes, Access::Read),
            Call::Write { lanes, word } => bridge.access(lanes, Access::Write(word)),
            Call::Decode(cycle) => bridge.decode(cycle.kind, cycle.address, cycle.control),
        }
    }
}

/// What is printed of a call that answered so and left the index and the registers so.
pub fn line(answer: Answer, index: u32, banks: &[Bank; BANKS]) -> String {
    let (number, word, selected) = (answer.number, answer.word, answer.selected);
    let mut line = format!("{number:02x}{word:04x}{selected:x}{index:08x}");
    for Bank { compare, mask } in banks {
        line += &format!("{compare:08x}{mask:08x}");
    }
    line + "\n"
}

/// Carries out a script.
pub fn answers(script: &[u8], out: &mut impl Write) -> io::Result<()> {
    let mut bridge = Bridge::default();
    records::answers(script, RECORD, out, |record| {
        let answer = Call::parse(record).carry_out(&mut bridge);
        line(answer, bridge.index, &bridge.banks).into_bytes()
    })
}
