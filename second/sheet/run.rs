//! A run of sheets: a script of strike sheets (document 02, requests (viii) and (ix)) carried out
//! on a room of 32,769 words and a list of 36 doubles, all 0 at the start, which persist from sheet
//! to sheet.
//!
//! A script is records of 108 bytes: 54 numbers of 16 bits, their low byte first. They are the
//! pointer (low half, high half), HSTDATA, HSTCTL, the hollow mark (set if odd); the table's bit
//! address, the rule, hours, quarters and minutes (each low half, high half); how many places of
//! the list and how many words of the room are lent, at most all; and the word number from which
//! the last 36 numbers are laid into the room before the call, those beyond its end dropped.
//!
//! Each sheet prints a line in lower-case hexadecimal digits, with single spaces: number (2
//! digits), the rule shown (8), strokes (4), the pointer (8), HSTDATA (4), HSTCTL (4) and the
//! hollow mark (1) as they end, and the bit patterns of the whole list (16 each). The room isn't
//! printed: no access of a sheet stores to it, and a word that changed would show when a later
//! sheet reads it.

use crate::calls::run::ROOM;
use crate::port::Port;
use crate::scripts::records;
use crate::sheet::struck::Struck;
use crate::sheet::{sheet, Shown};
use std::io::{self, Write};

const RECORD: usize = 108;
pub const LAID: usize = 36;
pub const LIST: usize = 36;

/// One sheet of a script.
pub struct Record {
    pub pointer: u32,
    pub data: u16,
    pub control: u16,
    /// Hollow if odd.
    pub hollow: u16,
    pub address: u32,
    pub struck: Struck,
    /// How many places of the list and how many words of the room are lent.
    pub places: u16,
    pub words: u16,
    /// The words laid into the room before the call, and the number of the first of them.
    pub first: u16,
    pub laid: [u16; LAID],
}

impl Record {
    pub fn read(bytes: &[u8]) -> Record {
        let at = |k: usize| u16::from_le_bytes([bytes[2 * k], bytes[2 * k + 1]]);
        let wide = |k: usize| u32::from(at(k + 1)) << 16 | u32::from(at(k));
        Record {
            pointer: wide(0),
            data: at(2),
            control: at(3),
            hollow: at(4),
            address: wide(5),
            struck: Struck {
                rule: wide(7),
                time: [wide(9), wide(11), wide(13)],
            },
            places: at(15),
            words: at(16),
            first: at(17),
            laid: std::array::from_fn(|k| at(18 + k)),
        }
    }

    pub fn port(&self) -> Port {
        Port {
            pointer: self.pointer,
            data: self.data,
            control: self.control,
            hollow: self.hollow % 2 == 1,
        }
    }

    pub fn bytes(&self) -> Vec<u8> {
        let halves = |number: u32| [number as u16, (number >> 16) as u16];
        let mut numbers = Vec::from(halves(self.pointer));
        numbers.extend([self.data, self.control, self.hollow]);
        numbers.extend(halves(self.address));
        numbers.extend(halves(self.struck.rule));
        numbers.extend(self.struck.time.into_iter().flat_map(halves));
        numbers.extend([self.places, self.words, self.first]);
        numbers.extend(self.laid);
        numbers.into_iter().flat_map(u16::to_le_bytes).collect()
    }
}

pub struct Run {
    room: Vec<u16>,
    list: [f64; LIST],
}

impl Run {
    pub fn new() -> Run {
        Run {
            room: vec![0; ROOM],
            list: [0.0; LIST],
        }
    }

    /// Carries out a record and gives the line that it prints.
    pub fn call(&mut self, record: &Record) -> String {
        let beyond = self.room.iter_mut().skip(usize::from(record.first));
        beyond
            .zip(record.laid)
            .for_each(|(word, laid)| *word = laid);
        let mut port = record.port();
        let memory = &mut self.room[..usize::from(record.words).min(ROOM)];
        let list = &mut self.list[..usize::from(record.places).min(LIST)];
        let (number, shown) = match sheet(&mut port, memory, record.address, record.struck, list) {
            Ok(shown) => (0, shown),
            Err(number) => (number, Shown::default()),
        };
        line(number, shown, port, &self.list)
    }
}

/// The line that a sheet prints, without its line feed.
pub fn line(number: u8, shown: Shown, port: Port, list: &[f64; LIST]) -> String {
    let Shown { rule, strokes } = shown;
    let (pointer, data, control) = (port.pointer, port.data, port.control);
    let hollow = u8::from(port.hollow);
    let mut line = format!("{number:02x} {rule:08x} {strokes:04x} ");
    line += &format!("{pointer:08x} {data:04x} {control:04x} {hollow}");
    for place in list {
        line += &format!(" {:016x}", place.to_bits());
    }
    line
}

/// Carries out a script.
pub fn answers(script: &[u8], out: &mut impl Write) -> io::Result<()> {
    let mut run = Run::new();
    records::answers(script, RECORD, out, |record| {
        let line = run.call(&Record::read(record));
        format!("{line}\n").into_bytes()
    })
}
