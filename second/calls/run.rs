//! A run: a script of calls (document 01) carried out on one port, one bus, a room of 32,769 words
//! and a list of 8,192, all 0 at the start. The room's first words are lent as the memory, at the
//! start 32,768; the list's first places are lent to the block calls, at the start all. Port and
//! bus start as reset leaves them.
//!
//! A script is lines of one letter and four numbers a, b, c and d, each a space and eight
//! upper-case hexadecimal digits. Of a word, HSTDATA or HSTCTL only the low sixteen bits count;
//! numbers that a letter doesn't take play no part. Each call answers its number (document 01,
//! "Numbers returned") and two values, x and y; a value that isn't named is 0, and so are both if
//! the call is refused.
//!
//! ```text
//! host       R  read by value      a register, b lanes             x word, y mark and cycle
//!            W  write by value     a register, b lanes, c word     y cycle
//!            H  read in place      as R                            as R
//!            K  write in place     as W                            as W
//! processor  P  read               a register                      x word
//!            Q  write              a register, b word
//! field      T  take, unsigned     a bit address, b size           x value, y cycles
//!            S  take, signed       a bit address, b size           x value modulo 2^32, y cycles
//!            F  put                a bit address, b size, c value  y cycles
//! bus        A  ask                a source
//!            B  grant                                              x source
//!            C  release
//! block      I  read               a + 2^32 b place, c count       x hollow words handed out
//!            O  write              a + 2^32 b place, c count       x stores that fell empty
//! the run    D  digests                                            x of the room, y of the list
//!            N  lend memory        a words, or all if a is more
//!            M  fill the room      word k becomes a + b k, modulo 2^16
//!            L  lend places        a places, or all if a is more
//!            J  fill the list      place k becomes a + b k, modulo 2^16
//!            G  set the registers  a pointer, b HSTDATA, c HSTCTL, d hollow if odd
//!            Z  reset              port and bus
//! ```
//!
//! Mark and cycle are one value: 16 if the answer is hollow, plus 0 for cycle none, 1 for inside, 2
//! for empty. D takes in the whole room and the whole list, lent or not.
//!
//! Each call prints a line in upper-case hexadecimal digits, with single spaces: its letter, number
//! (2 digits), x and y (8 each); then, as the call left them, the pointer (8), HSTDATA (4), HSTCTL
//! (4), the hollow mark (1) and the sources that wait (2, bit s for source s).

use crate::block;
use crate::bus::Bus;
use crate::field;
use crate::port::access::{by_value, in_place, Access};
use crate::port::{Answer, Cycle, Port};
use std::io::{self, Write};

pub const ROOM: usize = 32_769;
const LIST: usize = 8_192;
const LINE: usize = 38;

pub struct Run {
    port: Port,
    bus: Bus,
    room: Vec<u16>,
    length: usize,
    list: Vec<u16>,
    size: usize,
}

/// What a call answers: its number, and the values x and y.
type Reply = (u8, u32, u32);

impl Run {
    pub fn new() -> Run {
        Run {
            port: Port::reset(),
            bus: Bus::default(),
            room: vec![0; ROOM],
            length: 32_768,
            list: vec![0; LIST],
            size: LIST,
        }
    }

    /// Nothing for an unknown letter.
    pub fn call(&mut self, letter: u8, [a, b, c, d]: [u32; 4]) -> Option<Reply> {
        let memory = &mut self.room[..self.length];
        let reply = match letter {
            b'R' | b'W' | b'H' | b'K' => host(&mut self.port, memory, letter, [a, b, c]),
            b'P' => reply(self.port.processor_read(a)),
            b'Q' => (self.port.processor_write(a, b as u16), 0, 0),
            b'T' | b'S' => {
                let (number, value, cycles) = field::take(memory, a, b, letter == b'S');
                (number, value as u32, cycles)
            }
            b'F' => {
                let (number, cycles) = field::put(memory, a, b, c);
                (number, 0, cycles)
            }
            b'A' => (self.bus.ask(a), 0, 0),
            b'B' => reply(self.bus.grant()),
            b'C' => (self.bus.release(), 0, 0),
            b'I' | b'O' => {
                let list = &mut self.list[..self.size];
                let place = u64::from(b) << 32 | u64::from(a);
                let counted = match letter {
                    b'I' => block::read(&mut self.port, memory, list, place, c),
                    _ => block::write(&mut self.port, memory, list, place, c),
                };
                match counted {
                    Ok(count) => (0, count, 0),
                    Err(number) => (number, 0, 0),
                }
            }
            b'D' => (0, digest(&self.room), digest(&self.list)),
            _ => return self.set(letter, [a, b, c, d]),
        };
        Some(reply)
    }

    fn set(&mut self, letter: u8, [a, b, c, d]: [u32; 4]) -> Option<Reply> {
        match letter {
            b'N' => self.length = (a as usize).min(ROOM),
            b'M' => fill(&mut self.room, a, b),
            b'L' => self.size = (a as usize).min(LIST),
            b'J' => fill(&mut self.list, a, b),
            b'G' => {
                self.port = Port {
                    pointer: a,
                    data: b as u16,
                    control: c as u16,
                    hollow: d % 2 == 1,
                }
            }
            b'Z' => {
                self.port = Port::reset();
                self.bus.reset();
            }
            _ => return None,
        }
        Some((0, 0, 0))
    }

    fn print(&self, out: &mut impl Write, letter: u8, (number, x, y): Reply) -> io::Result<()> {
        let Port {
            pointer,
            data,
            control,
            hollow,
        } = self.port;
        let (letter, hollow, bus) = (letter as char, u8::from(hollow), self.bus.number());
        write!(out, "{letter} {number:02X} {x:08X} {y:08X} ")?;
        writeln!(
            out,
            "{pointer:08X} {data:04X} {control:04X} {hollow} {bus:02X}"
        )
    }
}

fn reply<T: Into<u32>>((number, x): (u8, T)) -> Reply {
    (number, x.into(), 0)
}

/// R and W by value, H and K in place.
fn host(port: &mut Port, memory: &mut [u16], letter: u8, [register, lanes, c]: [u32; 3]) -> Reply {
    let writes = matches!(letter, b'W' | b'K');
    let access = Access {
        register,
        lanes,
        word: writes.then_some(c as u16),
    };
    if matches!(letter, b'H' | b'K') {
        return host_reply(in_place(port, memory, access));
    }
    let (answer, left) = by_value(*port, memory, access);
    *port = left;
    host_reply(answer)
}

fn host_reply(answer: Answer) -> Reply {
    let mark = if answer.hollow { 16 } else { 0 };
    let cycle = match answer.cycle {
        Cycle::None => 0,
        Cycle::Inside => 1,
        Cycle::Empty => 2,
    };
    (answer.number, u32::from(answer.word), mark + cycle)
}

fn fill(words: &mut [u16], a: u32, b: u32) {
    for (k, word) in words.iter_mut().enumerate() {
        *word = a.wrapping_add(b.wrapping_mul(k as u32)) as u16;
    }
}

/// From 0, for each word: 31 times the digest so far, plus the word, modulo 2^32.
fn digest(words: &[u16]) -> u32 {
    let turn = |h: u32, &word: &u16| h.wrapping_mul(31).wrapping_add(u32::from(word));
    words.iter().fold(0, turn)
}

/// The letter and numbers of a line, if it has the shape of one.
fn parsed(line: &[u8]) -> Option<(u8, [u32; 4])> {
    let (letter, text) = line.strip_suffix(b"\n")?.split_first()?;
    let mut numbers = [0; 4];
    for (k, part) in text.chunks(9).enumerate() {
        let digits = part.strip_prefix(b" ")?;
        let upper = |c: &u8| matches!(c, b'0'..=b'9' | b'A'..=b'F');
        if digits.len() != 8 || !digits.iter().all(upper) {
            return None;
        }
        let digits = std::str::from_utf8(digits).ok()?;
        numbers[k] = u32::from_str_radix(digits, 16).ok()?;
    }
    (line.len() == LINE).then_some((*letter, numbers))
}

/// Carries out a script; what isn't a call ends it with the line `bad script`.
pub fn answers(script: &[u8], out: &mut impl Write) -> io::Result<()> {
    let mut run = Run::new();
    for line in script.chunks(LINE) {
        let call = parsed(line);
        match call.and_then(|(letter, numbers)| Some((letter, run.call(letter, numbers)?))) {
            Some((letter, reply)) => run.print(out, letter, reply)?,
            None => return writeln!(out, "bad script"),
        }
    }
    Ok(())
}
