//! Bit fields in memory, bit by bit as they are defined: document 01, "Fields".

pub mod script;

use crate::port::too_long;
use crate::refusal::none_of;

/// The first and the last word touched; wide, so that nothing wraps near 2^32.
fn touched(address: u32, size: u32) -> (u64, u64) {
    let last_bit = u64::from(address) + u64::from(size.max(1)) - 1;
    (u64::from(address) / 16, last_bit / 16)
}

/// "Tested in this order: 11 first, then as numbered." Number 11 is the C door's alone. A size of 0
/// is refused before it matters what it touches.
fn judged(memory: &[u16], address: u32, size: u32) -> Result<(), u8> {
    let (first, last) = touched(address, size);
    none_of(&[
        (too_long(memory), 1),
        (!(1..=32).contains(&size), 4),
        (last - first + 1 > 3, 5),
        (last >= memory.len() as u64, 6),
    ])
}

/// The word and the bit of it that hold a bit of the field: "its bit i is memory bit address + i".
fn place(address: u32, i: u32) -> (usize, usize) {
    let bit = address as usize + i as usize;
    (bit / 16, bit % 16)
}

/// Number, value and cycles. "Taking one out gives the unsigned number, or on request the signed
/// one: less 2^size if the top bit is set." "The answer counts memory cycles: taking out, one per
/// word touched".
pub fn take(memory: &[u16], address: u32, size: u32, signed: bool) -> (u8, i64, u32) {
    if let Err(number) = judged(memory, address, size) {
        return (number, 0, 0);
    }
    let mut value = 0;
    for i in 0..size {
        let (word, bit) = place(address, i);
        value |= i64::from(memory[word] >> bit & 1) << i;
    }
    if signed && value >= 1 << (size - 1) {
        value -= 1 << size;
    }
    let (first, last) = touched(address, size);
    (0, value, (last - first + 1) as u32)
}

/// Number and cycles. "Putting one in uses the value modulo 2^size and changes no other bit." "The
/// answer counts memory cycles: [..] putting in, one for a word wholly covered, two (read, write)
/// for one partly covered".
pub fn put(memory: &mut [u16], address: u32, size: u32, value: u32) -> (u8, u32) {
    if let Err(number) = judged(memory, address, size) {
        return (number, 0);
    }
    let (first, last) = touched(address, size);
    for i in 0..size {
        let (word, bit) = place(address, i);
        memory[word] = memory[word] & !(1 << bit) | ((value >> i & 1) as u16) << bit;
    }
    let end = u64::from(address) + u64::from(size);
    let whole = |word: u64| u64::from(address) <= word * 16 && word * 16 + 16 <= end;
    let cycles = |word| if whole(word) { 1 } else { 2 };
    (0, (first..=last).map(cycles).sum())
}
