//! The script of fields: each of the 512 pairs of size and starting bit, put in and taken out
//! (document 01, "Fields").

use crate::calls::maker::Maker;
use crate::port::{INCR, INCW};

const WORDS: u32 = 5;
const PATTERN: u32 = 0xA5C3_96E1;
/// The number of calls between two digests: the words near the field are seen after each put.
const EVERY: u64 = 400;

pub fn script() -> Vec<u8> {
    let mut make = Maker::new(0, EVERY);
    for (a, b) in [(0, 0), (0xFFFF, 0), (0x3C5A, 0x2B67)] {
        make.call('N', &[WORDS]);
        make.call('J', &[a, b]);
        over_all_pairs(&mut make);
    }
    for size in 1..=32 {
        for bit in 0..16 {
            at_the_end(&mut make, size, bit);
        }
    }
    for bit in 0..16 {
        wrong_sizes(&mut make, bit);
    }
    make.call('D', &[]);
    make.lines
}

fn over_all_pairs(make: &mut Maker) {
    for pair in 0..512 {
        let (size, bit) = (1 + pair / 16, pair % 16);
        let pattern = PATTERN.rotate_left(pair % 31);
        for value in [u32::MAX, pattern, !pattern] {
            put_and_see(make, pair, 16 + bit, size, value);
        }
    }
}

/// The memory is set from the list by a block write, so that no fill of the whole room is needed;
/// the place differs from pair to pair, so the pattern does too.
fn put_and_see(make: &mut Maker, pair: u32, address: u32, size: u32, value: u32) {
    make.call('G', &[0, 0, u32::from(INCW | INCR), 0]);
    make.call('O', &[pair * 7, 0, WORDS]);
    make.call('F', &[address, size, value]);
    make.call('T', &[address, size]);
    make.call('S', &[address, size]);
    for seen in [0, 32, 48] {
        make.call('T', &[seen, 32]);
    }
}

/// The field in a memory that ends with its last word, and in one that lacks it.
fn at_the_end(make: &mut Maker, size: u32, bit: u32) {
    let last = (bit + size - 1) / 16;
    make.call('N', &[last]);
    make.call('F', &[bit, size, PATTERN]);
    make.call('T', &[bit, size]);
    make.call('N', &[last + 1]);
    make.call('F', &[bit, size, PATTERN]);
    make.call('S', &[bit, size]);
}

/// Sizes that no field has, inside memory and past its end.
fn wrong_sizes(make: &mut Maker, bit: u32) {
    make.call('N', &[WORDS]);
    for address in [bit, WORDS * 16 + bit] {
        for size in [0, 33] {
            make.call('F', &[address, size, PATTERN]);
            make.call('T', &[address, size]);
            make.call('S', &[address, size]);
        }
    }
}
