//! Contents of the registers for the script of the bank selects: 001's sample map, empty and full
//! ones, ranges, single bits, and maps under which several banks match at once.

use crate::bank::{Bank, BANKS};
use crate::scripts::random::Random;

const fn bank(compare: u32, mask: u32) -> Bank {
    Bank { compare, mask }
}

/// 001's sample map: the registers of the palette chip, then three ranges of "1M-Byte", 8,388,608
/// bits each.
pub const SAMPLE: [Bank; BANKS] = [
    bank(0xC000_2000, 0xFFFF_FE00),
    bank(0xFF80_0000, 0xFF80_0000),
    bank(0x0180_0000, 0xFF80_0000),
    bank(0x0100_0000, 0xFF80_0000),
];

/// The bits at the ends of the two halves, where a comparison is most easily cut short.
pub const ENDS: u32 = 0x8001_8001;

/// Address bits 17 and 16, which tell whose turn a refresh is.
pub const TURN: u32 = 3 << 16;

pub fn map(random: &Random) -> [Bank; BANKS] {
    match random.below(16) {
        0 => [bank(random.pick(&[0, random.bits()]), 0); BANKS],
        1 => [bank(u32::MAX, u32::MAX); BANKS],
        2 => std::array::from_fn(|_| bank(random.bits(), random.bits())),
        3 | 4 => SAMPLE,
        5..=8 => overlapping(random),
        _ => mixed(random),
    }
}

/// A mask for one bank.
fn mask(random: &Random) -> u32 {
    let (one, two, three) = (random.bits(), random.bits(), random.bits());
    let single = 1 << random.below(32);
    match random.below(14) {
        0 => 0,
        1 | 2 => u32::MAX,
        3..=5 => u32::MAX << random.below(32),
        6 => single,
        7 => !single,
        8 => one & two & three,
        9 => one | two | three,
        10 => random.pick(&[0xFFFF_0000, 0x0000_FFFF]),
        11 => random.pick(&[ENDS, !ENDS, ENDS & one]),
        12 => SAMPLE[random.below(4) as usize].mask,
        _ => one,
    }
}

/// Banks about one value, each with a range or a few bits of its own, so that several match. Often
/// the bits that tell the turn of a refresh are disregarded.
fn overlapping(random: &Random) -> [Bank; BANKS] {
    let middle = random.bits();
    let disregarded = random.pick(&[0, TURN, TURN, u32::MAX]);
    std::array::from_fn(|_| {
        let near = middle ^ random.pick(&[0, 0, 0, 1 << random.below(32)]);
        let few = random.bits() & random.bits();
        let masks = [u32::MAX << random.below(32), few, u32::MAX, mask(random)];
        bank(near, random.pick(&masks) & !disregarded)
    })
}

/// Banks of any sort; some have the compare value of the one before, or one near it.
fn mixed(random: &Random) -> [Bank; BANKS] {
    let mut before = random.bits();
    std::array::from_fn(|_| {
        let mask = mask(random);
        let any = random.bits();
        let near = before ^ 1 << random.below(32);
        before = random.pick(&[any, any, any & mask, before, near, 0, u32::MAX]);
        bank(before, mask)
    })
}
