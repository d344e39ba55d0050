//! Cycles for the script of the bank selects: kinds, control words, and addresses that lie in a
//! bank's range or beside it.

use crate::bank::maps::{ENDS, TURN};
use crate::bank::run::Cycle;
use crate::bank::{Bank, BANKS};
use crate::scripts::random::Random;

const REFRESH: u32 = 1;

/// Any cycle, mostly near what one of the banks matches.
pub fn cycle(random: &Random, banks: &[Bank; BANKS]) -> Cycle {
    let kind = kind(random);
    let mut address = address(random, random.pick(banks));
    if kind == REFRESH && random.one_in(2) {
        address = address & !TURN | random.below(4) << 16;
    }
    Cycle {
        kind,
        address,
        control: control(random),
    }
}

/// The same cycle again, or with one part of it changed.
pub fn again(random: &Random, mut cycle: Cycle) -> Cycle {
    match random.below(8) {
        0 => cycle.kind = kind(random),
        1 => cycle.kind = random.below(3),
        2 => cycle.control = control(random),
        3 => cycle.control ^= 1 << random.below(16),
        4 => cycle.address ^= 1 << random.below(32),
        _ => {}
    }
    cycle
}

/// A kind; about one in six isn't known, some of these only by their high bytes.
fn kind(random: &Random) -> u32 {
    let low = random.below(4);
    let high = random.pick(&[1 << 8, 1 << 16, 1 << 24, 1 << 31]);
    match random.below(18) {
        0..=4 => 0,
        5..=9 => REFRESH,
        10..=14 => 2,
        15 => 3,
        16 => random.pick(&[4, 5, 6, 7, 255, u32::MAX, random.bits()]),
        _ => low + high,
    }
}

/// Four bits, one for each bank.
fn four(random: &Random) -> u32 {
    let one = 1 << random.below(4);
    random.pick(&[0, 15, one, 15 - one, random.below(16), random.below(16)])
}

fn control(random: &Random) -> u16 {
    let one = 1 << random.below(16);
    let fields = four(random) << 12
        | four(random) << 8
        | random.below(4) << 6
        | random.below(2) << 5
        | random.below(32);
    let word = match random.below(12) {
        0 => random.bits(),
        1 => random.pick(&[0, u32::MAX]),
        2 => random.pick(&[one, !one]),
        _ => fields,
    };
    word as u16
}

/// One of the bits that a mask allows, or none if there isn't any.
fn allowed_bit(random: &Random, mask: u32) -> u32 {
    let ends = if random.one_in(3) { mask & ENDS } else { 0 };
    let from = if ends == 0 { mask } else { ends };
    let bits: Vec<u32> = (0..32)
        .map(|k| 1 << k)
        .filter(|bit| from & bit != 0)
        .collect();
    match bits[..] {
        [] => 0,
        _ => random.pick(&bits),
    }
}

/// An address in the bank's range, at its ends, just outside, one allowed bit off, or anywhere.
fn address(random: &Random, bank: Bank) -> u32 {
    let Bank { compare, mask } = bank;
    let inside = compare & mask | random.bits() & !mask;
    let (first, last) = (compare & mask, compare | !mask);
    let few = (0..3).fold(0, |bits, _| bits | 1 << random.below(32));
    match random.below(24) {
        0..=7 => inside,
        8..=12 => inside ^ allowed_bit(random, mask),
        13 => first,
        14 => last,
        15 => first.wrapping_sub(1),
        16 => last.wrapping_add(1),
        17 | 18 => compare ^ few,
        19 => compare ^ few & mask,
        20 => compare ^ few & !mask,
        21 => compare,
        22 => random.pick(&[0, u32::MAX]),
        _ => random.bits(),
    }
}
