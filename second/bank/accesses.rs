//! Accesses for the script of the bank selects: where the index starts, which lanes are used, and
//! which words are written.

use crate::bank::maps::map;
use crate::bank::places::{Place, Register, PLACES};
use crate::bank::Bridge;
use crate::scripts::random::Random;

/// An index: a place, or above 15 a number that stands for one.
pub fn index(random: &Random) -> u32 {
    let place = random.below(PLACES);
    let high = random.pick(&[1 << 4, 1 << 8, 1 << 16, 1 << 31, u32::MAX - 15]);
    match random.below(12) {
        0..=5 => place,
        6 => random.pick(&[0, 7, 8, 14, 15, 16, 17, 31, 32, u32::MAX]),
        7 => random.bits(),
        _ => place + high,
    }
}

/// Lanes that are refused: of one byte, or none. Some are none only by their high bits.
pub fn other_lanes(random: &Random) -> u32 {
    let high = random.pick(&[1 << 8, 1 << 16, 1 << 24, 1 << 31]);
    let above = random.pick(&[0, 1, 2, 3, 3]) + high;
    let other = random.pick(&[5, 6, 8, 255, u32::MAX, random.bits()]);
    random.pick(&[0, 0, 1, 1, 2, 2, 4, 4, 7, above, above, other])
}

/// Mostly lanes 3.
pub fn lanes(random: &Random) -> u32 {
    match random.below(5) {
        0 => other_lanes(random),
        _ => 3,
    }
}

/// A word to write where the index is, often one that moves a bank's range over an address, off it,
/// or not at all.
pub fn word(random: &Random, bridge: &Bridge, address: u32) -> u16 {
    let place = Place::of(bridge.index);
    let old = place.get(&bridge.banks);
    let half = address >> random.pick(&[0, 16]);
    match random.below(10) {
        0 | 1 => old ^ 1 << random.below(16),
        2 => old,
        3 if place.register == Register::Compare => half as u16,
        3 | 4 => place.get(&map(random)),
        5 => random.pick(&[0, 0xFFFF, 0xFF, 0xFF00]),
        6 => (u32::MAX << random.below(16)) as u16,
        _ => random.bits() as u16,
    }
}
