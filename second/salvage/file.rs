//! A long damaged transcript, made from a seed for a run of the program `salvage`: a sound run,
//! then one kind of damage, early, in the middle or late, or none at all (document 02, request
//! (xii)).

use crate::scripts::random::Random;
use crate::transcript::accesses::good;
use crate::transcript::groups::MORE;
use crate::transcript::strings::{bad, continued, damage, write_head};
use crate::transcript::writer::encoded;

/// A read, in the one byte of its head.
const READ: u8 = 8;

/// A file of that many bytes. The kind of its damage goes by the seed's last digit, all else is
/// random.
pub fn file(seed: u64, length: u64) -> Vec<u8> {
    let random = Random::new(seed);
    let length = length as usize;
    let place = place(&random, length);
    let rest = length - place;
    let not_zero_led = 0x81 + random.below(127) as u8;
    let mut file = sound(&random, place);
    file.extend(match seed % 10 {
        0 => sound(&random, rest),
        1 => spoiled(&random, rest),
        2 => without_word(&random, rest),
        3 => bad(&random),
        4 => vec![random.below(8) as u8],
        5 => noise(&random, rest),
        6 => endless(&random, not_zero_led, rest),
        7 => endless(&random, MORE, rest),
        8 => ended(&random, not_zero_led, rest),
        _ => ended(&random, MORE, rest),
    });
    let more = length.saturating_sub(file.len());
    file.extend(sound(&random, more));
    file.truncate(length);
    file
}

/// Where the damage begins.
fn place(random: &Random, length: usize) -> usize {
    let below = |most: usize| random.below(most as u32 + 1) as usize;
    let early = below(length.min(64));
    let late = length - below(length / 8);
    random.pick(&[early, below(length), late])
}

/// Good records that take exactly that many bytes.
fn sound(random: &Random, length: usize) -> Vec<u8> {
    let mut bytes = Vec::with_capacity(length);
    while bytes.len() < length {
        let record = encoded(good(random));
        let fits = record.len() <= length - bytes.len();
        bytes.extend(if fits { record } else { vec![READ] });
    }
    bytes
}

/// Good records that a line fault or a few have spoiled, or have turned into others.
fn spoiled(random: &Random, length: usize) -> Vec<u8> {
    let mut bytes = sound(random, length);
    for _ in 0..1 + random.below(3) {
        damage(random, &mut bytes);
    }
    bytes
}

/// Good records, and at the end a write without its word.
fn without_word(random: &Random, length: usize) -> Vec<u8> {
    let mut bytes = sound(random, length.saturating_sub(1));
    bytes.push(write_head(random));
    bytes
}

fn noise(random: &Random, length: usize) -> Vec<u8> {
    (0..length).map(|_| random.bits() as u8).collect()
}

/// A number with that first byte, a head or a word, that the bytes up to that length don't end.
fn endless(random: &Random, first: u8, length: usize) -> Vec<u8> {
    let mut bytes = vec![first];
    if random.one_in(2) {
        bytes.insert(0, write_head(random));
    }
    bytes.extend(continued(random, length));
    bytes
}

/// The same number ended, after thousands of bytes if there are as many, by the byte of a good one.
fn ended(random: &Random, first: u8, length: usize) -> Vec<u8> {
    let others = 1_000 + random.below(9_000) as usize;
    let mut bytes = endless(random, first, others.min(length.saturating_sub(3)));
    bytes.push(READ);
    bytes
}
