//! Byte strings for the scripts of transcripts, of salvage and of streams: whole transcripts,
//! damaged ones, and such as hold a record that is bad in one way or another.

use crate::scripts::random::Random;
use crate::transcript::accesses::{good, word};
use crate::transcript::groups::{encoded, MORE};
use crate::transcript::run::BYTES;
use crate::transcript::writer;

/// A byte string, and about how many good records it has, by which room is lent for them.
pub struct ByteString {
    pub bytes: Vec<u8>,
    pub records: usize,
}

impl ByteString {
    /// A transcript of that many records.
    pub fn of(random: &Random, records: usize) -> ByteString {
        let accesses = (0..records).map(|_| good(random));
        let bytes = accesses.flat_map(writer::encoded).collect();
        ByteString { bytes, records }
    }

    pub fn whole(random: &Random) -> ByteString {
        let records = random.pick(&[0, 1, 1, 2, 2, 3, 3, 4, 4, 5, 6, 6, 7, 9]);
        match random.below(30) {
            0 => ByteString::of_reads(random),
            _ => ByteString::of(random, records),
        }
    }

    /// A transcript of reads only, perhaps of as many as the bytes can hold.
    fn of_reads(random: &Random) -> ByteString {
        let records = random.pick(&[6, 7, BYTES - 1, BYTES]);
        let bytes = (0..records).map(|_| read_head(random)).collect();
        ByteString { bytes, records }
    }

    /// A transcript that a line fault or two has spoiled.
    pub fn damaged(random: &Random) -> ByteString {
        let mut string = ByteString::whole(random);
        for _ in 0..1 + random.below(2) {
            damage(random, &mut string.bytes);
        }
        string
    }

    /// What comes before a bad record: good ones, perhaps none.
    pub fn begun(random: &Random) -> ByteString {
        ByteString::of(random, random.pick(&[0, 0, 1, 1, 2, 3, 5, 7]))
    }

    /// Good records, then a bad one, and perhaps more of either; the first bad one counts.
    pub fn with_bad(random: &Random) -> ByteString {
        let mut string = ByteString::begun(random);
        string.bytes.extend(bad(random));
        match random.below(4) {
            0 => string.bytes.extend(bad(random)),
            1 => string.bytes.extend(ByteString::of(random, 2).bytes),
            _ => {}
        }
        string
    }

    /// Good records, then one that ends too early.
    pub fn with_cut(random: &Random) -> ByteString {
        let mut string = ByteString::begun(random);
        if random.one_in(2) {
            string.bytes.push(write_head(random));
        }
        let first = random.pick(&[MORE, MORE, 0x81, 0x84, 0xFF]);
        let most = random.pick(&[1, 2, 4, 60]);
        let others = random.below(most) as usize;
        string.bytes.push(first);
        string.bytes.extend(continued(random, others));
        string
    }

    /// Bytes without any order.
    pub fn noise(random: &Random) -> ByteString {
        let top = random.pick(&[0x1F, 0x9F, 0xFF]);
        let length = random.pick(&[1, 2, 3, 4, 8, BYTES]);
        let bytes = (0..length).map(|_| random.bits() as u8 & top).collect();
        ByteString { bytes, records: 3 }
    }
}

fn read_head(random: &Random) -> u8 {
    (8 + 2 * random.below(12)) as u8
}

pub fn write_head(random: &Random) -> u8 {
    read_head(random) + 1
}

/// Bytes of a number that none of them ends.
pub fn continued(random: &Random, length: usize) -> Vec<u8> {
    let byte = |_| MORE | random.bits() as u8;
    (0..length).map(byte).collect()
}

/// One byte changed, one bit flipped, a byte put in, one taken out, or two swapped.
pub fn damage(random: &Random, bytes: &mut Vec<u8>) {
    let length = bytes.len() as u32;
    let any = random.bits() as u8;
    let new = random.pick(&[any, MORE, any % 32]);
    let place = random.below(length + 1) as usize;
    if place == bytes.len() {
        return bytes.push(new);
    }
    let other = random.below(length) as usize;
    match random.below(5) {
        0 => bytes[place] = new,
        1 => bytes[place] ^= 1 << random.below(8),
        2 => bytes.insert(place, new),
        3 => drop(bytes.remove(place)),
        _ => bytes.swap(place, other),
    }
}

/// A transcript that ends too early, perhaps after the head of a write.
pub fn cut(random: &Random) -> Vec<u8> {
    let mut bytes = ByteString::begun(random).bytes;
    match random.below(3) {
        0 => bytes.push(write_head(random)),
        _ => bytes.truncate(random.below(bytes.len() as u32 + 1) as usize),
    }
    bytes
}

/// Good records, a bad one, and then the end, good records, more bad ones or anything. None of what
/// follows the bad one may be kept.
pub fn stopped(random: &Random) -> Vec<u8> {
    let mut bytes = ByteString::begun(random).bytes;
    bytes.extend(bad(random));
    match random.below(6) {
        0 | 1 => {}
        2 | 3 => bytes.extend(ByteString::of(random, 1 + random.below(9) as usize).bytes),
        4 => bytes.extend([bad(random), ByteString::whole(random).bytes].concat()),
        _ => bytes.extend(ByteString::noise(random).bytes),
    }
    bytes
}

/// A bad record. What follows its bad number must not matter.
pub fn bad(random: &Random) -> Vec<u8> {
    if random.one_in(2) {
        let mut bytes = vec![write_head(random)];
        bytes.extend(bad_number(random, word(random), 65_536));
        return bytes;
    }
    let head = 8 + random.below(24);
    let mut bytes = match random.below(3) {
        0 => vec![random.below(8) as u8],
        _ => bad_number(random, head, 32),
    };
    match random.below(6) {
        0 => bytes.extend(continued(random, 2)),
        1 => bytes.extend(bad_number(random, word(random), 65_536)),
        2 => {}
        _ => bytes.extend(encoded(word(random).into())),
    }
    bytes
}

/// A bad number made from a good one: as large as that limit or larger, or with a leading zero
/// group, or both.
fn bad_number(random: &Random, good: u32, limit: u32) -> Vec<u8> {
    let zeros = 1 + random.below(3) as usize;
    let led = |bytes: Vec<u8>| [vec![MORE; zeros], bytes].concat();
    match random.below(12) {
        0..=2 => led(encoded(good.into())),
        3 => led(encoded(random.below(8).into())),
        4 => led(too_large(random, good, limit)),
        5 | 6 => long(random, good),
        _ => too_large(random, good, limit),
    }
}

/// A number that is the limit or a little more, one that is good modulo 2^16, 2^32 or 2^64 or so,
/// or any.
fn too_large(random: &Random, good: u32, limit: u32) -> Vec<u8> {
    let near = limit + random.pick(&[0, 0, 0, random.below(9), limit]);
    let bits = random.pick(&[16, 16, 32, 32, 64, 64, 17, 31, 63, 70]);
    let high = u128::from(random.pick(&[1, 1, 1 + random.below(300)]));
    let far = u128::from(good) + (high << bits);
    let any = u128::from(random.bits()) + u128::from(limit);
    let near = u128::from(near);
    encoded(random.pick(&[near, near, near, far, far, far, any]))
}

/// A number of many bytes, the last groups of which are those of a good one.
fn long(random: &Random, good: u32) -> Vec<u8> {
    let end = encoded(good.into());
    let zeros = random.pick(&[3, 5, 10]) - end.len();
    let all = 58 - zeros as u32;
    let most = random.pick(&[4, all, all]);
    let first = random.pick(&[MORE, 0x81, 0xFF, 0x81 + random.below(127) as u8]);
    let length = random.below(most) as usize;
    let middle = match random.below(2) {
        0 => vec![MORE; length],
        _ => continued(random, length),
    };
    [vec![first], middle, vec![MORE; zeros], end].concat()
}
