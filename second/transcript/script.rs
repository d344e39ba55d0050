//! The random script of transcripts: about two in five are accepted, the others meet every refusal
//! of document 02, request (ii), by several causes, often by two at once.

use crate::scripts::random::Random;
use crate::scripts::records::{self, Call};
use crate::transcript::accesses::{good, spoil, word};
use crate::transcript::groups;
use crate::transcript::list::{Access, PLACES};
use crate::transcript::rooms::{lent, lent_slices, room};
use crate::transcript::run::{Record, BYTES, RECORD};
use crate::transcript::strings::ByteString;
use crate::transcript::writer::encoded;

pub fn script(seed: u64, count: u64) -> Vec<u8> {
    records::script(seed, count, RECORD, |random| {
        scene(random).iter().flat_map(Record::to_bytes).collect()
    })
}

fn scene(random: &Random) -> Vec<Record> {
    match random.below(400) {
        0..=2 => cut_everywhere(random),
        3 => every_head(random),
        4..=210 => vec![list(random)],
        _ => vec![reading(random, &byte_string(random))],
    }
}

/// A record with random contents, so that what a call must leave can be told from what it writes.
fn filled(random: &Random) -> Record {
    let bytes: Vec<u8> = (0..RECORD).map(|_| random.bits() as u8).collect();
    Record::parse(&bytes)
}

/// A list for the writer: good, or bad in one or two points.
fn list(random: &Random) -> Record {
    let mut record = filled(random);
    record.side &= !1;
    let length = random.pick(&[0, 1, 1, 2, 2, 3, 3, 4, 4, 5, 5, 6, 6]);
    let mut accesses: [Access; PLACES] = std::array::from_fn(|_| good(random));
    let needed = accesses.into_iter().take(length).flat_map(encoded).count();
    let room = room(random, needed, BYTES);
    record.bytes_lent = lent(random, room, BYTES);
    record.places_lent = lent_slices(random, length);
    if random.below(5) < 2 {
        spoil_some(random, &mut accesses, length);
    }
    // What lies beyond the list is as good as the list, or anything.
    let set = random.pick(&[length, PLACES]);
    for (k, access) in accesses.into_iter().take(set).enumerate() {
        for (part, value) in record.parts.iter_mut().zip(access) {
            part[k] = value;
        }
    }
    record
}

/// Makes one or two parts bad, of one access or of two, mostly within the list.
fn spoil_some(random: &Random, accesses: &mut [Access; PLACES], length: usize) {
    let any = || {
        let within = random.below(length.max(1) as u32);
        random.pick(&[within, within, within, random.below(PLACES as u32)]) as usize
    };
    let first = any();
    let second = random.pick(&[first, any()]);
    let part = random.below(4) as usize;
    let other = (part + 1 + random.below(3) as usize) % 4;
    spoil(random, &mut accesses[first], part);
    if random.one_in(2) {
        spoil(random, &mut accesses[second], other);
    }
}

fn byte_string(random: &Random) -> ByteString {
    match random.below(20) {
        0..=11 => ByteString::whole(random),
        12 | 13 => ByteString::damaged(random),
        14..=17 => ByteString::with_bad(random),
        18 => ByteString::with_cut(random),
        _ => ByteString::noise(random),
    }
}

/// A byte string for the reader, with lists that have room for its records or not.
fn reading(random: &Random, string: &ByteString) -> Record {
    let mut record = filled(random);
    record.side |= 1;
    let length = string.bytes.len().min(BYTES);
    record.bytes[..length].copy_from_slice(&string.bytes[..length]);
    record.bytes_lent = lent(random, length, BYTES);
    record.places_lent = lent_slices(random, room(random, string.records, PLACES));
    record
}

/// Every beginning of a byte string, from none of it to all; what is cut off lies beyond the lent
/// bytes.
fn cut_everywhere(random: &Random) -> Vec<Record> {
    let string = match random.below(3) {
        0 => ByteString::with_bad(random),
        _ => ByteString::of(random, 2 + random.below(5) as usize),
    };
    let whole = reading(random, &string);
    let length = string.bytes.len().min(BYTES) as u8;
    (0..=length)
        .map(|bytes_lent| Record {
            bytes_lent,
            places_lent: lent_slices(random, room(random, PLACES, PLACES)),
            ..whole.clone()
        })
        .collect()
}

/// Every head from 0 to 40 as the first byte, with a word, something else or both after it.
fn every_head(random: &Random) -> Vec<Record> {
    let started_by = |head: u8| {
        let mut bytes = vec![head];
        if random.one_in(2) {
            bytes.extend(groups::encoded(word(random).into()));
        }
        let rest = byte_string(random);
        bytes.extend(rest.bytes);
        let records = rest.records + 1;
        reading(random, &ByteString { bytes, records })
    };
    (0..=40).map(started_by).collect()
}
