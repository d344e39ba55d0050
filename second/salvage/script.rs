//! The random script of salvage: sound transcripts and damaged ones, stopped by every refusal of
//! document 02, request (ii), at the start, amid good records and at the end, with room for the run
//! or too little.

use crate::salvage::run::{Record, BYTES, RECORD};
use crate::scripts::random::Random;
use crate::scripts::records::{self, Call};
use crate::transcript::good_run::GoodRun;
use crate::transcript::rooms::{lent, room};
use crate::transcript::strings::{cut, damage, stopped, ByteString};

pub fn script(seed: u64, count: u64) -> Vec<u8> {
    records::script(seed, count, RECORD, |random| {
        scene(random).iter().flat_map(Record::to_bytes).collect()
    })
}

fn scene(random: &Random) -> Vec<Record> {
    match random.below(600) {
        0..=2 => cut_everywhere(random),
        3..=5 => flipped_everywhere(random),
        6 | 7 => every_room(random),
        8 => every_head(random),
        _ => vec![lent_any(random, &string(random))],
    }
}

/// A record with that string and random contents elsewhere, so that what a call must leave can be
/// told from what it writes.
fn filled(random: &Random, string: &[u8]) -> Record {
    let bytes: Vec<u8> = (0..RECORD).map(|_| random.bits() as u8).collect();
    let mut record = Record::parse(&bytes);
    let length = string.len().min(BYTES);
    record.damaged[..length].copy_from_slice(&string[..length]);
    record
}

/// Lends that many bytes of the string, and room for its run, for all of it, or too little.
fn lend(random: &Random, record: &mut Record, length: usize) {
    let run = GoodRun::of(&record.damaged[..length]).end;
    let about_string = random.pick(&[length, length.saturating_sub(1)]);
    let room = match random.below(4) {
        0 => about_string,
        _ => room(random, run, BYTES),
    };
    record.damaged_lent = lent(random, length, BYTES);
    record.room_lent = lent(random, room, BYTES);
}

/// All of a string lent, with some room.
fn lent_any(random: &Random, string: &[u8]) -> Record {
    let mut record = filled(random, string);
    lend(random, &mut record, string.len().min(BYTES));
    record
}

fn string(random: &Random) -> Vec<u8> {
    match random.below(20) {
        0..=2 => ByteString::whole(random).bytes,
        3 => filling(random),
        4 | 5 => cut(random),
        6 => ByteString::with_cut(random).bytes,
        7..=9 => ByteString::damaged(random).bytes,
        10..=18 => stopped(random),
        _ => ByteString::noise(random).bytes,
    }
}

/// A transcript that fills a record's bytes, as far as whole records do, or damaged somewhere.
fn filling(random: &Random) -> Vec<u8> {
    let mut bytes = ByteString::of(random, BYTES).bytes;
    bytes.truncate(BYTES);
    match random.below(3) {
        0 => damage(random, &mut bytes),
        1 => {}
        _ => bytes.truncate(GoodRun::of(&bytes).end),
    }
    bytes
}

/// Every beginning of a string, from none of it to all; what is cut off lies beyond the lent bytes.
fn cut_everywhere(random: &Random) -> Vec<Record> {
    let string = match random.below(3) {
        0 => stopped(random),
        _ => ByteString::of(random, 2 + random.below(8) as usize).bytes,
    };
    let mut record = filled(random, &string);
    let beginning = |length| {
        lend(random, &mut record, length);
        record.clone()
    };
    (0..=string.len().min(BYTES)).map(beginning).collect()
}

/// A transcript with one byte's top bit flipped, for each of its bytes.
fn flipped_everywhere(random: &Random) -> Vec<Record> {
    let string = ByteString::of(random, 2 + random.below(8) as usize).bytes;
    let flipped = |place: usize| {
        let mut string = string.clone();
        string[place] ^= 0x80;
        lent_any(random, &string)
    };
    (0..string.len()).map(flipped).collect()
}

/// Every room for the run of a string, from none to a little more than it takes.
fn every_room(random: &Random) -> Vec<Record> {
    let string = stopped(random);
    let mut record = lent_any(random, &string);
    let run = GoodRun::of(&record.damaged[..string.len().min(BYTES)]).end;
    let with_room = |room| {
        record.room_lent = room as u8;
        record.clone()
    };
    (0..=run + 2).map(with_room).collect()
}

/// Every head from 0 to 40 after some good records, with anything after it.
fn every_head(random: &Random) -> Vec<Record> {
    let started = ByteString::begun(random).bytes;
    let with_head = |head: u8| {
        let after = string(random);
        lent_any(random, &[&started[..], &[head], &after].concat())
    };
    (0..=40).map(with_head).collect()
}
