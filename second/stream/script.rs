//! The random script of streams: sound ones and such as hold bad records of every kind, cut in
//! every way, with room for what they hand out or too little, up to the limit of a stream and
//! beyond (document 02, request (vii)).

use crate::scripts::random::Random;
use crate::stream::cuts::{before, pieces};
use crate::stream::run::BYTES;
use crate::stream::sender::Sender;
use crate::stream::MOST;
use crate::transcript::strings::{bad, cut, stopped, ByteString};

/// About as many bytes as a stream has, at the most.
const LONGEST: usize = 60;

/// A script of that many streams.
pub fn script(seed: u64, count: u64) -> Vec<u8> {
    let count = count as usize;
    let mut sender = Sender::new(seed);
    while sender.streams() < count {
        scene(&mut sender);
    }
    sender.script(count)
}

fn scene(sender: &mut Sender) {
    match sender.below(200) {
        0 => in_two_everywhere(sender),
        1 => limit_everywhere(sender),
        2..=11 => bad_behind_too_many(sender),
        _ => any(sender),
    }
}

/// A string for one stream.
pub fn string(random: &Random) -> Vec<u8> {
    let mut bytes = match random.below(20) {
        0..=6 => ByteString::whole(random).bytes,
        7 | 8 => ByteString::damaged(random).bytes,
        9..=14 => stopped(random),
        15 | 16 => ByteString::with_cut(random).bytes,
        17 | 18 => cut(random),
        _ => ByteString::noise(random).bytes,
    };
    bytes.truncate(LONGEST);
    bytes
}

/// A string that one delivery can hold.
fn short_string(random: &Random) -> Vec<u8> {
    let mut bytes = string(random);
    bytes.truncate(BYTES);
    bytes
}

/// Any string in any deliveries.
fn any(sender: &mut Sender) {
    let pieces = pieces(sender, &string(sender));
    sender.start(before(sender, &pieces));
    for piece in pieces {
        if sender.through() && !sender.one_in(4) {
            break;
        }
        sender.send(&piece);
    }
    finish(sender);
}

/// Nearly always the end, and sometimes calls after it, or after a refusal.
fn finish(sender: &mut Sender) {
    let left_out = if sender.ended() { 3 } else { 12 };
    if !sender.one_in(left_out) {
        sender.end();
    }
    while sender.ended() && sender.one_in(3) {
        more(sender);
    }
}

/// A call that must be refused because the stream has ended.
fn more(sender: &mut Sender) {
    let mut bytes = ByteString::of(sender, 1 + sender.below(3) as usize).bytes;
    match sender.below(5) {
        0 => return sender.end(),
        1 => bytes.clear(),
        2 => bytes.extend(bad(sender)),
        _ => {}
    }
    bytes.truncate(BYTES);
    sender.deliver(&bytes, sender.pick(&[0, 6, 6]));
}

/// A string in two deliveries, cut at every place, before its first byte and after its last.
fn in_two_everywhere(sender: &mut Sender) {
    let string = short_string(sender);
    for place in 0..=string.len() {
        let (first, second) = string.split_at(place);
        sender.start(0);
        sender.send(first);
        sender.send(second);
        finish(sender);
    }
}

/// A string that is delivered where the stream has only so many bytes left: none, then one more
/// each time, until all of it fits.
fn limit_everywhere(sender: &mut Sender) {
    let string = short_string(sender);
    for place in 0..=string.len() {
        sender.start(MOST as u32 - place as u32);
        sender.send(&string);
        finish(sender);
    }
}

/// A delivery with too many records for the list, and a bad one behind them; then the same with
/// room. The first record may have begun before.
fn bad_behind_too_many(sender: &mut Sender) {
    let records = 1 + sender.below(6) as usize;
    let mut string = ByteString::of(sender, records).bytes;
    let begun = sender.pick(&[0, 0, 1, 2]).min(string.len() - 1);
    string.extend(bad(sender));
    let (first, second) = string.split_at(begun);
    let second = &second[..second.len().min(BYTES)];
    sender.start(sender.pick(&[0, 0, sender.bits()]));
    sender.deliver(first, 1);
    let needed = sender.needed(second);
    sender.deliver(second, needed.saturating_sub(1));
    sender.deliver(second, needed);
    finish(sender);
}
