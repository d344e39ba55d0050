//! The sender of the script of streams: it makes the calls of one stream after the other, and knows
//! from the model what becomes of each.

use crate::scripts::random::Random;
use crate::scripts::sequences::Sequences;
use crate::stream::found::Found;
use crate::stream::run::{Record, BYTES, DELIVER, END, RECORD, START};
use crate::stream::Stream;
use crate::stream::MOST;
use crate::transcript::list::PLACES;
use crate::transcript::rooms::{lent, lent_slices, room};
use std::ops::Deref;

pub struct Sender {
    random: Random,
    stream: Stream,
    script: Sequences,
}

impl Sender {
    pub fn new(seed: u64) -> Sender {
        Sender {
            random: Random::new(seed),
            stream: Stream::new(0),
            script: Sequences::default(),
        }
    }

    pub fn streams(&self) -> usize {
        self.script.count()
    }

    /// The calls of the first so many streams.
    pub fn script(self, streams: usize) -> Vec<u8> {
        self.script.first(streams)
    }

    /// Whether the stream has ended, by the end or by a refusal.
    pub fn ended(&self) -> bool {
        self.stream.ended
    }

    /// Whether the stream takes no more bytes: it has ended, or is as long as it may be.
    pub fn through(&self) -> bool {
        self.ended() || self.stream.taken == MOST
    }

    /// How many places the records need that a delivery would finish.
    pub fn needed(&self, bytes: &[u8]) -> usize {
        Found::new(&self.stream, bytes).accesses.len()
    }

    /// A record that does that, with random contents elsewhere, which play no part.
    fn filled(&self, deed: u8) -> Record {
        let bytes: Vec<u8> = (0..RECORD).map(|_| self.bits() as u8).collect();
        let mut record = Record::parse(&bytes);
        record.deed = 3 * self.below(85) as u8 + deed;
        record
    }

    /// Adds a call, and gives the number that it answers.
    fn call(&mut self, record: Record) -> u8 {
        self.script.add(&record.to_bytes());
        record.call(&mut self.stream).0.number
    }

    /// Begins a stream. Its fresh start may be forgotten if the one before has ended: then all that
    /// follows is refused.
    pub fn start(&mut self, before: u32) {
        self.script.begin();
        if self.ended() && self.one_in(12) {
            return;
        }
        let mut record = self.filled(START);
        record.before = before;
        self.call(record);
    }

    pub fn end(&mut self) {
        self.call(self.filled(END));
    }

    /// Delivers at most 24 bytes, with room for that many records.
    pub fn deliver(&mut self, bytes: &[u8], room: usize) -> u8 {
        let mut record = self.filled(DELIVER);
        record.string[..bytes.len()].copy_from_slice(bytes);
        record.delivered = lent(self, bytes.len(), BYTES);
        record.places_lent = lent_slices(self, room.min(PLACES));
        self.call(record)
    }

    /// Delivers bytes with some room. What is refused for the room or for the stream's length is
    /// mostly sent again in another way.
    pub fn send(&mut self, bytes: &[u8]) {
        let needed = self.needed(bytes);
        let room = room(self, needed, PLACES);
        match self.deliver(bytes, room) {
            24 => self.send_again(bytes, needed),
            26 => self.send_less(bytes),
            _ => {}
        }
    }

    /// The same delivery again, with too little room or with enough; or in two, if there can't be
    /// enough; or not at all.
    fn send_again(&mut self, bytes: &[u8], needed: usize) {
        if self.one_in(12) {
            return;
        }
        if needed > PLACES {
            let (first, second) = bytes.split_at(1 + self.below(bytes.len() as u32 - 1) as usize);
            self.send(first);
            return self.send(second);
        }
        if self.one_in(5) {
            self.deliver(bytes, self.below(needed as u32) as usize);
        }
        let more = needed + self.below(4) as usize;
        self.deliver(bytes, self.pick(&[needed, needed, needed, more, PLACES]));
    }

    /// As many of the bytes as bring the stream to the limit, and perhaps none or one more; or the
    /// same again; or none.
    fn send_less(&mut self, bytes: &[u8]) {
        let left = (MOST - self.stream.taken) as usize;
        match self.below(6) {
            0 => {}
            1 => drop(self.deliver(bytes, PLACES)),
            2 => drop(self.deliver(&[], 0)),
            _ => {
                self.send(&bytes[..left]);
                if self.one_in(2) {
                    self.deliver(&[], self.pick(&[0, PLACES]));
                }
                if self.one_in(2) {
                    self.deliver(&bytes[left..left + 1], self.pick(&[0, 1, PLACES]));
                }
            }
        }
    }
}

impl Deref for Sender {
    type Target = Random;

    fn deref(&self) -> &Random {
        &self.random
    }
}
