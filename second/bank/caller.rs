//! The caller of the script of the bank selects: it makes the calls of one sequence after the
//! other, and knows from the model what the registers hold.

use crate::bank::accesses::word;
use crate::bank::cycles::{again, cycle};
use crate::bank::run::{Call, Cycle, RECORD};
use crate::bank::{Bank, Bridge, BANKS};
use crate::scripts::random::Random;
use crate::scripts::sequences::Sequences;
use std::ops::Deref;

pub struct Caller {
    random: Random,
    bridge: Bridge,
    /// The last cycle that was decoded.
    last: Cycle,
    script: Sequences,
}

impl Caller {
    pub fn new(seed: u64) -> Caller {
        Caller {
            random: Random::new(seed),
            bridge: Bridge::default(),
            last: Cycle {
                kind: 0,
                address: 0,
                control: 0,
            },
            script: Sequences::default(),
        }
    }

    pub fn sequences(&self) -> usize {
        self.script.count()
    }

    /// The calls of the first so many sequences.
    pub fn script(self, sequences: usize) -> Vec<u8> {
        self.script.first(sequences)
    }

    /// Adds a call, in a record with random contents where they play no part.
    fn call(&mut self, call: Call) {
        let mut record: [u8; RECORD] = std::array::from_fn(|_| self.bits() as u8);
        call.lay(&mut record);
        self.script.add(&record);
        call.carry_out(&mut self.bridge);
    }

    /// Begins a sequence.
    pub fn start(&mut self, index: u32, banks: [Bank; BANKS]) {
        self.script.begin();
        self.call(Call::Start { index, banks });
    }

    pub fn read(&mut self, lanes: u32) {
        self.call(Call::Read { lanes });
    }

    pub fn write(&mut self, lanes: u32, word: u16) {
        self.call(Call::Write { lanes, word });
    }

    /// Writes a word that suits the place.
    pub fn write_any(&mut self, lanes: u32) {
        let word = word(self, &self.bridge, self.last.address);
        self.write(lanes, word);
    }

    pub fn decode(&mut self, cycle: Cycle) {
        self.last = cycle;
        self.call(Call::Decode(cycle));
    }

    /// Decodes a cycle that suits the registers.
    pub fn decode_any(&mut self) {
        self.decode(cycle(self, &self.bridge.banks));
    }

    /// Decodes the last cycle again, changed in one part or not at all.
    pub fn decode_again(&mut self) {
        self.decode(again(self, self.last));
    }

    pub fn last(&self) -> Cycle {
        self.last
    }
}

impl Deref for Caller {
    type Target = Random;

    fn deref(&self) -> &Random {
        &self.random
    }
}
