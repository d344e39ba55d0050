//! Making a script of calls: its lines, a digest after every so many calls, and random numbers.

use crate::scripts::random::Random;
use std::ops::Deref;

pub struct Maker {
    random: Random,
    pub lines: Vec<u8>,
    pub calls: u64,
    every: u64,
    /// Length of the lent memory and size of the lent list, as the calls set them.
    pub length: u32,
    pub size: u32,
    /// How many of two accesses by the host are in place.
    pub in_place: u32,
}

impl Maker {
    pub fn new(seed: u64, every: u64) -> Maker {
        Maker {
            random: Random::new(seed),
            lines: Vec::new(),
            calls: 0,
            every,
            length: 32_768,
            size: 8_192,
            in_place: 0,
        }
    }

    /// Adds an access by the host, R or W, or the same in place.
    pub fn host(&mut self, letter: char, numbers: &[u32]) {
        let in_place = self.below(2) < self.in_place;
        let letter = match letter {
            'R' if in_place => 'H',
            'W' if in_place => 'K',
            _ => letter,
        };
        self.call(letter, numbers);
    }

    /// Adds a call; numbers left out are 0.
    pub fn call(&mut self, letter: char, numbers: &[u32]) {
        match letter {
            'N' => self.length = numbers[0].min(32_769),
            'L' => self.size = numbers[0].min(8_192),
            _ => {}
        }
        let at = |k: usize| numbers.get(k).copied().unwrap_or(0);
        let line = format!(
            "{letter} {:08X} {:08X} {:08X} {:08X}\n",
            at(0),
            at(1),
            at(2),
            at(3)
        );
        self.lines.extend(line.bytes());
        self.calls += 1;
        if self.calls % self.every == 0 && letter != 'D' {
            self.call('D', &[]);
        }
    }
}

impl Deref for Maker {
    type Target = Random;

    fn deref(&self) -> &Random {
        &self.random
    }
}
