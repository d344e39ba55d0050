//! The port of the bank selects, BKPORT in 001: compare values and masks are "reached as 16-bit
//! halves through one port whose 4-bit index steps after each sixteen-bit access and returns to 0
//! after its last place" (document 02, request (vi)).

use crate::bank::places::{Place, PLACES};
use crate::bank::{Answer, Bridge};
use crate::refusal::none_of;

pub enum Access {
    Read,
    Write(u16),
}

impl Bridge {
    /// "3 | lanes not 1, 2 or 3" holds here too, and is tested first (ours); "30 byte access to the
    /// port (the index stays)" is one with lanes 1 or 2. A refused access changes nothing: not even
    /// an index above 15 is brought below 16.
    pub fn access(&mut self, lanes: u32, access: Access) -> Answer {
        match none_of(&[(!(1..=3).contains(&lanes), 3), (lanes != 3, 30)]) {
            Err(number) => Answer::of(number),
            Ok(()) => self.access_half(access),
        }
    }

    /// A sixteen-bit access to the half that the index stands for, and the index's step behind it.
    fn access_half(&mut self, access: Access) -> Answer {
        let place = Place::of(self.index);
        let mut answer = Answer::of(0);
        match access {
            Access::Read => answer.word = place.get(&self.banks),
            Access::Write(word) => place.set(&mut self.banks, word),
        }
        self.index = self.index.wrapping_add(1) % PLACES;
        answer
    }
}
