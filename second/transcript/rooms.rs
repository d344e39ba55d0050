//! How much room the scripts of transcripts, of salvage and of streams lend for a result.

use crate::scripts::random::Random;
use crate::transcript::list::PLACES;

/// The room lent for a result that needs that much of it: just enough, more, one too few, or none.
pub fn room(random: &Random, needed: usize, most: usize) -> usize {
    let fewer = random.below(needed as u32 + 1) as usize;
    let more = needed + random.below(8) as usize;
    let one_less = needed.saturating_sub(1);
    let rooms = [
        needed, needed, needed, more, more, most, most, one_less, fewer, 0,
    ];
    random.pick(&rooms).min(most)
}

/// A room as it is lent: all that there is may be lent by a number above that.
pub fn lent(random: &Random, room: usize, most: usize) -> u8 {
    let above = most + random.below(256 - most as u32) as usize;
    let all = random.pick(&[most, most + 1, above, 255]);
    let lent = if room == most { all } else { room };
    lent as u8
}

/// How much of each slice is lent to a list of that length: no less, and of one slice no more.
pub fn lent_slices(random: &Random, length: usize) -> [u8; 4] {
    let shortest = random.below(4) as usize;
    let alike = random.one_in(3);
    std::array::from_fn(|slice| {
        let more = random.below((PLACES - length) as u32 + 1) as usize;
        let more = random.pick(&[more, PLACES - length]);
        let more = if alike || slice == shortest { 0 } else { more };
        lent(random, length + more, PLACES)
    })
}
