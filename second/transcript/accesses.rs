//! Accesses for the script of transcripts: good ones, and ways to make one bad.

use crate::scripts::random::Random;
use crate::transcript::list::Access;

/// Words at the ends of what one, two and three groups hold, and of each byte.
const WORDS: [u32; 15] = [
    0, 0, 1, 127, 128, 128, 255, 256, 16_383, 16_384, 16_384, 32_768, 0xFF00, 65_534, 65_535,
];

pub fn good(random: &Random) -> Access {
    let kind = random.below(2);
    let (register, lanes) = (random.below(4), 1 + random.below(3));
    [kind, register, lanes, kind * word(random)]
}

/// A word of any length: often at an end of what its groups hold.
pub fn word(random: &Random) -> u32 {
    let any = random.bits() & 0xFFFF;
    let edge = random.pick(&WORDS);
    random.pick(&[any, any, any % 16_384, any % 128, edge, edge])
}

/// Makes one part of an access bad.
pub fn spoil(random: &Random, access: &mut Access, part: usize) {
    let [kind, register, lanes, word] = *access;
    let pick = |near: &[u32], far: u32| random.pick(&[random.pick(near), far]);
    access[part] = match part {
        0 => pick(&[2, 3], far(random, kind, 1)),
        1 => pick(&[4, 4, 7], far(random, register, 2)),
        2 => pick(&[0, 0, 4, 4, 7], far(random, lanes, 2)),
        _ if kind == 0 => pick(&[1, 128, 65_535, 65_536], far(random, 0, 0)),
        _ => pick(
            &[65_536, 65_536, 65_536 + random.below(300)],
            far(random, word, 16),
        ),
    };
}

/// A number far too large, or the good one with a bit from that one on set too: just beyond the
/// good ones, beyond a byte, beyond a half, the top one, or any.
fn far(random: &Random, good: u32, first: u32) -> u32 {
    let any = first + random.below(32 - first);
    let bit = random.pick(&[first, first.max(8), first.max(16), 31, any]);
    let beyond = good | 1 << bit;
    random.pick(&[beyond, beyond, beyond, beyond, u32::MAX])
}
