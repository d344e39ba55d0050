//! Block reads and writes over a stretch of the caller's list: document 01, "Blocks and the two
//! doors".

use crate::port::{too_long, Cycle, Port};
use crate::refusal::none_of;
use std::ops::Range;

/// The stretch of the list, or the number of the refusal; the sum in 128 bits, where it never
/// wraps.
fn stretch(memory: &[u16], list: &[u16], place: u64, count: u32) -> Result<Range<usize>, u8> {
    let end = u128::from(place) + u128::from(count);
    none_of(&[
        (too_long(memory), 1),
        (count > 4_096 || end > list.len() as u128, 10),
    ])?;
    Ok(place as usize..end as usize)
}

/// "the hollow words handed out", or the number of the refusal. "A block read does a count of
/// two-lane reads of register 2 into a stretch of the caller's list, from a given place".
pub fn read(
    port: &mut Port,
    memory: &[u16],
    list: &mut [u16],
    place: u64,
    count: u32,
) -> Result<u32, u8> {
    let stretch = stretch(memory, list, place, count)?;
    let mut hollow = 0;
    for word in &mut list[stretch] {
        let answer = port.read(memory, 2, 3);
        *word = answer.word;
        hollow += u32::from(answer.hollow);
    }
    Ok(hollow)
}

/// "the stores that fell empty", or the number of the refusal. "a block write takes its words from
/// such a stretch."
pub fn write(
    port: &mut Port,
    memory: &mut [u16],
    list: &[u16],
    place: u64,
    count: u32,
) -> Result<u32, u8> {
    let stretch = stretch(memory, list, place, count)?;
    let mut empty = 0;
    for &word in &list[stretch] {
        let answer = port.write(memory, 2, 3, word);
        empty += u32::from(answer.cycle == Cycle::Empty);
    }
    Ok(empty)
}
