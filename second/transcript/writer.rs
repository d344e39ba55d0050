//! The writer of transcripts, a list of accesses in its one encoding: document 02, request (ii).

use crate::refusal::none_of;
use crate::transcript::groups;
use crate::transcript::list::{Access, List};
use crate::transcript::Answer;

/// Turns the list into bytes, from place 0 on. The place of a bad record is its index.
pub fn write(list: &List, bytes: &mut [u8]) -> Answer {
    let mut written = Vec::new();
    for place in 0..list.length() {
        let access = list.get(place);
        if let Err(number) = judged(access) {
            return Answer::refused(number, place);
        }
        written.extend(encoded(access));
    }
    if written.len() > bytes.len() {
        return Answer::refused(24, 0);
    }
    bytes[..written.len()].copy_from_slice(&written);
    Answer::accepted(written.len())
}

/// "The writer tests 2, 3, then 22 (also for a kind over 1 or a read's word not 0)".
fn judged([kind, register, lanes, word]: Access) -> Result<(), u8> {
    let read_with_word = kind == 0 && word != 0;
    none_of(&[
        (register > 3, 2),
        (!(1..=3).contains(&lanes), 3),
        (word > 65_535 || kind > 1 || read_with_word, 22),
    ])
}

/// A record: its head, then for a write its word, with the byte that isn't selected.
pub fn encoded([kind, register, lanes, word]: Access) -> Vec<u8> {
    // "The head is kind (0 read, 1 write) + 2 × register + 8 × lanes."
    let head = kind + 2 * register + 8 * lanes;
    let mut bytes = groups::encoded(head.into());
    if kind == 1 {
        bytes.extend(groups::encoded(word.into()));
    }
    bytes
}
