//! The reader of transcripts, bytes turned back into the list that was written: document 02,
//! request (ii).

use crate::refusal::none_of;
use crate::transcript::good_run::GoodRun;
use crate::transcript::groups::Number;
use crate::transcript::list::{Access, List};
use crate::transcript::Answer;

/// Turns the bytes into the list, from place 0 on. The place of a bad record is its first byte.
pub fn read(bytes: &[u8], list: &mut List) -> Answer {
    let run = GoodRun::of(bytes);
    if run.stop != 0 {
        return Answer::refused(run.stop, run.end);
    }
    if run.accesses.len() > list.length() {
        return Answer::refused(24, 0);
    }
    list.lay(&run.accesses);
    Answer::accepted(run.accesses.len())
}

/// The access of the record at the start of the bytes, and how many bytes it takes; or the number
/// of its refusal, "the head being judged in this order before the word is read".
pub fn record(bytes: &[u8]) -> Result<(Access, usize), u8> {
    let (head, length) = number(bytes, 31)?;
    // "The head is kind (0 read, 1 write) + 2 × register + 8 × lanes."
    let [kind, register, lanes] = [head % 2, head / 2 % 4, head / 8];
    if lanes == 0 {
        return Err(23);
    }
    if kind == 0 {
        return Ok(([kind, register, lanes, 0], length));
    }
    let (word, more) = number(&bytes[length..], 65_535)?;
    Ok(([kind, register, lanes, word], length + more))
}

/// The value of the number at the start of the bytes, and how many bytes it takes; or its refusal.
/// A number is judged only once its last byte is there (ours).
fn number(bytes: &[u8], most: u64) -> Result<(u32, usize), u8> {
    let number = Number::read(bytes);
    none_of(&[
        (!number.whole, 20),
        (number.zero_led, 21),
        (number.value > most, 22),
    ])?;
    Ok((number.value as u32, number.length))
}
