//! The run of good records that a byte string begins with, and the refusal that ends it: document
//! 02, requests (ii), (vii) and (xii).

use crate::transcript::list::Access;
use crate::transcript::reader::record;

pub struct GoodRun {
    /// The accesses of its records.
    pub accesses: Vec<Access>,
    /// The byte after its last.
    pub end: usize,
    /// The refusal of the record that follows, or 0 if none follows.
    pub stop: u8,
}

impl GoodRun {
    /// The longest run from the start of the bytes.
    pub fn of(bytes: &[u8]) -> GoodRun {
        let mut run = GoodRun {
            accesses: Vec::new(),
            end: 0,
            stop: 0,
        };
        while run.end < bytes.len() && run.stop == 0 {
            match record(&bytes[run.end..]) {
                Ok((access, length)) => {
                    run.accesses.push(access);
                    run.end += length;
                }
                Err(number) => run.stop = number,
            }
        }
        run
    }
}
