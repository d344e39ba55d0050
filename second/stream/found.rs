//! What a delivery brings: the good records that it finishes, and the bad one behind them if there
//! is one, judged as in request (ii) of document 02.

use crate::stream::Stream;
use crate::transcript::good_run::GoodRun;
use crate::transcript::list::Access;
use crate::transcript::reader::record;

pub struct Found {
    /// The good records that the delivery finishes. The first may have begun in an earlier one.
    pub accesses: Vec<Access>,
    /// The refusal of the bad record behind them, or 0 if there is none, or none yet.
    pub stop: u8,
    /// Where in the stream the record begins that is then being read.
    pub from: u64,
    /// The bytes of that record that have then been read.
    pub part: Vec<u8>,
}

impl Found {
    /// Judges the record that is being read, and those behind it, as if there were no cut.
    pub fn new(stream: &Stream, delivery: &[u8]) -> Found {
        let bytes = [&stream.part, delivery].concat();
        let run = GoodRun::of(&bytes);
        let rest = &bytes[run.end..];
        let (stop, part) = match run.stop {
            // "A number cut off is refused only when the sender says that nothing follows."
            20 => (0, rest),
            stop => (stop, &rest[..read_of_bad(rest)]),
        };
        Found {
            accesses: run.accesses,
            stop,
            from: stream.from + run.end as u64,
            part: part.to_vec(),
        }
    }
}

/// How many bytes of a bad record are read: up to the one with which it is judged to be bad, before
/// which it is only cut off. None behind it counts as read (ours).
fn read_of_bad(bytes: &[u8]) -> usize {
    let bad = |length: &usize| matches!(record(&bytes[..*length]), Err(21..));
    (1..bytes.len()).find(bad).unwrap_or(bytes.len())
}
