//! The reader that keeps its place: a transcript comes in deliveries, cut anywhere, until the
//! sender says that nothing follows (document 02, request (vii)).

pub mod cuts;
pub mod examples;
pub mod found;
pub mod joined;
pub mod run;
pub mod script;
pub mod sender;

use crate::refusal::none_of;
use crate::stream::found::Found;
use crate::transcript::list::List;

/// The most bytes that a stream may have.
pub const MOST: u64 = 4_294_967_295;

/// What a call answers: its number; how many accesses it handed out, under 21 to 23 too; and, under
/// 20 to 23, where in the whole stream the bad record begins. All else is 0.
pub struct Answer {
    pub number: u8,
    pub count: usize,
    pub place: u64,
}

impl Answer {
    fn of(number: u8) -> Answer {
        Answer {
            number,
            count: 0,
            place: 0,
        }
    }
}

/// The place in a stream, kept from call to call.
pub struct Stream {
    /// Whether the sender's word or a refusal 20 to 23 has ended it.
    pub ended: bool,
    /// Where in the stream the record begins that is being read.
    pub from: u64,
    /// How many bytes of the stream have been read.
    pub taken: u64,
    /// The bytes of the record that is being read, as far as they have come.
    pub part: Vec<u8>,
}

impl Stream {
    /// A stream freshly started. So that a script comes near the limit, that many bytes of whole
    /// good records count as read (ours; the request starts at 0).
    pub fn new(before: u32) -> Stream {
        Stream {
            ended: false,
            from: before.into(),
            taken: before.into(),
            part: Vec::new(),
        }
    }

    /// A fresh start, whatever came before.
    pub fn start(&mut self, before: u32) -> Answer {
        *self = Stream::new(before);
        Answer::of(0)
    }

    /// Reads a delivery. Refused with 25, 26 or 24, in this order, it changes nothing. Else the
    /// good records that it finishes take the list's first places, and the stream goes on behind
    /// them or ends at a bad one.
    pub fn deliver(&mut self, delivery: &[u8], list: &mut List) -> Answer {
        let found = Found::new(self, delivery);
        if let Err(number) = none_of(&[
            (self.ended, 25),
            (self.taken + delivery.len() as u64 > MOST, 26),
            (found.accesses.len() > list.length(), 24),
        ]) {
            return Answer::of(number);
        }
        list.lay(&found.accesses);
        let bad = found.stop != 0;
        self.ended = bad;
        self.from = found.from;
        self.taken = found.from + found.part.len() as u64;
        self.part = if bad { Vec::new() } else { found.part };
        Answer {
            number: found.stop,
            count: found.accesses.len(),
            place: if bad { self.from } else { 0 },
        }
    }

    /// The sender's word that nothing follows: only now is a record refused that is cut off.
    pub fn end(&mut self) -> Answer {
        if self.ended {
            return Answer::of(25);
        }
        self.ended = true;
        if self.part.is_empty() {
            return Answer::of(0);
        }
        Answer {
            place: self.from,
            ..Answer::of(20)
        }
    }
}
