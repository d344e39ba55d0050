//! What the writer and the reader of transcripts have in common: both write everything or nothing
//! and name the place of the first bad record (document 02, request (ii)).

pub mod accesses;
pub mod examples;
pub mod good_run;
pub mod groups;
pub mod list;
pub mod reader;
pub mod rooms;
pub mod run;
pub mod script;
pub mod strings;
pub mod writer;

/// What a call answers: the count of bytes (writer) or of records (reader) if it is accepted, its
/// number 0 and its place 0; else the refusal's number and the place of the first bad record, "for
/// 24 it is 0", with a count of 0.
pub struct Answer {
    pub number: u8,
    pub count: usize,
    pub place: usize,
}

impl Answer {
    fn accepted(count: usize) -> Answer {
        Answer {
            number: 0,
            count,
            place: 0,
        }
    }

    fn refused(number: u8, place: usize) -> Answer {
        Answer {
            number,
            count: 0,
            place,
        }
    }
}
