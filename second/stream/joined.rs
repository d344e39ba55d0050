//! The sentence on which request (vii) rests, tried on random strings: "However the bytes are cut,
//! empty deliveries among them, the accesses handed out are the good records before the first bad
//! one in the joined bytes, and the final refusal with its place in the whole stream is that of
//! (ii) on them, 24 aside."

use crate::scripts::random::Random;
use crate::stream::cuts::pieces;
use crate::stream::run::blank_list;
use crate::stream::script::string;
use crate::stream::Stream;
use crate::transcript::list::{Access, PLACES};
use crate::transcript::reader::read;

/// How many strings are tried.
const STRINGS: u64 = 5_000;

/// The accesses handed out, the number of the final refusal or 0, and its place.
type Outcome = (Vec<Access>, u8, u64);

pub fn holds() -> bool {
    (0..STRINGS).all(|seed| {
        let random = Random::new(seed);
        let string = string(&random);
        match at_once(&string) {
            Some(outcome) => delivered(&pieces(&random, &string)) == outcome,
            None => true,
        }
    })
}

/// What the reader of request (ii) makes of the joined bytes, unless the list is too small for it.
fn at_once(bytes: &[u8]) -> Option<Outcome> {
    let mut list = blank_list([PLACES as u8; 4]);
    let answer = read(bytes, &mut list);
    match answer.number {
        0 => {
            let accesses = (0..answer.count).map(|k| list.get(k)).collect();
            Some((accesses, 0, 0))
        }
        24 => None,
        number => {
            let (accesses, _, _) = at_once(&bytes[..answer.place])?;
            Some((accesses, number, answer.place as u64))
        }
    }
}

/// What becomes of them in those deliveries, up to a refusal or the end.
fn delivered(pieces: &[Vec<u8>]) -> Outcome {
    let mut stream = Stream::new(0);
    let mut accesses = Vec::new();
    for piece in pieces {
        let mut list = blank_list([PLACES as u8; 4]);
        let answer = stream.deliver(piece, &mut list);
        accesses.extend((0..answer.count).map(|k| list.get(k)));
        if answer.number != 0 {
            return (accesses, answer.number, answer.place);
        }
    }
    let answer = stream.end();
    (accesses, answer.number, answer.place)
}
