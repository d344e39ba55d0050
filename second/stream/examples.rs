//! Streams worked out by hand from document 02, requests (ii) and (vii). Each example starts a new
//! run; its lines are calls: `S`, a fresh start, and how many bytes there were before; `D`, a
//! delivery, how many places of the lists are lent, of each or of kinds, registers, lanes and
//! words, and after a colon the bytes; `E`, the end. Then come the number, count and place that the
//! call must answer; whether the stream has then ended, where the record begins that is being read,
//! and how many bytes have been read; and what the call must write from the first place on. All
//! numbers are in hexadecimal. All other places hold the filler, which must stay. The last example
//! is the sentence on cuts, tried on random strings.

use crate::scripts::text::numbers;
use crate::stream::joined;
use crate::stream::run::{answers, blank_list, line, Record, BYTES, DELIVER, END, START};
use crate::stream::{Answer, Stream};
use crate::transcript::list::Access;

const STREAMS: &str = "
: the paper's write, all at once
D 1: 1D A4 34 = 0 1 0, 0 3 3, 1 2 3 1234
E = 0 0 0, 1 3 3
: the paper's write byte by byte, empty deliveries among them, no place until one is needed
D 0: = 0 0 0, 0 0 0
D 0: 1D = 0 0 0, 0 0 1
D 0: = 0 0 0, 0 0 1
D 0: A4 = 0 0 0, 0 0 2
D 0: = 0 0 0, 0 0 2
D 1: 34 = 0 1 0, 0 3 3, 1 2 3 1234
E = 0 0 0, 1 3 3
: nothing at all
E = 0 0 0, 1 0 0
: a record across two deliveries, between others
D 6: 08 1D A4 34 17 83 = 0 2 0, 0 4 6, 0 0 1 0, 1 2 3 1234
D 6: FF 00 0A = 0 2 0, 0 9 9, 1 3 2 FF80, 0 1 1 0
E = 0 0 0, 1 9 9
: zero groups at the start of deliveries that don't lead their number
D 6: 09 81 = 0 0 0, 0 0 2
D 6: 80 = 0 0 0, 0 0 3
D 6: 00 = 0 1 0, 0 4 4, 1 0 1 4000
: as many bytes and places as there are
D FF: 09 83 FF 7F 09 83 FF 7F 09 83 FF 7F 09 83 FF 7F 09 83 FF 7F 09 83 FF 7F = 0 6 0, 0 18 18, \
    1 0 1 FFFF, 1 0 1 FFFF, 1 0 1 FFFF, 1 0 1 FFFF, 1 0 1 FFFF, 1 0 1 FFFF
E = 0 0 0, 1 18 18
: word missing at the end
D 6: 08 1D = 0 1 0, 0 1 2, 0 0 1 0
E = 14 0 1, 1 1 2
: word cut off at the end
D 6: 08 1D = 0 1 0, 0 1 2, 0 0 1 0
D 6: A4 = 0 0 0, 0 1 3
E = 14 0 1, 1 1 3
: head cut off at the end, too large already
D 6: 0A FF = 0 1 0, 0 1 2, 0 1 1 0
D 6: FF = 0 0 0, 0 1 3
D 6: 80 = 0 0 0, 0 1 4
E = 14 0 1, 1 1 4
: 80h at the end
D 6: 80 = 0 0 0, 0 0 1
E = 14 0 0, 1 0 1
: a leading zero group and the rest of its head in two deliveries
D 6: 08 80 = 0 1 0, 0 1 2, 0 0 1 0
D 6: 08 0A = 15 0 1, 1 1 3
E = 19 0 0, 1 1 3
: a word with a leading zero group behind good records, a good one behind it
D 6: 08 1D A4 34 1D 80 34 0A = 15 2 4, 1 4 7, 0 0 1 0, 1 2 3 1234
: word 65,536 in four deliveries
D 6: 1D = 0 0 0, 0 0 1
D 6: 84 = 0 0 0, 0 0 2
D 6: 80 = 0 0 0, 0 0 3
D 6: 00 08 = 16 0 0, 1 0 4
: a head of forty bytes in two deliveries, 8 in its last
D 6: 81 80 80 80 80 80 80 80 80 80 80 80 80 80 80 80 80 80 80 80 80 80 80 80 = 0 0 0, 0 0 18
D 6: 80 80 80 80 80 80 80 80 80 80 80 80 80 80 80 08 08 = 16 0 0, 1 0 28
: head 7 is refused before its word has come
D 6: 08 07 = 17 1 1, 1 1 2, 0 0 1 0
D 6: 00 = 19 0 0, 1 1 2
: head 39 is refused before its word has come
D 6: 27 = 16 0 0, 1 0 1
D 6: = 19 0 0, 1 0 1
E = 19 0 0, 1 0 1
: one place short, then enough
D 1: 08 0A = 18 0 0, 0 0 0
D 2: 08 0A = 0 2 0, 0 2 2, 0 0 1 0, 0 1 1 0
: seven records, then six
D 6: 08 08 08 08 08 08 08 = 18 0 0, 0 0 0
D 6: 08 08 08 08 08 08 = 0 6 0, 0 6 6, 0 0 1 0, 0 0 1 0, 0 0 1 0, 0 0 1 0, 0 0 1 0, 0 0 1 0
: the shortest list counts
D 2 2 2 1: 08 0A = 18 0 0, 0 0 0
D 0 6 6 6: 08 = 18 0 0, 0 0 0
D 6 1 6 6: 08 = 0 1 0, 0 1 1, 0 0 1 0
D 6 6 0 6: 08 = 18 0 0, 0 1 1
: a bad record behind more than fit, then again with room
D 1: 08 0A 07 = 18 0 0, 0 0 0
D 2: 08 0A 07 = 17 2 2, 1 2 3, 0 0 1 0, 0 1 1 0
: a bad record behind one that doesn't fit, then other bytes
D 0: 08 20 = 18 0 0, 0 0 0
D 1: 0A = 0 1 0, 0 1 1, 0 1 1 0
E = 0 0 0, 1 1 1
: a record across two deliveries needs a place where it ends
D 0: 1D A4 = 0 0 0, 0 0 2
D 0: 34 = 18 0 0, 0 0 2
D 1: 34 08 = 18 0 0, 0 0 2
D 1: 34 = 0 1 0, 0 3 3, 1 2 3 1234
: a bad record needs no place, nor does one that is cut
D 0: 17 = 0 0 0, 0 0 1
D 0: 80 80 = 0 0 0, 0 0 3
D 0: 00 08 = 15 0 0, 1 0 4
: calls after the end, until a fresh start
D 6: 08 = 0 1 0, 0 1 1, 0 0 1 0
E = 0 0 0, 1 1 1
D 6: 0A = 19 0 0, 1 1 1
D 0: 0A = 19 0 0, 1 1 1
D 6: = 19 0 0, 1 1 1
E = 19 0 0, 1 1 1
S 0 = 0 0 0, 0 0 0
D 6: 0A = 0 1 0, 0 1 1, 0 1 1 0
: calls after an end that was refused, until a fresh start
D 6: 1D = 0 0 0, 0 0 1
E = 14 0 0, 1 0 1
D 6: 00 = 19 0 0, 1 0 1
E = 19 0 0, 1 0 1
S 0 = 0 0 0, 0 0 0
D 6: 00 = 17 0 0, 1 0 1
: a fresh start amid a record
D 6: 1D A4 = 0 0 0, 0 0 2
S 0 = 0 0 0, 0 0 0
D 6: 08 = 0 1 0, 0 1 1, 0 0 1 0
E = 0 0 0, 1 1 1
: up to the limit, and no further
S FFFFFFFC = 0 0 0, 0 FFFFFFFC FFFFFFFC
D 6: 1D A4 34 08 = 1A 0 0, 0 FFFFFFFC FFFFFFFC
D 6: 1D A4 34 = 0 1 0, 0 FFFFFFFF FFFFFFFF, 1 2 3 1234
D 0: = 0 0 0, 0 FFFFFFFF FFFFFFFF
D 6: 08 = 1A 0 0, 0 FFFFFFFF FFFFFFFF
E = 0 0 0, 1 FFFFFFFF FFFFFFFF
D 6: 08 = 19 0 0, 1 FFFFFFFF FFFFFFFF
: the limit before the room, the room before the bad record
S FFFFFFFD = 0 0 0, 0 FFFFFFFD FFFFFFFD
D 0: 08 07 07 = 1A 0 0, 0 FFFFFFFD FFFFFFFD
D 0: 08 07 = 18 0 0, 0 FFFFFFFD FFFFFFFD
D 1: 08 07 = 17 1 FFFFFFFE, 1 FFFFFFFE FFFFFFFF, 0 0 1 0
: the limit counts the bytes behind a bad record
S FFFFFFFE = 0 0 0, 0 FFFFFFFE FFFFFFFE
D 6: 07 08 = 1A 0 0, 0 FFFFFFFE FFFFFFFE
D 6: 07 = 17 0 FFFFFFFE, 1 FFFFFFFE FFFFFFFF
: a word missing at the limit
S FFFFFFFE = 0 0 0, 0 FFFFFFFE FFFFFFFE
D 6: 1D = 0 0 0, 0 FFFFFFFE FFFFFFFF
D 6: 00 = 1A 0 0, 0 FFFFFFFE FFFFFFFF
E = 14 0 FFFFFFFE, 1 FFFFFFFE FFFFFFFF
: a bad record from before 65,536 to after
S FFFE = 0 0 0, 0 FFFE FFFE
D 6: 1D 84 = 0 0 0, 0 FFFE 10000
D 6: 80 00 = 16 0 FFFE, 1 FFFE 10002
: a bad record beyond 2^31
S 80000001 = 0 0 0, 0 80000001 80000001
D 6: 08 20 = 16 1 80000002, 1 80000002 80000003, 0 0 1 0
E = 19 0 0, 1 80000002 80000003
";

/// What is laid into a string behind the delivered bytes: good reads, which must not be read.
const BEHIND: u8 = 8;

/// The record of a call.
fn record(call: &str) -> Option<Record> {
    let (call, bytes) = call.split_once(':').unwrap_or((call, ""));
    let (deed, given) = call.trim().split_at(1);
    let mut record = Record {
        deed: START,
        delivered: 0,
        places_lent: [0; 4],
        idle: [0; 2],
        before: 0,
        string: [BEHIND; BYTES],
    };
    match deed {
        "S" => [record.before] = numbers(given)?,
        "E" => record.deed = END,
        _ => {
            record.deed = DELIVER;
            record.places_lent = match given.split_whitespace().count() {
                1 => numbers::<1>(given).map(|[each]| [each; 4]),
                _ => numbers(given),
            }?
            .map(|lent| lent as u8);
        }
    }
    for (k, digits) in bytes.split_whitespace().enumerate() {
        *record.string.get_mut(k)? = u8::from_str_radix(digits, 16).ok()?;
        record.delivered += 1;
    }
    Some(record)
}

/// The line that a call must print.
fn wanted(text: &str) -> Option<String> {
    let mut parts = text.split(',');
    let [number, count, place] = numbers(parts.next()?)?;
    let [ended, from, taken] = numbers(parts.next()?)?;
    let answer = Answer {
        number: number as u8,
        count: count as usize,
        place: place.into(),
    };
    let stream = Stream {
        ended: ended == 1,
        from: from.into(),
        taken: taken.into(),
        part: Vec::new(),
    };
    let mut list = blank_list([0; 4]);
    for (k, access) in parts.enumerate() {
        let access: Access = numbers(access)?;
        for (part, value) in list.parts.iter_mut().zip(access) {
            *part.get_mut(k)? = value;
        }
    }
    Some(line(answer, &stream, &list))
}

/// Whether the calls, carried out as a script, print what they must.
fn holds(calls: &str) -> Option<bool> {
    let (mut script, mut all) = (Vec::new(), String::new());
    for line in calls.lines().filter(|line| !line.trim().is_empty()) {
        let (call, answer) = line.split_once('=')?;
        script.extend(record(call)?.to_bytes());
        all += &wanted(answer)?;
    }
    let mut printed = Vec::new();
    answers(&script, &mut printed).ok()?;
    Some(printed == all.as_bytes())
}

/// How many hold, or the name of the first that doesn't.
pub fn run() -> Result<usize, &'static str> {
    let mut count = 0;
    for example in STREAMS.split("\n: ").skip(1) {
        let (name, calls) = example.split_once('\n').unwrap_or((example, ""));
        if holds(calls) != Some(true) {
            return Err(name);
        }
        count += 1;
    }
    if joined::holds() {
        Ok(count + 1)
    } else {
        Err("however the bytes are cut")
    }
}
