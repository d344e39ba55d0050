//! Sheets worked out by hand from document 02, requests (viii) and (ix). A line has the sheet's
//! name; HSTCTL, the table's bit address, the rule, hours, quarters, minutes, the places and words
//! lent and the word number from which the table is laid; the table, followed by words 0; then the
//! number, rule, strokes, pointer, HSTDATA and hollow mark that it must end with, all in
//! hexadecimal; and the times in decimal. Each starts a new run, with pointer 12345678h and 9999h
//! held in HSTDATA.

use crate::scripts::text::numbers;
use crate::sheet::run::{line, Record, Run, LAID, LIST};
use crate::sheet::struck::Struck;
use crate::sheet::Shown;

const SHEETS: &str = "
3:45 by rule 1, table to memory's end | 1000 20 1 3 3 0 6 9 2 | 6 3E8 44D 4B1 513 579 5DC \
    | 0 1 6 90 FFFF 1 | 1000 1100 1200 1300 1400 1500
3:45 by rule 2, table to memory's end | 1000 20 2 3 3 0 9 C 2 \
    | 9 3E8 44C 514 5DC 707 7D0 899 960 A28 \
    | 0 2 9 C0 FFFF 1 | 1000 1200 1400 1600 1800 2000 2200 2400 2600
rule 1's table by rule 2 | 1000 20 2 3 3 0 9 C 2 | 6 3E8 44D 4B1 513 579 5DC | 2B 0 0 30 3E8 0 |
rule 2's table by rule 1 | 1000 20 1 3 3 0 9 C 2 | 9 3E8 44C 514 5DC 707 7D0 899 960 A28 \
    | 2B 0 0 30 3E8 0 |
12:59 by rule 1, thirty places | 1000 20 1 C 3 E 1E 20 2 \
    | 1D 0 1 2 3 4 5 6 7 8 9 A B C D E F 10 11 12 13 14 15 16 17 18 19 1A 1B AF0 \
    | 0 1 1D 200 FFFF 1 | 0 100 200 300 400 500 600 700 800 900 1000 1100 1200 1300 1400 1500 \
    1600 1700 1800 1900 2000 2100 2200 2300 2400 2500 2600 2700 2800
12:59 by rule 2, thirty places | 1000 20 2 C 3 E 1E 23 2 \
    | 20 0 1 2 3 4 5 6 7 8 9 A B C D E F 10 11 12 13 14 15 16 17 18 19 1A 1B 1C 1D 1E C1C \
    | 29 0 0 12345678 9999 0 |
12:59 by rule 2, the longest table at the end of the largest memory \
    | 1000 7FDF0 2 C 3 E 20 8000 7FDF \
    | 20 0 1 2 3 4 5 6 7 8 9 A B C D E F 10 11 12 13 14 15 16 17 18 19 1A 1B 1C 1D 1E C1C \
    | 0 2 20 80000 FFFF 1 | 0 100 200 300 400 500 600 700 800 900 1000 1100 1200 1300 1400 1500 \
    1600 1700 1800 1900 2000 2100 2200 2300 2400 2500 2600 2700 2800 2900 3000 3100
2:03 by rule 1 | 1000 20 1 2 0 3 5 8 2 | 5 A 14 15 16 32 | 0 1 5 80 FFFF 1 | 10 20 30 40 50
2:03 by rule 2 | 1000 20 2 2 0 3 5 8 2 | 5 A 14 15 16 32 | 0 2 5 80 FFFF 1 | 10 20 30 40 50
2:03 by rule 1, a count of 7 | 1000 20 1 2 0 3 5 8 2 | 7 A 14 15 16 32 | 2B 0 0 30 A 0 |
2:03 by rule 2, a count of 7 | 1000 20 2 2 0 3 5 8 2 | 7 A 14 15 16 32 | 2B 0 0 30 A 0 |
a word short | 1000 20 1 3 3 0 6 8 2 | 6 3E8 44D 4B1 513 579 5DC | 2A 0 0 90 FFFF 1 |
a word short by rule 2 | 1000 20 2 3 3 0 9 B 2 | 9 3E8 44C 514 5DC 707 7D0 899 960 A28 \
    | 2A 0 0 C0 FFFF 1 |
an equal pair | 1000 20 1 3 3 0 6 A 2 | 6 3E8 44D 44D 513 579 5DC | 2C 0 0 90 0 0 |
an equal pair by rule 2 | 1000 20 2 3 3 0 9 D 2 | 9 3E8 44C 514 514 707 7D0 899 960 A28 \
    | 2C 0 0 C0 0 0 |
a falling last pair | 1000 20 1 3 3 0 6 A 2 | 6 3E8 44D 4B1 513 579 578 | 2C 0 0 90 0 0 |
an equal pair, a word short | 1000 20 1 3 3 0 6 8 2 | 6 3E8 44D 44D 513 579 5DC \
    | 2A 0 0 90 FFFF 1 |
a count of 7 | 1000 20 1 3 3 0 6 9 2 | 7 3E8 44D 4B1 513 579 5DC | 2B 0 0 30 3E8 0 |
a count of 7, no tick | 1000 20 1 3 3 0 6 3 2 | 7 | 2B 0 0 30 FFFF 1 |
no count word | 1000 20 1 3 3 0 6 2 2 | 6 3E8 44D 4B1 513 579 5DC | 2A 0 0 30 FFFF 1 |
no count word by rule 2 | 1000 20 2 3 3 0 9 2 2 | 9 3E8 44C 514 5DC 707 7D0 899 960 A28 \
    | 2A 0 0 30 FFFF 1 |
no count word at the pointer's top | 1000 FFFFFFF8 1 1 0 0 1 8000 0 | 1 7 | 2A 0 0 8 1 0 |
a single stroke at FFFFh | 1000 5 1 1 0 0 1 2 0 | 1 FFFF | 0 1 1 25 FFFF 1 | 65535
a single stroke at FFFFh by rule 2 | 1000 5 2 1 0 0 1 2 0 | 1 FFFF | 0 2 1 25 FFFF 1 | 65535
thirds, the low half last | 3000 10000 1 1 1 2 4 8000 1000 | 4 0 1 2 4 | 0 1 4 10050 0 0 \
    | 0 1.3333333333333333 2.6666666666666665 4
thirds by rule 2, a minute less | 3000 10000 2 1 1 1 4 8000 1000 | 4 0 1 2 4 | 0 2 4 10050 0 0 \
    | 0 1.3333333333333333 2.6666666666666665 4
32,769 words, hours 0 | 1000 20 1 0 3 3 6 8001 2 | 6 3E8 44D 4B1 513 579 5DC \
    | 1 0 0 12345678 9999 0 |
32,769 words, rule 0 | 1000 20 0 3 3 0 6 8001 2 | 6 3E8 44D 4B1 513 579 5DC \
    | 1 0 0 12345678 9999 0 |
32,769 words, rule 65,537, hours 0 | 1000 20 10001 0 3 3 6 8001 2 | 6 3E8 44D 4B1 513 579 5DC \
    | 1 0 0 12345678 9999 0 |
rule 0 | 1000 20 0 3 3 0 24 9 2 | 6 3E8 44D 4B1 513 579 5DC | 2D 0 0 12345678 9999 0 |
rule 0, hours 0 | 1000 20 0 0 3 3 24 9 2 | 6 3E8 44D 4B1 513 579 5DC | 2D 0 0 12345678 9999 0 |
rule 3 | 1000 20 3 3 3 0 24 9 2 | 6 3E8 44D 4B1 513 579 5DC | 2D 0 0 12345678 9999 0 |
rule 3, hours 13 | 1000 20 3 D 3 0 24 9 2 | 6 3E8 44D 4B1 513 579 5DC | 2D 0 0 12345678 9999 0 |
rule 65,537 | 1000 20 10001 3 3 0 24 9 2 | 6 3E8 44D 4B1 513 579 5DC | 2D 0 0 12345678 9999 0 |
rule 65,537, quarters 4 | 1000 20 10001 2 4 0 24 9 2 | 6 3E8 44D 4B1 513 579 5DC \
    | 2D 0 0 12345678 9999 0 |
rule 258, no place, INCR 0, no memory | 0 20 102 3 3 0 0 0 2 | 9 | 2D 0 0 12345678 9999 0 |
hours 0 | 1000 20 1 0 3 3 6 9 2 | 6 3E8 44D 4B1 513 579 5DC | 28 0 0 12345678 9999 0 |
hours 13, no place | 1000 20 1 D 0 0 0 9 2 | 6 3E8 44D 4B1 513 579 5DC | 28 0 0 12345678 9999 0 |
quarters 4 | 1000 20 1 2 4 0 6 9 2 | 6 3E8 44D 4B1 513 579 5DC | 28 0 0 12345678 9999 0 |
quarters 4 by rule 2 | 1000 20 2 1 4 0 9 C 2 | 9 3E8 44C 514 5DC 707 7D0 899 960 A28 \
    | 28 0 0 12345678 9999 0 |
minutes 15 | 1000 20 1 1 0 F 20 9 2 | 6 3E8 44D 4B1 513 579 5DC | 28 0 0 12345678 9999 0 |
five places, INCR 0 | 0 20 1 3 3 0 5 9 2 | 6 3E8 44D 4B1 513 579 5DC | 29 0 0 12345678 9999 0 |
eight places by rule 2, INCR 0 | 0 20 2 3 3 0 8 C 2 | 9 3E8 44C 514 5DC 707 7D0 899 960 A28 \
    | 29 0 0 12345678 9999 0 |
INCR 0, no memory | 800 20 1 3 3 0 6 0 2 | 6 3E8 44D 4B1 513 579 5DC | 2E 0 0 12345678 9999 0 |
INCR 0 by rule 2, no memory | 800 20 2 3 3 0 9 0 2 | 9 3E8 44C 514 5DC 707 7D0 899 960 A28 \
    | 2E 0 0 12345678 9999 0 |
";

/// Whether a sheet, carried out as a record, prints what its line asks for.
fn holds(given: &str, table: &str, wanted: &str, times: &str) -> Option<bool> {
    let [control, address, rule, hours, quarters, minutes, places, words, first] = numbers(given)?;
    let [number, rule_shown, strokes, pointer, data, hollow] = numbers(wanted)?;
    let mut record = Record {
        pointer: 0x1234_5678,
        data: 0x9999,
        control: control as u16,
        hollow: 0,
        address,
        struck: Struck {
            rule,
            time: [hours, quarters, minutes],
        },
        places: places as u16,
        words: words as u16,
        first: first as u16,
        laid: numbers::<LAID>(table)?.map(|word| word as u16),
    };
    let printed = Run::new().call(&Record::read(&record.bytes()));
    record.pointer = pointer;
    record.data = data as u16;
    record.hollow = hollow as u16;
    let mut list = [0.0; LIST];
    for (place, time) in list.iter_mut().zip(times.split_whitespace()) {
        *place = time.parse().ok()?;
    }
    let shown = Shown {
        rule: rule_shown,
        strokes: strokes as u16,
    };
    Some(printed == line(number as u8, shown, record.port(), &list))
}

/// How many hold, or the name of the first that doesn't.
pub fn run() -> Result<usize, &'static str> {
    let lines = SHEETS.trim().lines();
    for line in lines.clone() {
        let parts: Vec<&str> = line.split('|').map(str::trim).collect();
        match parts[..] {
            [_, given, table, wanted, times]
                if holds(given, table, wanted, times) == Some(true) => {}
            _ => return Err(parts[0]),
        }
    }
    Ok(lines.count())
}
