//! Runs of the bank selects worked out by hand from document 02, request (vi), and from source
//! document 001. Each example starts a new run; its lines are calls: `S`, a fresh start, with the
//! index and after a colon the compare value and the mask of each bank; `R`, a read, with its
//! lanes; `W`, a write, with its lanes and its word; `D`, a decode, with its kind, address and
//! control word. Then come the number, word and banks that the call must answer, and the index that
//! it must leave; and, of each bank that it changes, the bank's number, compare value and mask. All
//! else must stay. All numbers are in hexadecimal; those left out are 0.

use crate::bank::run::{answers, line, Call, Cycle, RECORD};
use crate::bank::{Answer, Bank, BANKS};
use crate::scripts::text::numbers;

const BANK_SELECTS: &str = "
: 001's sample map, half by half, and the ends of each range
W 3 2000 = 0 0 0 1, 0 2000 0
W 3 C000 = 0 0 0 2, 0 C0002000 0
W 3 0000 = 0 0 0 3
W 3 FF80 = 0 0 0 4, 1 FF800000 0
W 3 0000 = 0 0 0 5
W 3 0180 = 0 0 0 6, 2 1800000 0
W 3 0000 = 0 0 0 7
W 3 0100 = 0 0 0 8, 3 1000000 0
W 3 FE00 = 0 0 0 9, 0 C0002000 FE00
W 3 FFFF = 0 0 0 A, 0 C0002000 FFFFFE00
W 3 0000 = 0 0 0 B
W 3 FF80 = 0 0 0 C, 1 FF800000 FF800000
W 3 0000 = 0 0 0 D
W 3 FF80 = 0 0 0 E, 2 1800000 FF800000
W 3 0000 = 0 0 0 F
W 3 FF80 = 0 0 0 0, 3 1000000 FF800000
D 0 FFFFFFFF = 0 0 2 0
D 0 FFC12345 = 0 0 2 0
D 0 FF800000 = 0 0 2 0
D 0 FF7FFFFF = 0 0 0 0
D 0 C0002200 = 0 0 0 0
D 0 C00021FF = 0 0 1 0
D 0 C00020AA = 0 0 1 0
D 0 C0002000 = 0 0 1 0
D 0 C0001FFF = 0 0 0 0
D 0 C0000000 = 0 0 0 0
D 0 BFFFFFFF = 0 0 0 0
D 0 2000000 = 0 0 0 0
D 0 1FFFFFF = 0 0 4 0
D 0 1801000 = 0 0 4 0
D 0 1800000 = 0 0 4 0
D 0 17FFFFF = 0 0 8 0
D 0 1400000 = 0 0 8 0
D 0 1000000 = 0 0 8 0
D 0 FFFFFF = 0 0 0 0
D 0 0 = 0 0 0 0
: the sample map read back from place 9 on, over the last place
S 9: C0002000 FFFFFE00 FF800000 FF800000 1800000 FF800000 1000000 FF800000 = 0 0 0 9
R 3 = 0 FFFF 0 A
R 3 = 0 0000 0 B
R 3 = 0 FF80 0 C
R 3 = 0 0000 0 D
R 3 = 0 FF80 0 E
R 3 = 0 0000 0 F
R 3 = 0 FF80 0 0
R 3 = 0 2000 0 1
R 3 = 0 C000 0 2
R 3 = 0 0000 0 3
R 3 = 0 FF80 0 4
R 3 = 0 0000 0 5
R 3 = 0 0180 0 6
R 3 = 0 0000 0 7
R 3 = 0 0100 0 8
R 3 = 0 FE00 0 9
: a range decoded while it is written
D 0 12345678 = 0 0 F 0
W 3 5678 = 0 0 0 1, 0 5678 0
D 0 12345678 = 0 0 F 1
S 8: 5678 0 = 0 0 0 8
W 3 FFFF = 0 0 0 9, 0 5678 FFFF
D 0 12345678 = 0 0 F 9
D 0 12345679 = 0 0 E 9
W 3 FF00 = 0 0 0 A, 0 5678 FF00FFFF
D 0 12345678 = 0 0 E A
D 0 00345678 = 0 0 F A
S 1: 5678 FF00FFFF = 0 0 0 1
W 3 1299 = 0 0 0 2, 0 12995678 FF00FFFF
D 0 12345678 = 0 0 F 2
D 0 00345678 = 0 0 E 2
: the index order, read
S 0: 11110000 99998888 33332222 BBBBAAAA 55554444 DDDDCCCC 77776666 FFFFEEEE = 0 0 0 0
R 3 = 0 0000 0 1
R 3 = 0 1111 0 2
R 3 = 0 2222 0 3
R 3 = 0 3333 0 4
R 3 = 0 4444 0 5
R 3 = 0 5555 0 6
R 3 = 0 6666 0 7
R 3 = 0 7777 0 8
R 3 = 0 8888 0 9
R 3 = 0 9999 0 A
R 3 = 0 AAAA 0 B
R 3 = 0 BBBB 0 C
R 3 = 0 CCCC 0 D
R 3 = 0 DDDD 0 E
R 3 = 0 EEEE 0 F
R 3 = 0 FFFF 0 0
R 3 = 0 0000 0 1
: the index order, written
S F: 9 9 9 9 9 9 9 9 = 0 0 0 F
W 3 FFFF = 0 0 0 0, 3 9 FFFF0009
W 3 A0B0 = 0 0 0 1, 0 A0B0 9
W 3 1111 = 0 0 0 2, 0 1111A0B0 9
W 3 2222 = 0 0 0 3, 1 2222 9
W 3 3333 = 0 0 0 4, 1 33332222 9
W 3 4444 = 0 0 0 5, 2 4444 9
W 3 5555 = 0 0 0 6, 2 55554444 9
W 3 6666 = 0 0 0 7, 3 6666 FFFF0009
W 3 7777 = 0 0 0 8, 3 77776666 FFFF0009
W 3 8888 = 0 0 0 9, 0 1111A0B0 8888
W 3 9999 = 0 0 0 A, 0 1111A0B0 99998888
W 3 AAAA = 0 0 0 B, 1 33332222 AAAA
W 3 BBBB = 0 0 0 C, 1 33332222 BBBBAAAA
W 3 CCCC = 0 0 0 D, 2 55554444 CCCC
W 3 DDDD = 0 0 0 E, 2 55554444 DDDDCCCC
W 3 EEEE = 0 0 0 F, 3 77776666 FFFFEEEE
: an index above 15 stands for a place modulo 16
S 10: 11110000 99998888 33332222 BBBBAAAA 55554444 DDDDCCCC 77776666 FFFFEEEE = 0 0 0 10
R 3 = 0 0000 0 1
S 1F: 11110000 99998888 33332222 BBBBAAAA 55554444 DDDDCCCC 77776666 FFFFEEEE = 0 0 0 1F
R 3 = 0 FFFF 0 0
S FFFFFFFF: 11110000 99998888 33332222 BBBBAAAA 55554444 DDDDCCCC 77776666 FFFFEEEE = 0 0 0 FFFFFFFF
R 3 = 0 FFFF 0 0
S FFFFFFF3: 11110000 99998888 33332222 BBBBAAAA 55554444 DDDDCCCC 77776666 FFFFEEEE = 0 0 0 FFFFFFF3
W 3 1234 = 0 0 0 4, 1 12342222 BBBBAAAA
S 10009: 11110000 99998888 33332222 BBBBAAAA 55554444 DDDDCCCC 77776666 FFFFEEEE = 0 0 0 10009
W 3 0 = 0 0 0 A, 0 11110000 8888
R 3 = 0 AAAA 0 B
: byte accesses leave everything
S 1F: 11110000 99998888 33332222 BBBBAAAA 55554444 DDDDCCCC 77776666 FFFFEEEE = 0 0 0 1F
R 1 = 1E 0 0 1F
R 2 = 1E 0 0 1F
W 1 1234 = 1E 0 0 1F
W 2 1234 = 1E 0 0 1F
R 3 = 0 FFFF 0 0
R 1 = 1E 0 0 0
W 3 1234 = 0 0 0 1, 0 11111234 99998888
W 2 5678 = 1E 0 0 1
R 3 = 0 1111 0 2
: accesses with no lanes leave everything too, and are told from those of a byte
S 2E: 11110000 99998888 33332222 BBBBAAAA 55554444 DDDDCCCC 77776666 FFFFEEEE = 0 0 0 2E
R 0 = 3 0 0 2E
R 4 = 3 0 0 2E
R 5 = 3 0 0 2E
R 6 = 3 0 0 2E
R 7 = 3 0 0 2E
R 101 = 3 0 0 2E
R 103 = 3 0 0 2E
R 10002 = 3 0 0 2E
R 10003 = 3 0 0 2E
R 80000003 = 3 0 0 2E
R FFFFFFFF = 3 0 0 2E
W 0 1234 = 3 0 0 2E
W 4 1234 = 3 0 0 2E
W 7 1234 = 3 0 0 2E
W 102 1234 = 3 0 0 2E
W 103 1234 = 3 0 0 2E
W 80000001 1234 = 3 0 0 2E
W FFFFFFFF 1234 = 3 0 0 2E
W 1 1234 = 1E 0 0 2E
R 3 = 0 EEEE 0 F
W 4 5678 = 3 0 0 F
R 3 = 0 FFFF 0 0
R 0 = 3 0 0 0
: a mask for 1M-Byte, 8,388,608 bits, compares bits 31 to 23
S 0: C0002000 FFFFFE00 FF800000 FF800000 1800000 FF800000 1000000 FF800000 = 0 0 0 0
D 0 FFC00000 = 0 0 2 0
D 0 FF800001 = 0 0 2 0
D 0 FF000000 = 0 0 0 0
D 0 7F800000 = 0 0 0 0
D 0 FE800000 = 0 0 0 0
: each mask leaves out another bit at the end of a half
S 5: 0 FFFFFFFF 0 7FFFFFFF 0 FFFFFFFE 0 FFFE7FFF = 0 0 0 5
D 0 0 = 0 0 F 5
D 0 80000000 = 0 0 2 5
D 0 1 = 0 0 4 5
D 0 8000 = 0 0 8 5
D 0 10000 = 0 0 8 5
D 0 18000 = 0 0 8 5
D 0 80000001 = 0 0 0 5
D 0 2 = 0 0 0 5
: a compare value's bits that its mask leaves out
S 0: FFFFFFFF FFFF FFFFFFFF FFFF0000 FFFFFFFF 0 FFFFFFFF FFFFFFFF = 0 0 0 0
D 0 1234FFFF = 0 0 5 0
D 0 FFFF1234 = 0 0 6 0
D 0 FFFFFFFF = 0 0 F 0
D 0 0 = 0 0 4 0
: several banks are all shown
S 0: 1800000 FF800000 1000000 FF000000 0 80000000 1812340 FFFFFFF0 = 0 0 0 0
D 0 1812345 = 0 0 F 0
D 0 1812350 = 0 0 7 0
D 0 1000000 = 0 0 6 0
D 0 2000000 = 0 0 4 0
D 0 81812345 = 0 0 0 0
: RM 00 refreshes every bank
D 1 0 0 = 0 0 F 0
D 1 10000 0 = 0 0 F 0
D 1 20000 0 = 0 0 F 0
D 1 30000 0 = 0 0 F 0
: RM 01 refreshes pairs by address bit 16
D 1 0 40 = 0 0 5 0
D 1 10000 40 = 0 0 A 0
D 1 20000 40 = 0 0 5 0
D 1 30000 40 = 0 0 A 0
D 1 FFFEFFFF 40 = 0 0 5 0
: RM 10 refreshes one bank by address bits 17 and 16
D 1 0 80 = 0 0 1 0
D 1 10000 80 = 0 0 2 0
D 1 20000 80 = 0 0 4 0
D 1 30000 80 = 0 0 8 0
D 1 FFFCFFFF 80 = 0 0 1 0
: RM 11 refreshes none
D 1 0 C0 = 0 0 0 0
D 1 10000 C0 = 0 0 0 0
D 1 20000 C0 = 0 0 0 0
D 1 30000 C0 = 0 0 0 0
: BDRD keeps refreshes out, and nothing else
D 1 0 100 = 0 0 E 0
D 1 0 200 = 0 0 D 0
D 1 0 400 = 0 0 B 0
D 1 0 800 = 0 0 7 0
D 1 0 F00 = 0 0 0 0
D 1 0 440 = 0 0 1 0
D 1 10000 280 = 0 0 0 0
D 1 10000 D80 = 0 0 2 0
D 0 0 F00 = 0 0 F 0
D 2 0 FF00 = 0 0 F 0
: BVEN lets special cycles in, and nothing else
D 2 0 0 = 0 0 0 0
D 2 0 1000 = 0 0 1 0
D 2 0 2000 = 0 0 2 0
D 2 0 4000 = 0 0 4 0
D 2 0 8000 = 0 0 8 0
D 2 0 F0C0 = 0 0 F 0
D 0 0 5000 = 0 0 F 0
D 1 0 5000 = 0 0 F 0
: the address must agree in refresh and special cycles too
S 0: C0002000 FFFFFE00 FF800000 FF800000 1800000 FF800000 1000000 FF800000 = 0 0 0 0
D 1 FF800000 100 = 0 0 2 0
D 1 C0002000 100 = 0 0 0 0
D 0 C0002000 100 = 0 0 1 0
D 1 2000000 100 = 0 0 0 0
D 1 FF800000 80 = 0 0 0 0
D 1 FF810000 80 = 0 0 2 0
D 1 1820000 80 = 0 0 4 0
D 1 1030000 80 = 0 0 8 0
D 1 1800000 40 = 0 0 4 0
D 1 1000000 40 = 0 0 0 0
D 1 1010000 40 = 0 0 8 0
D 2 1800000 C000 = 0 0 4 0
D 2 1000000 C000 = 0 0 8 0
D 2 FF800000 C000 = 0 0 0 0
D 2 2000000 F000 = 0 0 0 0
: ABE, BPNT and bit 0 play no part
S 12: 0 0 1 1 = 0 0 0 12
D 0 0 0 = 0 0 D 12
D 0 0 20 = 0 0 D 12
D 0 0 1E = 0 0 D 12
D 0 0 1 = 0 0 D 12
D 1 0 3F = 0 0 D 12
D 2 0 603F = 0 0 4 12
: kinds that aren't known
S 14: 0 0 0 0 0 0 0 0 = 0 0 0 14
D 3 0 FF00 = 1F 0 0 14
D 4 0 FF00 = 1F 0 0 14
D 100 0 FF00 = 1F 0 0 14
D 101 0 F000 = 1F 0 0 14
D 10002 0 F000 = 1F 0 0 14
D 80000000 0 FF00 = 1F 0 0 14
D FFFFFFFF 0 FF00 = 1F 0 0 14
R 3 = 0 0 0 5
";

/// What plays no part holds this, and must not matter.
const FILLER: u8 = 0xA4;

/// Registers from compare values and masks in turn.
fn banks(text: &str) -> Option<[Bank; BANKS]> {
    let values: [u32; 2 * BANKS] = numbers(text)?;
    Some(std::array::from_fn(|bank| Bank {
        compare: values[2 * bank],
        mask: values[2 * bank + 1],
    }))
}

fn call(text: &str) -> Option<Call> {
    let (text, registers) = text.split_once(':').unwrap_or((text, ""));
    let (deed, given) = text.trim().split_at(1);
    let [first, second, third] = numbers(given)?;
    match deed {
        "S" => Some(Call::Start {
            index: first,
            banks: banks(registers)?,
        }),
        "R" => Some(Call::Read { lanes: first }),
        "W" => Some(Call::Write {
            lanes: first,
            word: second as u16,
        }),
        "D" => Some(Call::Decode(Cycle {
            kind: first,
            address: second,
            control: third as u16,
        })),
        _ => None,
    }
}

/// The line that a call must print, and the registers as it must leave them.
fn wanted(text: &str, registers: &mut [Bank; BANKS]) -> Option<String> {
    let mut parts = text.split(',');
    let [number, word, selected, index] = numbers(parts.next()?)?;
    for changed in parts {
        let [bank, compare, mask] = numbers(changed)?;
        *registers.get_mut(bank as usize)? = Bank { compare, mask };
    }
    let answer = Answer {
        number: number as u8,
        word: word as u16,
        selected: selected as u8,
    };
    Some(line(answer, index, registers))
}

/// Whether the calls, carried out as a script, print what they must.
fn holds(calls: &str) -> Option<bool> {
    let (mut script, mut all) = (Vec::new(), String::new());
    let mut registers = [Bank::default(); BANKS];
    for line in calls.lines().filter(|line| !line.trim().is_empty()) {
        let (given, answer) = line.split_once('=')?;
        let call = call(given)?;
        if let Call::Start { banks, .. } = call {
            registers = banks;
        }
        let mut record = [FILLER; RECORD];
        call.lay(&mut record);
        script.extend(record);
        all += &wanted(answer, &mut registers)?;
    }
    let mut printed = Vec::new();
    answers(&script, &mut printed).ok()?;
    Some(printed == all.as_bytes())
}

/// How many hold, or the name of the first that doesn't.
pub fn run() -> Result<usize, &'static str> {
    let mut count = 0;
    for example in BANK_SELECTS.split("\n: ").skip(1) {
        let (name, calls) = example.split_once('\n').unwrap_or((example, ""));
        if holds(calls) != Some(true) {
            return Err(name);
        }
        count += 1;
    }
    Ok(count)
}
