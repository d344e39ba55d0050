//! The random script of sheets, under both rules: about half pass, the others meet every refusal of
//! document 02, requests (viii) and (ix), by several causes, often by two at once.

use crate::port::INCR;
use crate::scripts::random::Random;
use crate::sheet::run::{Record, LAID, LIST};
use crate::sheet::struck::Struck;

/// The most words that may be lent.
const MOST: u32 = 32_768;
/// A word number beyond the room's end: what is laid from there on is dropped.
const DROPPED: u32 = 40_000;
/// What makes a sheet fail is numbered in the order of the tests, so that two causes near each
/// other show which is tested first. An unknown rule, which comes in many sorts, has two numbers,
/// and so do ticks that don't rise, as it takes two ticks in a table that is laid anew.
const CAUSES: u32 = 11;

pub fn script(seed: u64, count: u64) -> Vec<u8> {
    let random = Random::new(seed);
    let mut script = Vec::new();
    let mut last = Draft::new(&random);
    for _ in 0..count {
        let mut draft = match random.below(5) {
            0 => last.again(),
            _ => Draft::new(&random),
        };
        let how_many = random.pick(&[0, 0, 0, 0, 0, 1, 1, 2, 2, 2]);
        let (one, any) = (random.below(CAUSES), random.below(CAUSES));
        let near = one + 1 + random.below(3);
        let causes = [one, random.pick(&[near, near, any])];
        for cause in causes.into_iter().take(how_many) {
            draft.spoil(cause);
        }
        script.extend(draft.record.bytes());
        last = draft;
    }
    script
}

/// A record, the time and rule that it had before it was spoiled, and the word number of its table.
struct Draft<'a> {
    random: &'a Random,
    struck: Struck,
    table: u32,
    record: Record,
}

impl<'a> Draft<'a> {
    /// A sheet that passes, with its table among the words laid.
    fn new(random: &'a Random) -> Draft<'a> {
        let time = match random.below(8) {
            0 => [1, 0, 0],
            1 => [12, 3, 14],
            2 | 3 => [1 + random.below(12), 0, random.below(15)],
            _ => [1 + random.below(12), random.below(4), random.below(15)],
        };
        let rule = random.pick(&[1, 2]);
        let struck = Struck { rule, time };
        let length = 1 + struck.strokes() as u32;
        let mut draft = Draft::over(random, struck, place(random, length));
        let before = random.below(LAID as u32 + 1 - length).min(draft.table);
        draft.record.first = (draft.table - before) as u16;
        for word in &mut draft.record.laid {
            *word = random.pick(&[random.bits() as u16, 0, 0xFFFF]);
        }
        draft.set(0, (length - 1) as u16);
        let ticks = ticks(random, length - 1);
        (1..).zip(ticks).for_each(|(k, tick)| draft.set(k, tick));
        draft
    }

    /// Another sheet on the same table, as it stands in the room, under either rule, with the same
    /// places lent or others, and words laid behind it, before it, at the room's end, or nowhere.
    fn again(&self) -> Draft<'a> {
        let rule = self.random.pick(&[1, 2]);
        let mut draft = Draft::over(self.random, self.struck.by(rule), self.table);
        let behind = self.table + 1 + self.strokes();
        let before = self.table.checked_sub(LAID as u32).unwrap_or(DROPPED);
        let first = [behind, before, 32_768, 32_769, DROPPED, 0xFFFF];
        draft.record.first = self.random.pick(&first) as u16;
        let places = [self.record.places, draft.record.places];
        draft.record.places = self.random.pick(&places);
        draft
    }

    /// A sheet that passes if that time's table by that rule is at that word; nothing is laid.
    fn over(random: &'a Random, struck: Struck, table: u32) -> Draft<'a> {
        let strokes = struck.strokes() as u32;
        let end = (table + 1 + strokes).min(MOST);
        let spare = (end + random.below(4)).min(MOST);
        let all = LIST as u32;
        let more = strokes + random.below(4);
        let low_bits = random.pick(&[0, random.below(16)]);
        let address = table * 16 + low_bits;
        let other = address ^ random.pick(&[0, 0x1_0000, 0x0001]);
        let record = Record {
            pointer: random.pick(&[random.bits(), random.bits(), other, u32::MAX]),
            data: random.bits() as u16,
            control: random.bits() as u16 | INCR,
            hollow: random.bits() as u16,
            address,
            struck,
            places: random.pick(&[strokes, strokes, more, all, all + 1, 0xFFFF]) as u16,
            words: random.pick(&[end, end, spare, MOST]) as u16,
            first: DROPPED as u16,
            laid: [0xFFFF; LAID],
        };
        Draft {
            random,
            struck,
            table,
            record,
        }
    }
}

/// Where a table of that many words starts: at either end of memory, across a carry into the
/// pointer's high half, or anywhere.
fn place(random: &Random, length: u32) -> u32 {
    let last = MOST - length;
    match random.below(8) {
        0 => random.below(3),
        1 | 2 => last,
        3 => 4_096 * (1 + random.below(7)) - random.below(length + 1),
        _ => random.below(last + 1),
    }
}

/// Ticks that rise by little or much, from 0, to FFFFh, over the middle, or anywhere.
fn ticks(random: &Random, strokes: u32) -> Vec<u16> {
    let most = random.pick(&[1, 2, 60, 2_000]);
    let rises: Vec<u32> = (1..strokes).map(|_| 1 + random.below(most)).collect();
    let spare = 0xFFFF - rises.iter().sum::<u32>();
    let mut tick = random.pick(&[0, spare / 2, spare, random.below(spare + 1)]);
    let mut ticks = vec![tick as u16];
    for rise in rises {
        tick += rise;
        ticks.push(tick as u16);
    }
    ticks
}

/// What makes a sheet fail.
impl Draft<'_> {
    fn strokes(&self) -> u32 {
        self.struck.strokes() as u32
    }

    fn strokes_by_other_rule(&self) -> u32 {
        self.struck.by(3 - self.struck.rule).strokes() as u32
    }

    fn spoil(&mut self, cause: u32) {
        match cause {
            0 => self.too_long(),
            1 | 2 => self.unknown_rule(),
            3 => self.out_of_range(),
            4 => self.short_list(),
            5 => self.record.control &= !INCR,
            6 => self.no_count(),
            7 => self.wrong_count(),
            8 => self.no_tick(),
            _ => self.not_rising(),
        }
    }

    /// Where the table's word k stands among those laid, if it is one of them.
    fn index(&self, k: u32) -> Option<usize> {
        let index = (self.table + k).checked_sub(u32::from(self.record.first))?;
        (index < LAID as u32).then_some(index as usize)
    }

    fn set(&mut self, k: u32, word: u16) {
        if let Some(index) = self.index(k) {
            self.record.laid[index] = word;
        }
    }

    fn too_long(&mut self) {
        self.record.words = self.random.pick(&[32_769, 32_769, 32_770, 0xFFFF]);
    }

    /// A rule next to the two, one that has the low byte or the low half of one of them, one of
    /// them moved up by sixteen bits, or any.
    fn unknown_rule(&mut self) {
        let rule = self.struck.rule;
        let same_byte = rule | 1 << (8 + self.random.below(8));
        let same_half = rule | 1 << (16 + self.random.below(16));
        let any = 3 + self.random.below(u32::MAX - 2);
        let unknown = [0, 3, same_byte, same_half, rule << 16, any];
        self.record.struck.rule = self.random.pick(&unknown);
    }

    /// A part just out of range or far, its low half or byte in range or not; perhaps with the
    /// strokes kept, if only modulo 2^32.
    fn out_of_range(&mut self) {
        let part = self.random.below(3) as usize;
        let time = &mut self.record.struck.time;
        let old = time[part];
        let over = [13, 4, 15][part];
        let far = [old | 1 << 31, old | 1 << 16, old | 1 << 8, u32::MAX];
        let (part, new) = match self.random.below(6) {
            0 | 1 => (part, over),
            2 => (part, over + self.random.below(20)),
            3 | 4 => (part, self.random.pick(&far)),
            _ => (0, 0),
        };
        let lost = time[part].wrapping_sub(new);
        time[part] = new;
        if self.random.one_in(2) {
            // Rule 1 counts a quarter once, rule 2 twice; an hour and a minute count alike.
            let weight = if part == 1 { self.struck.rule } else { 1 };
            let other = &mut time[if part == 0 { 2 } else { 0 }];
            *other = other.wrapping_add(lost.wrapping_mul(weight));
        }
    }

    /// A list without a place for the last stroke, for any, or for some; one that would do under
    /// the other rule, if that has fewer strokes.
    fn short_list(&mut self) {
        let last = self.strokes() - 1;
        let other = self.strokes_by_other_rule().min(last);
        let places = [last, other, other, 0, self.random.below(last + 1)];
        self.record.places = self.random.pick(&places) as u16;
    }

    /// Memory that ends at the table or before it, or an address beyond memory, some of which
    /// would be inside if they lost their high bits or wrapped.
    fn no_count(&mut self) {
        let address = self.record.address;
        let top = 0xFFFF_FFF0 - 16 * self.random.below(3);
        match self.random.below(8) {
            0 | 1 => self.record.words = self.table as u16,
            2 => self.record.words = self.random.below(self.table + 1) as u16,
            3 => self.record.address = u32::from(self.record.words) * 16 + address % 16,
            4 => self.record.address = address | 1 << (20 + self.random.below(12)),
            5 => self.record.address = self.random.bits() | 1 << 31,
            _ => self.record.address = top | (address % 16),
        }
    }

    /// A count that isn't the time's, often that of the other rule if it has one of its own;
    /// perhaps with ticks missing too.
    fn wrong_count(&mut self) {
        let (strokes, other) = (self.strokes(), self.strokes_by_other_rule());
        let near = self.random.pick(&[strokes - 1, strokes + 1]);
        let far = [0, 0xFFFF, strokes + 256, self.random.bits()];
        let far = self.random.pick(&far);
        let other = if other == strokes { near } else { other };
        let counts = [near, far, other];
        self.set(0, self.random.pick(&counts) as u16);
        if self.random.one_in(3) {
            self.cut();
        }
    }

    /// Memory that ends within the ticks: before the last, the first, or any.
    fn cut(&mut self) {
        let strokes = self.strokes();
        let kept = [strokes - 1, strokes - 1, 0, self.random.below(strokes)];
        let end = self.table + 1 + self.random.pick(&kept);
        self.record.words = end.min(MOST) as u16;
    }

    fn no_tick(&mut self) {
        self.cut();
        if self.random.one_in(2) {
            self.not_rising();
        }
    }

    /// Two neighbouring ticks made equal, swapped, or falling by any number; or all made equal.
    fn not_rising(&mut self) {
        let strokes = self.strokes();
        if strokes == 1 {
            return;
        }
        let any = 1 + self.random.below(strokes - 1);
        let k = self.random.pick(&[1, strokes - 1, any, any]);
        let (Some(this), Some(that)) = (self.index(k), self.index(k + 1)) else {
            return;
        };
        let (one, next) = (self.record.laid[this], self.record.laid[that]);
        let lower = self.random.below(u32::from(one) + 1) as u16;
        match self.random.below(5) {
            0 => self.set(k, next),
            1 => self.set(k + 1, one),
            2 => (1..=strokes).for_each(|k| self.set(k, one)),
            3 => {
                self.set(k, next);
                self.set(k + 1, one);
            }
            _ => self.set(k + 1, lower),
        }
    }
}
