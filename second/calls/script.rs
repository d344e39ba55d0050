//! The random script: scenes that meet the edges of document 01 (ends of memory and list, the
//! pointer's wrap, byte orders, hollow words, refusals), one after the other.

use crate::calls::maker::Maker;
use crate::port::{BIT_10, INCR, INCW, LBL};

const EVERY: u64 = 40;
const STEPS: u32 = (INCR | INCW) as u32;

pub fn script(seed: u64, calls: u64) -> Vec<u8> {
    let mut make = Maker::new(seed, EVERY);
    while make.calls < calls {
        make.scene();
    }
    make.call('D', &[]);
    make.lines
}

impl Maker {
    /// A scene's accesses by the host are all by value, all in place, or some of each.
    fn scene(&mut self) {
        self.in_place = self.pick(&[0, 0, 1, 2]);
        match self.below(40) {
            0..=3 => self.new_memory(),
            4 => self.too_long(),
            5..=11 => self.table(),
            12..=15 => self.hollow_word(),
            16..=19 => self.set_registers(),
            20..=25 => self.repeat(8, Maker::either_side),
            26..=28 => self.repeat(7, Maker::field),
            29..=31 => self.repeat(11, Maker::bus),
            32..=35 => self.block_group(),
            36 => self.big_block(),
            37 => self.after_reset(),
            _ => self.bit_ten(),
        }
    }

    fn repeat(&mut self, most: u32, call: fn(&mut Maker)) {
        for _ in 0..1 + self.below(most) {
            call(self);
        }
    }

    fn new_memory(&mut self) {
        let small = 2 + self.below(10);
        let length = match self.below(24) {
            0 | 1 => 0,
            2..=4 => 1,
            5..=18 => small,
            19 => small * 30,
            20 | 21 => 32_767,
            _ => 32_768,
        };
        self.call('N', &[length]);
        if self.one_in(3) {
            self.call('M', &[self.bits(), self.bits() | 1]);
        }
    }

    /// A few calls with a memory over the limit, wrong in other points too now and then.
    fn too_long(&mut self) {
        self.call(
            'N',
            &[self.pick(&[32_769, 32_769, 32_770, 65_536, u32::MAX])],
        );
        self.repeat(4, Maker::access);
        self.repeat(2, Maker::field);
        self.repeat(2, Maker::block);
        self.new_memory();
    }

    /// A bit address: inside, at the last words, past them, at the wrap, or anywhere.
    fn address(&self) -> u32 {
        let word = match self.below(12) {
            0..=2 => self.below(self.length.max(1)),
            3..=6 => self.length.saturating_sub(1 + self.below(3)),
            7 | 8 => self.length + self.below(3),
            9 => 0x0FFF_FFFF - self.below(3),
            10 => self.pick(&[0x0C00_0000, 0x0800_0000, 0x0FFF, 0x1000, 0x7FFF, 0x8000]),
            _ => self.bits() >> 4,
        };
        word * 16 + self.low_bits()
    }

    fn low_bits(&self) -> u32 {
        self.pick(&[0, 0, 1]) * self.below(16)
    }

    /// A control word with those bits off and those on.
    fn control(&self, off: u16, on: u16) -> u32 {
        self.bits() & 0xFFFF & !u32::from(off) | u32::from(on)
    }

    fn set_registers(&mut self) {
        let off = self.pick(&[0, BIT_10, BIT_10, BIT_10]);
        let control = self.control(off, 0);
        self.call('G', &[self.address(), self.bits(), control, self.bits()]);
        self.repeat(5, Maker::access);
    }

    /// The lanes of a word, whole or byte by byte, in the right order (the closing byte last) or
    /// in the wrong one.
    fn lanes(&self, lbl: u16) -> &'static [u32] {
        let orders: [&[u32]; 2] = if lbl == 0 {
            [&[1, 2], &[2, 1]]
        } else {
            [&[2, 1], &[1, 2]]
        };
        self.pick(&[&[3], &[3], &[3], orders[0], orders[0], orders[1]])
    }

    fn load(&mut self, pointer: u32, lbl: u16) {
        let mut halves = [(0, pointer & 0xFFFF), (1, pointer >> 16)];
        if (lbl != 0) != self.one_in(6) {
            halves.reverse();
        }
        let lanes = self.lanes(lbl);
        for (register, half) in halves {
            lanes
                .iter()
                .for_each(|&lane| self.host('W', &[register, lane, half]));
        }
    }

    /// Sets HSTCTL, loads the pointer, and reads or writes a table to the end of memory, or to
    /// the pointer's wrap, and beyond, with other calls among them.
    fn table(&mut self) {
        let lbl = self.pick(&[0, LBL]);
        let steps = self.pick(&[0, INCR, INCR, INCW, INCR | INCW, INCR | INCW]);
        let control = self.control(INCR | INCW | LBL, steps | lbl);
        self.host('W', &[3, 3, control]);
        let before = self.below(self.length.min(9) + 1);
        let end = self.pick(&[self.length, self.length, self.length, 0x1000_0000]);
        let pointer = (end - before).wrapping_mul(16) | self.low_bits();
        self.load(pointer, lbl);
        let lanes = self.lanes(lbl);
        let letters = self.pick(&[['R', 'R'], ['R', 'R'], ['R', 'W'], ['W', 'W']]);
        for _ in 0..before + 1 + self.below(3) {
            let letter = self.pick(&letters);
            let word = if letter == 'W' { self.bits() } else { 0 };
            lanes
                .iter()
                .for_each(|&lane| self.host(letter, &[2, lane, word]));
            if self.one_in(10) {
                self.between();
            }
        }
    }

    fn between(&mut self) {
        match self.below(4) {
            0 | 1 => self.either_side(),
            2 => self.field(),
            _ => self.bus(),
        }
    }

    /// A hollow word, half written, read, perhaps with something between, then closed.
    fn hollow_word(&mut self) {
        let lbl = self.pick(&[0, LBL]);
        let (first, closing) = if lbl == 0 { (1, 2) } else { (2, 1) };
        let control = self.control(LBL | BIT_10, lbl);
        self.call('G', &[self.address(), 0xFFFF, control, 1]);
        self.host('W', &[2, first, self.bits()]);
        self.host('R', &[2, self.pick(&[first, first, closing, 3])]);
        if self.one_in(3) {
            self.between();
        }
        self.host('W', &[2, self.pick(&[closing, closing, 3]), self.bits()]);
        self.host('R', &[2, first]);
        self.host('R', &[2, 3]);
    }

    fn either_side(&mut self) {
        if self.one_in(3) {
            self.processor();
        } else {
            self.access();
        }
    }

    fn access(&mut self) {
        let mut register = self.pick(&[0, 1, 2, 2, 2, 2, 3]);
        let mut lanes = self.pick(&[1, 2, 3, 3]);
        if self.one_in(12) {
            register = self.pick(&[4, 5, 7, 0x102, 0x1_0002, 0x8000_0002, u32::MAX]);
        }
        if self.one_in(12) {
            lanes = self.pick(&[0, 4, 5, 7, 0x103, 0x1_0003, 0x8000_0001, u32::MAX]);
        }
        let word = match register {
            0 => self.address() & 0xFFFF,
            1 => self.address() >> 16,
            _ => self.bits(),
        };
        if self.one_in(2) {
            self.host('R', &[register, lanes]);
        } else {
            self.host('W', &[register, lanes, word]);
        }
    }

    fn processor(&mut self) {
        let mut register = self.below(5);
        if self.one_in(10) {
            register = self.pick(&[5, 6, 0x104, 0x1_0000, u32::MAX]);
        }
        if self.one_in(2) {
            self.call('P', &[register]);
        } else {
            self.call('Q', &[register, self.bits()]);
        }
    }

    /// A record with bit 10 set, read and written by both sides.
    fn bit_ten(&mut self) {
        let control = self.control(0, BIT_10);
        self.call('G', &[self.address(), self.bits(), control, self.bits()]);
        for _ in 0..3 + self.below(4) {
            let (lanes, half) = (1 + self.below(3), 3 + self.below(2));
            match self.below(6) {
                0 | 1 => self.host('R', &[3, lanes]),
                2 => self.host('W', &[3, lanes, self.bits()]),
                3 => self.call('P', &[half]),
                4 => self.call('Q', &[half, self.bits()]),
                _ => self.access(),
            }
        }
    }

    /// A field put in or taken out; now and then its least signed number put in and taken out.
    fn field(&mut self) {
        let mut size = 1 + self.below(32);
        let end = self.length * 16 + self.pick(&[0, 0, 1, 2]);
        let mut address = match self.below(4) {
            0 => self.address(),
            1 => self.below(self.length.max(1) * 16),
            _ => end.saturating_sub(size),
        };
        if self.one_in(8) {
            size = self.pick(&[0, 33, 34, 48, 0x101, 0x1_0001, 0x8000_0010, u32::MAX]);
        } else if self.one_in(8) {
            address = u32::MAX - self.below(40);
        }
        let value = self.pick(&[u32::MAX, self.bits(), self.bits()]);
        match self.below(5) {
            0 | 1 => self.call('F', &[address, size, value]),
            2 => self.call('T', &[address, size]),
            3 => self.call('S', &[address, size]),
            _ => {
                self.call('F', &[address, size, 1 << (size.wrapping_sub(1) % 32)]);
                self.call('S', &[address, size]);
            }
        }
    }

    fn bus(&mut self) {
        match self.below(10) {
            0..=4 => self.call('A', &[self.below(5)]),
            5 => self.call('A', &[self.pick(&[5, 6, 0x100, 0x1_0001, u32::MAX])]),
            6..=8 => self.call('B', &[]),
            _ => self.call('C', &[]),
        }
    }

    fn block_group(&mut self) {
        if self.one_in(3) {
            let few = 1 + self.below(12);
            self.call('L', &[self.pick(&[0, few, few, few, few, 8_192, 8_193])]);
        }
        if self.one_in(6) {
            self.call('J', &[self.bits(), self.bits()]);
        }
        let control = self.control(BIT_10, 0) | self.pick(&[0, STEPS, STEPS]);
        self.call('G', &[self.address(), 0xFFFF, control, self.bits()]);
        self.repeat(4, Maker::block);
    }

    fn block(&mut self) {
        let few = self.below(self.size.min(12) + 2);
        let count = match self.below(16) {
            0 => 0,
            1..=3 => 1,
            4 => self.pick(&[4_096, 4_097, 4_097, 65_537, 0x8000_0001, u32::MAX]),
            _ => few,
        };
        let (size, words) = (u64::from(self.size), u64::from(count));
        let place = match self.below(16) {
            0..=5 => size.saturating_sub(words),
            6..=8 => u64::from(self.below(self.size + 1)),
            9 => size.saturating_sub(words) + 1,
            10 => size,
            11 => size + 1,
            12 => u64::MAX - u64::from(self.below(2)),
            13 => 0u64.wrapping_sub(words),
            14 => self.pick(&[1 << 32, 1 << 63, (1 << 32) + 1, u64::MAX >> 1]),
            _ => 0,
        };
        let letter = self.pick(&['I', 'O']);
        self.call(letter, &[place as u32, (place >> 32) as u32, count]);
    }

    /// A block of 4,096 words, the most, or one off, in a long list, near the end of memory.
    fn big_block(&mut self) {
        self.call('L', &[8_192]);
        let word = self.length.saturating_sub(self.below(5_000));
        let control = self.control(BIT_10, 0) | STEPS;
        self.call('G', &[word * 16, 0, control, 0]);
        let place = self.pick(&[0, 1, 4_095, 4_096, 4_096, 4_097]);
        let count = self.pick(&[4_095, 4_096, 4_096, 4_096, 4_097]);
        self.call(self.pick(&['I', 'O']), &[place, 0, count]);
    }

    /// Reset, with requests waiting before it, and what it leaves.
    fn after_reset(&mut self) {
        self.repeat(3, Maker::bus);
        self.call('Z', &[]);
        match self.below(3) {
            0 => self.call('B', &[]),
            1 => self.host('R', &[2, 3]),
            _ => self.call('I', &[0, 0, 2]),
        }
    }
}
