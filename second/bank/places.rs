//! The sixteen places that the port of the bank selects reaches, in the order of 001's index table,
//! and the half of a register that each of them is.

use crate::bank::{Bank, BANKS};
use Register::{Compare, Mask};

pub const PLACES: u32 = 16;

#[derive(Clone, Copy, PartialEq)]
pub enum Register {
    Compare,
    Mask,
}

/// How far a half is from its register's lowest bit.
const LOW: u32 = 0;
const HIGH: u32 = 16;

/// The half of a register of a bank.
#[derive(Clone, Copy)]
pub struct Place {
    bank: usize,
    pub register: Register,
    half: u32,
}

const fn place(bank: usize, register: Register, half: u32) -> Place {
    Place {
        bank,
        register,
        half,
    }
}

/// 001's table. It prints 0000b twice; the second is 0001b.
const TABLE: [Place; PLACES as usize] = [
    place(0, Compare, LOW),  // 0000b BKAD0L
    place(0, Compare, HIGH), // 0001b BKAD0H
    place(1, Compare, LOW),  // 0010b BKAD1L
    place(1, Compare, HIGH), // 0011b BKAD1H
    place(2, Compare, LOW),  // 0100b BKAD2L
    place(2, Compare, HIGH), // 0101b BKAD2H
    place(3, Compare, LOW),  // 0110b BKAD3L
    place(3, Compare, HIGH), // 0111b BKAD3H
    place(0, Mask, LOW),     // 1000b BKMSK0L
    place(0, Mask, HIGH),    // 1001b BKMSK0H
    place(1, Mask, LOW),     // 1010b BKMSK1L
    place(1, Mask, HIGH),    // 1011b BKMSK1H
    place(2, Mask, LOW),     // 1100b BKMSK2L
    place(2, Mask, HIGH),    // 1101b BKMSK2H
    place(3, Mask, LOW),     // 1110b BKMSK3L
    place(3, Mask, HIGH),    // 1111b BKMSK3H
];

impl Place {
    /// The place that an index stands for.
    pub fn of(index: u32) -> Place {
        TABLE[(index % PLACES) as usize]
    }

    pub fn get(self, banks: &[Bank; BANKS]) -> u16 {
        let whole = match self.register {
            Compare => banks[self.bank].compare,
            Mask => banks[self.bank].mask,
        };
        (whole >> self.half) as u16
    }

    /// Replaces the half, and leaves the other one.
    pub fn set(self, banks: &mut [Bank; BANKS], word: u16) {
        let whole = match self.register {
            Compare => &mut banks[self.bank].compare,
            Mask => &mut banks[self.bank].mask,
        };
        *whole = *whole & !(0xFFFF << self.half) | u32::from(word) << self.half;
    }
}
