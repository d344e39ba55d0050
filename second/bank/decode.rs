//! The decode: "A bank is selected exactly when address and compare value agree on every bit that
//! the mask allows and that document's control word admits the cycle's kind (ordinary, refresh or
//! special; ordinary is always admitted) for that bank" (document 02, request (vi); that document
//! is 001). So the address must agree in refresh and special cycles too.

use crate::bank::{Answer, Bank, Bridge};

impl Bridge {
    /// "The answer shows all four, and several may be selected", although 001's bridge asserts the
    /// lowest alone. Nothing changes.
    pub fn decode(&self, kind: u32, address: u32, control: u16) -> Answer {
        let Some(kind) = Kind::of(kind) else {
            return Answer::of(31);
        };
        let control = Control(control);
        let mut answer = Answer::of(0);
        for (number, bank) in self.banks.iter().enumerate() {
            let selected = bank.agrees(address) && control.admits(kind, number, address);
            answer.selected |= u8::from(selected) << number;
        }
        answer
    }
}

#[derive(Clone, Copy)]
enum Kind {
    Ordinary,
    Refresh,
    Special,
}

impl Kind {
    /// The kind of that number, if it is known.
    fn of(number: u32) -> Option<Kind> {
        match number {
            0 => Some(Kind::Ordinary),
            1 => Some(Kind::Refresh),
            2 => Some(Kind::Special),
            _ => None,
        }
    }
}

impl Bank {
    /// Whether the bits that the mask has set are the same in the address and the compare value;
    /// 001: "A BKMSKx bit set to zero causes the 34094 to disregard the corresponding BKADx and LAD
    /// bus address bit in the comparison."
    fn agrees(&self, address: u32) -> bool {
        address & self.mask == self.compare & self.mask
    }
}

/// The control word, BKCTL in 001. Its ABE (bit 5), BPNT (bits 4 to 1) and bit 0 play no part.
#[derive(Clone, Copy)]
struct Control(u16);

impl Control {
    /// Whether a cycle of that kind is admitted for a bank.
    fn admits(self, kind: Kind, bank: usize, address: u32) -> bool {
        match kind {
            Kind::Ordinary => true,
            Kind::Refresh => !self.bdrd(bank) && self.in_turn(bank, address),
            Kind::Special => self.bven(bank),
        }
    }

    /// BVEN, bits 15 to 12: whether the bank answers special cycles.
    fn bven(self, bank: usize) -> bool {
        self.0 >> (12 + bank) & 1 == 1
    }

    /// BDRD, bits 11 to 8: whether the bank ignores refresh cycles.
    fn bdrd(self, bank: usize) -> bool {
        self.0 >> (8 + bank) & 1 == 1
    }

    /// Whether RM, bits 7 and 6, admits a refresh at that address for a bank. 001: "If the memory
    /// banks are to be refreshed alternately, the TMS34094 determines which bank is refreshed using
    /// the values on LAD16 and LAD17." Which pairs is (ours): banks 0 and 2 take turns with 1 and
    /// 3.
    fn in_turn(self, bank: usize, address: u32) -> bool {
        let turn = (address >> 16) as usize % 4;
        match self.0 >> 6 & 3 {
            0b00 => true,                 // "Refresh all banks simultaneously"
            0b01 => bank % 2 == turn % 2, // "Refresh alternate pairs"
            0b10 => bank == turn,         // "Refresh one bank at a time"
            _ => false,                   // "No refresh"
        }
    }
}
