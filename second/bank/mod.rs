//! The bank selects of a TMS34094 ISA bridge: their registers, a fresh start, and what a call on
//! them answers (document 02, request (vi); source document 001).

mod accesses;
mod caller;
mod cycles;
mod decode;
pub mod examples;
mod maps;
mod places;
mod port;
pub mod run;
pub mod script;

pub const BANKS: usize = 4;

/// What selects one bank: its compare value, BKADx in 001, and its mask, BKMSKx.
#[derive(Clone, Copy, Default)]
pub struct Bank {
    pub compare: u32,
    pub mask: u32,
}

/// What a call answers: its number; the half that a read finds; and the banks that a decode
/// selects, bit n for bank n. All else is 0.
#[derive(Default)]
pub struct Answer {
    pub number: u8,
    pub word: u16,
    pub selected: u8,
}

impl Answer {
    fn of(number: u8) -> Answer {
        Answer {
            number,
            ..Answer::default()
        }
    }
}

#[derive(Default)]
pub struct Bridge {
    pub banks: [Bank; BANKS],
    /// As it was passed, or as the last access left it. It stands for a place modulo 16.
    pub index: u32,
}

impl Bridge {
    /// A fresh start: "The caller passes the registers' starting contents and index (modulo 16)."
    pub fn start(&mut self, index: u32, banks: [Bank; BANKS]) -> Answer {
        self.index = index;
        self.banks = banks;
        Answer::of(0)
    }
}
