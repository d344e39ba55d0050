//! The registers and how the host and the processor reach them: document 01, "Memory and
//! addresses", "The four host registers" and "The processor's side".

pub mod access;

use crate::refusal::none_of;

// "HSTCTL bits (004, section 10.2): MSGIN 0-2, INTIN 3, MSGOUT 4-6, INTOUT 7, NMI 8, NMIM 9, INCW
// 11, INCR 12, LBL 13, CF 14, HLT 15." Those that no rule speaks of have no name here.
const MSGIN: u16 = 0x0007;
const INTIN: u16 = 0x0008;
const MSGOUT: u16 = 0x0070;
const INTOUT: u16 = 0x0080;
pub const BIT_10: u16 = 0x0400;
pub const INCW: u16 = 0x0800;
pub const INCR: u16 = 0x1000;
pub const LBL: u16 = 0x2000;
const HLT: u16 = 0x8000;

const LOW: u16 = 0x00FF;
const HIGH: u16 = 0xFF00;

/// "A cycle whose word is not in the lent memory is" empty.
#[derive(PartialEq)]
pub enum Cycle {
    None,
    Inside,
    Empty,
}

/// "Each host answer has: number, word (0 for a write), hollow mark (false but for reads of
/// register 2), and the cycle: none, inside or empty."
pub struct Answer {
    pub number: u8,
    pub word: u16,
    pub hollow: bool,
    pub cycle: Cycle,
}

#[derive(Clone, Copy)]
pub struct Port {
    /// HSTADRL, its low half, and HSTADRH, its high half.
    pub pointer: u32,
    /// HSTDATA.
    pub data: u16,
    /// HSTCTL.
    pub control: u16,
    /// HSTDATA's mark.
    pub hollow: bool,
}

/// The answer to a write, or to a refusal: "A refusal returns zeros and false marks, cycle none".
fn without_word(number: u8, cycle: Cycle) -> Answer {
    Answer {
        number,
        word: 0,
        hollow: false,
        cycle,
    }
}

/// Number 1, which every call that is lent a memory tests.
pub fn too_long(memory: &[u16]) -> bool {
    memory.len() > 32_768
}

/// "Tested in this order: 11 first, then as numbered." Number 11 is the C door's alone.
fn judged(memory: &[u16], register: u32, lanes: u32) -> Result<(), u8> {
    none_of(&[
        (too_long(memory), 1),
        (register > 3, 2),
        (!(1..=3).contains(&lanes), 3),
    ])
}

/// The bits of the selected bytes: "1 is the low byte, 2 the high, 3 both."
fn selected(lanes: u32) -> u16 {
    [0, LOW, HIGH, LOW | HIGH][lanes as usize]
}

fn replaced(old: u16, new: u16, bits: u16) -> u16 {
    (old & !bits) | (new & bits)
}

/// What a write of the high control byte leaves there: all its bits but 10, which "is always 0".
fn high_control(word: u16) -> u16 {
    word & HIGH & !BIT_10
}

impl Port {
    /// "Reset: all registers 0 except HLT 1, hollow true".
    pub fn reset() -> Port {
        Port {
            pointer: 0,
            data: 0,
            control: HLT,
            hollow: true,
        }
    }

    /// "Reading registers 0, 1 and 3 changes nothing. [..] Reading register 2 answers what HSTDATA
    /// held at entry, with its hollow mark at entry. If the closing byte is selected, then: with
    /// INCR 1 the pointer gains 16; then a fetch."
    pub fn read(&mut self, memory: &[u16], register: u32, lanes: u32) -> Answer {
        if let Err(number) = judged(memory, register, lanes) {
            return without_word(number, Cycle::None);
        }
        let bits = selected(lanes);
        let word = self.register(register) & bits;
        let hollow = register == 2 && self.hollow;
        let mut cycle = Cycle::None;
        if register == 2 && self.closes(bits) {
            self.step_if(INCR);
            cycle = self.fetch(memory);
        }
        Answer {
            number: 0,
            word,
            hollow,
            cycle,
        }
    }

    /// The closing byte and the half that fetches go by "LBL as it stands before the access".
    pub fn write(&mut self, memory: &mut [u16], register: u32, lanes: u32, word: u16) -> Answer {
        if let Err(number) = judged(memory, register, lanes) {
            return without_word(number, Cycle::None);
        }
        let bits = selected(lanes);
        let closes = self.closes(bits);
        let last_half = if self.control & LBL == 0 { 1 } else { 0 };
        let mut cycle = Cycle::None;
        match register {
            // "Writing register 0 or 1 replaces the selected bytes. If the closing byte is
            // selected, and the register is 1 with LBL 0, or 0 with LBL 1, memory is fetched at the
            // new pointer. This fetch doesn't increment, whatever INCR says."
            0 | 1 => {
                self.set_half(register, replaced(self.register(register), word, bits));
                if closes && register == last_half {
                    cycle = self.fetch(memory);
                }
            }
            // "Writing register 2 replaces the selected bytes. If the closing byte is selected: the
            // whole of HSTDATA is stored at the pointer, the hollow mark clears, then with INCW 1
            // the pointer gains 16."
            2 => {
                self.data = replaced(self.data, word, bits);
                if closes {
                    cycle = self.store(memory);
                }
            }
            // "Writing register 3, low lane: MSGIN is replaced; INTIN becomes old OR written;
            // INTOUT becomes old AND written; MSGOUT stays. High lane: all its bits but 10 are
            // replaced."
            _ => {
                let old = self.control;
                let low = word & MSGIN | (old | word) & INTIN | old & MSGOUT | old & word & INTOUT;
                self.control = replaced(old, high_control(word) | low, bits);
            }
        }
        without_word(0, cycle)
    }

    /// Whether the closing byte is among those bits: "the high byte when LBL is 0 and the low byte
    /// when LBL is 1".
    fn closes(&self, bits: u16) -> bool {
        let closing = if self.control & LBL == 0 { HIGH } else { LOW };
        bits & closing != 0
    }

    /// A step, if that bit of HSTCTL is 1: "The pointer gains 16 modulo 2^32: after FFFFFFF0h comes
    /// 0."
    fn step_if(&mut self, bit: u16) {
        if self.control & bit != 0 {
            self.pointer = self.pointer.wrapping_add(16);
        }
    }

    /// The number of a cycle's word: "A pointer keeps its four low bits; a cycle uses pointer div
    /// 16 (house)."
    fn word_number(&self) -> usize {
        self.pointer as usize / 16
    }

    /// "A fetch inside memory clears the hollow mark." "An empty fetch puts FFFFh in HSTDATA and
    /// makes it" hollow.
    fn fetch(&mut self, memory: &[u16]) -> Cycle {
        if let Some(&word) = memory.get(self.word_number()) {
            self.data = word;
            self.hollow = false;
            return Cycle::Inside;
        }
        self.data = 0xFFFF;
        self.hollow = true;
        Cycle::Empty
    }

    /// "an empty store is dropped (house)": of all that a store does, only the storing.
    fn store(&mut self, memory: &mut [u16]) -> Cycle {
        let mut cycle = Cycle::Empty;
        if let Some(word) = memory.get_mut(self.word_number()) {
            *word = self.data;
            cycle = Cycle::Inside;
        }
        self.hollow = false;
        self.step_if(INCW);
        cycle
    }

    /// A register as the host reads it, with both lanes; bit 10 "reads as 0".
    fn register(&self, register: u32) -> u16 {
        match register {
            0 => self.pointer as u16,
            1 => (self.pointer >> 16) as u16,
            2 => self.data,
            _ => self.control & !BIT_10,
        }
    }

    fn set_half(&mut self, register: u32, half: u16) {
        let shift = 16 * register;
        self.pointer = self.pointer & !(0xFFFF << shift) | u32::from(half) << shift;
    }

    /// Number and word. "HSTCTLL reads as the low byte", "HSTCTLH reads with a zero low byte".
    pub fn processor_read(&self, register: u32) -> (u8, u16) {
        match register {
            0..=2 => (0, self.register(register)),
            3 => (0, self.control & LOW),
            4 => (0, self.register(3) & HIGH),
            _ => (2, 0),
        }
    }

    /// "A write to HSTDATA clears the hollow mark." HSTCTLL: "a write replaces MSGOUT, makes INTIN
    /// old AND written and INTOUT old OR written, and keeps MSGIN"; HSTCTLH: "a write replaces the
    /// high byte but bit 10".
    pub fn processor_write(&mut self, register: u32, word: u16) -> u8 {
        let old = self.control;
        match register {
            0 | 1 => self.set_half(register, word),
            2 => {
                self.data = word;
                self.hollow = false;
            }
            3 => {
                let low = old & MSGIN | old & word & INTIN | word & MSGOUT | (old | word) & INTOUT;
                self.control = old & HIGH | low;
            }
            4 => self.control = old & LOW | high_control(word),
            _ => return 2,
        }
        0
    }
}
