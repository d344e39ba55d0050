//! A single host access in its two forms: document 01, "Blocks and the two doors", "besides the
//! form by value, a single host access updates that record in place".

use crate::port::{Answer, Port};

/// A write has a word, a read has none.
pub struct Access {
    pub register: u32,
    pub lanes: u32,
    pub word: Option<u16>,
}

impl Access {
    fn on(&self, port: &mut Port, memory: &mut [u16]) -> Answer {
        match self.word {
            None => port.read(memory, self.register, self.lanes),
            Some(word) => port.write(memory, self.register, self.lanes, word),
        }
    }
}

/// By value: what is answered, and the registers that are left.
pub fn by_value(port: Port, memory: &mut [u16], access: Access) -> (Answer, Port) {
    let mut left = port;
    let answer = access.on(&mut left, memory);
    (answer, left)
}

/// In place: what is answered; the registers are left in the record.
pub fn in_place(record: &mut Port, memory: &mut [u16], access: Access) -> Answer {
    access.on(record, memory)
}
