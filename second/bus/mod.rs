//! The five sources of bus requests and the order of their grants: document 01, "Bus order".

const HOLD: usize = 0;

/// "Sources, highest first [..]: 0 hold, 1 screen refresh, 2 DRAM refresh, 3 host, 4 processor.
/// Each waits or doesn't."
#[derive(Default)]
pub struct Bus {
    waits: [bool; 5],
}

impl Bus {
    /// Reset leaves "no bus request waiting".
    pub fn reset(&mut self) {
        self.waits = [false; 5];
    }

    /// The source waits from now on; refused with 7 if "that source already waits", with 9 if it is
    /// "not 0 to 4".
    pub fn ask(&mut self, source: u32) -> u8 {
        match self.waits.get_mut(source as usize) {
            Some(true) => 7,
            Some(waits) => {
                *waits = true;
                0
            }
            None => 9,
        }
    }

    /// Number and source. "A grant answers the highest waiting source and clears it, except hold,
    /// which stays until released."
    pub fn grant(&mut self) -> (u8, u32) {
        let Some(source) = (0..5).find(|&source| self.waits[source]) else {
            return (8, 0);
        };
        self.waits[source] = source == HOLD;
        (0, source as u32)
    }

    /// "Hold may be released whether or not it was granted." Refused is a "release with no hold".
    pub fn release(&mut self) -> u8 {
        let waited = std::mem::replace(&mut self.waits[HOLD], false);
        if waited {
            0
        } else {
            8
        }
    }

    /// Bit s is set if source s waits.
    pub fn number(&self) -> u32 {
        (0..5).fold(0, |sum, s| sum | u32::from(self.waits[s]) << s)
    }
}
