//! A list of host accesses, one slice for each part: document 02, request (ii).

/// The most places that a script lends of each slice.
pub const PLACES: usize = 6;
/// Kind, register, lanes and word; a list has its slices in this order.
pub type Access = [u32; 4];

/// The places of the four slices, and how many of each are lent.
pub struct List {
    pub parts: [[u32; PLACES]; 4],
    pub lent: [usize; 4],
}

impl List {
    /// The list's length is that of its shortest slice.
    pub fn length(&self) -> usize {
        let [kinds, registers, lanes, words] = self.lent;
        kinds.min(registers).min(lanes).min(words)
    }

    pub fn get(&self, k: usize) -> Access {
        self.parts.map(|part| part[k])
    }

    fn set(&mut self, k: usize, access: Access) {
        for (part, value) in self.parts.iter_mut().zip(access) {
            part[k] = value;
        }
    }

    /// Lays accesses into the list's first places; the others stay.
    pub fn lay(&mut self, accesses: &[Access]) {
        for (k, access) in accesses.iter().enumerate() {
            self.set(k, *access);
        }
    }
}
