//! A script that is made one sequence of calls after the other, and cut after so many of them.

#[derive(Default)]
pub struct Sequences {
    script: Vec<u8>,
    /// Where in the script each sequence begins.
    begins: Vec<usize>,
}

impl Sequences {
    pub fn begin(&mut self) {
        self.begins.push(self.script.len());
    }

    /// Adds a call to the sequence that was begun last.
    pub fn add(&mut self, record: &[u8]) {
        self.script.extend(record);
    }

    pub fn count(&self) -> usize {
        self.begins.len()
    }

    /// The calls of the first so many sequences.
    pub fn first(mut self, count: usize) -> Vec<u8> {
        let all = self.script.len();
        let end = *self.begins.get(count).unwrap_or(&all);
        self.script.truncate(end);
        self.script
    }
}
