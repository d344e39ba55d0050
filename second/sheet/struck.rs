//! A time struck and the rule that counts its strokes: document 02, requests (viii) and (ix).

/// The time struck, and the rule by which its strokes are counted.
#[derive(Clone, Copy)]
pub struct Struck {
    pub rule: u32,
    /// Hours, quarters and minutes.
    pub time: [u32; 3],
}

impl Struck {
    /// The same time by another rule.
    pub fn by(self, rule: u32) -> Struck {
        Struck { rule, ..self }
    }

    /// Whether the rule is "rule 1, the old, or rule 2".
    pub fn known(self) -> bool {
        matches!(self.rule, 1 | 2)
    }

    /// Whether its parts are "hours 1 to 12, quarters 0 to 3, minutes 0 to 14".
    pub fn in_range(self) -> bool {
        let [hours, quarters, minutes] = self.time;
        (1..=12).contains(&hours) && quarters <= 3 && minutes <= 14
    }

    /// By rule 1 "hours + quarters + minutes". By rule 2 a quarter counts as two: "A quarter sounds
    /// on both gongs, and our new tables enter each tone". In 64 bits, where no sum wraps, also if
    /// the time is out of range.
    pub fn strokes(self) -> u64 {
        let [hours, quarters, minutes] = self.time.map(u64::from);
        match self.rule {
            1 => hours + quarters + minutes,
            _ => hours + 2 * quarters + minutes,
        }
    }
}
