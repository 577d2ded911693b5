//! How often each verdict on a group was told.

use std::fmt;

/// The verdicts by their numbers, 0 to 6.
const NAMES: [&str; 7] = [
    "kept",
    "joined",
    "no x entry",
    "no t entry",
    "not made up",
    "not there",
    "no solution",
];

/// The counts of the verdicts.
#[derive(Clone, Copy, Default)]
pub struct Verdicts([usize; NAMES.len()]);

impl Verdicts {
    /// Counts a verdict.
    pub fn enter(&mut self, verdict: u32) {
        self.0[verdict as usize] += 1;
    }

    /// What is wrong where each verdict should have been told.
    pub fn complaints(&self) -> Vec<String> {
        let unseen = NAMES.iter().zip(self.0).filter(|(_, count)| *count == 0);
        unseen
            .map(|(name, _)| format!("'{name}' was never told"))
            .collect()
    }
}

impl fmt::Display for Verdicts {
    fn fmt(&self, formatter: &mut fmt::Formatter) -> fmt::Result {
        let counts = NAMES.iter().zip(self.0);
        let cells: Vec<String> = counts
            .map(|(name, count)| format!("{count:>8} {name}"))
            .collect();
        formatter.write_str(&cells.concat())
    }
}
