//! How often each number was answered.

/// The numbers are 0, for what is accepted, and the refusals 1 to 12.
pub const NUMBERS: u32 = 13;

/// The counts of the numbers.
#[derive(Default)]
pub struct Answers([usize; NUMBERS as usize]);

impl Answers {
    /// Counts an answer.
    pub fn enter(&mut self, number: u32) {
        self.0[number as usize] += 1;
    }

    /// How often a number was answered.
    pub fn count(&self, number: u32) -> usize {
        self.0[number as usize]
    }

    /// What is wrong where these numbers can be answered and no other: each should have been.
    pub fn complaints(&self, possible: &[u32]) -> Vec<String> {
        let complaint = |number| match (possible.contains(&number), self.count(number)) {
            (true, 0) => Some(format!("{number} was never answered")),
            (false, 1..) => Some(format!("{number} cannot be answered")),
            _ => None,
        };
        (0..NUMBERS).filter_map(complaint).collect()
    }
}
