//! What was answered how often.

use reference::forms::{read_equations, read_front};
use reference::report::Report;
use reference::terms::kind;
use reference::VARIABLES;
use support::{Answers, Kinds};

/// The words of 01 for the refusals 1 to 8.
const WORDS: [&str; 8] = [
    "torn", "width", "entries", "stray", "name", "term", "long", "full",
];

/// The counts of some reports.
#[derive(Default)]
pub struct Tally {
    /// By number; 0 is an accepted run.
    numbers: Answers,
    /// Full runs that had an accepted equation.
    later: usize,
    /// Accepted runs with at least one equation.
    applied: usize,
    /// The equations of accepted runs.
    kinds: Kinds,
    /// The widths of accepted runs, bit l-1 for l.
    widths: u32,
    longest: usize,
}

impl Tally {
    /// Counts one report of an input.
    pub fn enter(&mut self, input: &[u8], report: &Report) {
        let outcome = &report.outcome;
        self.numbers.enter(outcome.code);
        let applied = usize::from(outcome.applied > 0);
        match outcome.code {
            0 => {
                self.applied += applied;
                self.widths |= 1 << (outcome.table.l - 1);
                self.enter_kinds(input);
            }
            8 => self.later += applied,
            _ => {}
        }
        self.longest = self.longest.max(report.text.len());
    }

    /// Counts the equations of an accepted input.
    fn enter_kinds(&mut self, input: &[u8]) {
        let read = read_front(input).and_then(|(table, rest)| read_equations(table.l, rest));
        for equation in read.unwrap_or_default() {
            self.kinds.enter(kind(equation.left.into(), &equation.term));
        }
    }

    /// Prints the counts.
    pub fn print(&self) {
        let Tally {
            numbers,
            later,
            applied,
            ..
        } = self;
        println!(
            "accepted          {:>5}, {applied} with equations",
            numbers.count(0)
        );
        for (word, number) in WORDS.iter().zip(1..) {
            let count = numbers.count(number);
            let more = match number {
                8 => format!(", {later} after an accepted equation"),
                _ => String::new(),
            };
            println!("refused {number} {word:<8}{count:>5}{more}");
        }
        println!("equations    {}", self.kinds);
        println!("longest text      {:>5} bytes", self.longest);
    }

    /// What never occurred and should have, or cannot: an empty list where all is as it should be.
    pub fn complaints(&self) -> Vec<String> {
        let mut complaints = self.numbers.complaints(&[0, 1, 2, 3, 4, 5, 6, 7, 8]);
        if self.widths.count_ones() != VARIABLES {
            complaints.push("some width was never accepted".into());
        }
        if self.applied == 0 || self.later == 0 {
            complaints.push("no equation was accepted, or none before a full one".into());
        }
        complaints.extend(self.kinds.complaints());
        complaints
    }
}
