//! The times of the rows: measured, printed and held to their bounds.

use std::time::Duration;

use crate::contest;
use crate::load::{Beside, Row};
use crate::timing::{rounds, Times};

/// Where samples are long, a round of a row ends once a side has taken this long.
pub const LONG: Duration = Duration::from_millis(500);

/// How many inputs of a row are also timed each by itself.
const REPEATED: usize = 8;

/// The same for one such input.
const LONG_REPEATED: Duration = Duration::from_millis(100);

/// What a call may take, as a multiple of the other one on the same tables: goal and bound.
const BESIDE: f64 = 2.0;

/// A row with its least times, of one pass over its inputs.
pub struct Measured<'a> {
    row: &'a Row,
    /// The other side, where that is not plain Rust.
    beside: Option<&'a Beside>,
    /// The inputs take turns: a new one each time, as in use.
    in_turn: Times,
    /// Each of the first inputs again and again, whose branches the processor then knows.
    repeated: Vec<Times>,
}

impl<'a> Measured<'a> {
    /// The row before its first round, against plain Rust or against another call.
    fn unknown(row: &'a Row, beside: Option<&'a Beside>) -> Measured<'a> {
        Measured {
            row,
            beside,
            in_turn: Times::UNKNOWN,
            repeated: vec![Times::UNKNOWN; REPEATED],
        }
    }

    /// One more round.
    fn round(&mut self) {
        let inputs = &self.row.inputs;
        let others = self.beside.map(|beside| &beside.inputs[..]);
        self.in_turn = self.in_turn.min(contest::times(inputs, others, LONG));
        for (i, times) in self.repeated.iter_mut().enumerate() {
            let other = others.map(|others| &others[i..=i]);
            *times = times.min(contest::times(&inputs[i..=i], other, LONG_REPEATED));
        }
    }

    /// What the ratios shall be, and above what `--check` fails.
    fn goal_and_bound(&self) -> (f64, f64) {
        match self.beside {
            None => (self.row.goal, self.row.bound),
            Some(_) => (BESIDE, BESIDE),
        }
    }

    /// The other side, for the head of its column.
    fn other(&self) -> &str {
        self.beside.map_or("plain", |beside| beside.call)
    }

    /// The time of ours as a part of the time of the other side, in turn and repeated.
    fn ratios(&self) -> [f64; 2] {
        let sum = |side: fn(&Times) -> f64| self.repeated.iter().map(side).sum::<f64>();
        [
            self.in_turn.ratio(),
            sum(|times| times.ours) / sum(|times| times.other),
        ]
    }

    /// The greater ratio.
    fn worst(&self) -> f64 {
        self.ratios().into_iter().fold(0.0, f64::max)
    }
}

/// Times the rows: all against plain Rust, and some against another call too.
pub fn measure(rows: &[Row]) -> Vec<Measured<'_>> {
    let plain = rows.iter().map(|row| Measured::unknown(row, None));
    let beside = rows.iter().filter(|row| row.beside.is_some());
    let beside = beside.map(|row| Measured::unknown(row, row.beside.as_ref()));
    let mut results: Vec<Measured> = plain.chain(beside).collect();
    rounds(&mut results, Measured::round);
    results
}

/// Prints the rows against plain Rust, those against each other call, and last how many reach their
/// goal.
pub fn print(results: &[Measured]) {
    results
        .chunk_by(|a, b| a.other() == b.other())
        .for_each(print_lines);
    let reached = results
        .iter()
        .filter(|result| result.worst() <= result.goal_and_bound().0);
    println!(
        "{} of {} rows reach their goal",
        reached.count(),
        results.len()
    );
}

/// Prints a line for each row against the same side, in microseconds for one input in turn.
fn print_lines(results: &[Measured]) {
    let other = results.first().map_or("", Measured::other);
    println!(
        "{:<32} {:>9} {:>9} {:>7} {:>8} {:>5} {:>5}",
        "row",
        format!("{other} us"),
        "ours us",
        "in turn",
        "repeated",
        "goal",
        "bound"
    );
    for result in results {
        let row = result.row;
        let [other, ours] = result.in_turn.microseconds(row.inputs.len());
        let [in_turn, repeated] = result.ratios();
        let (goal, bound) = result.goal_and_bound();
        println!(
            "{:<32} {other:>9.3} {ours:>9.3} {in_turn:>7.3} {repeated:>8.3} {goal:>5.2} {bound:>5.2}",
            row.name
        );
    }
}

/// A line for each row of which a ratio is above its bound.
pub fn above_bounds(results: &[Measured]) -> Vec<String> {
    let above = results
        .iter()
        .filter(|result| result.worst() > result.goal_and_bound().1);
    above.map(above_bound).collect()
}

/// The line of one row.
fn above_bound(result: &Measured) -> String {
    let (name, other, ratio) = (&result.row.name, result.other(), result.worst());
    format!("{name}, against {other}, is above its bound: {ratio:.4}")
}
