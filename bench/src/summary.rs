//! What the inputs of a row are and what its calls leave, to see that a load is what it is meant
//! to be.

use crate::contest::{self, Outcome};
use crate::input::Input;
use crate::load::Row;

/// The number of a call that needs entry 257.
const FULL: u32 = 8;

/// A row in numbers.
pub struct Summary<'a> {
    pub name: &'a str,
    /// How many inputs there are.
    pub inputs: usize,
    /// The calls of all inputs, without the starts of chains.
    pub calls: usize,
    /// The median of the groups or entries that an input starts from.
    pub given: usize,
    /// The median of the entries after the last call of an input, where that is accepted; None
    /// for questions.
    pub left: Option<usize>,
    /// The most entries after any call.
    pub most: Option<usize>,
    /// The entries after all these calls together, where they are accepted; None for questions.
    pub total: Option<usize>,
    /// The calls that were full.
    pub full: usize,
}

impl Summary<'_> {
    /// The numbers of a row, once both sides are seen to give the same on each of its inputs: a
    /// fast wrong table is worth nothing. The error says where they differ.
    pub fn of(row: &Row) -> Result<Summary<'_>, String> {
        let mut outcomes = Vec::new();
        for (i, input) in row.inputs.iter().enumerate() {
            let place = |difference| format!("{}, input {}: {difference}", row.name, i + 1);
            outcomes.push(contest::outcomes(input).map_err(place)?);
        }
        for input in row.beside.iter().flat_map(|beside| &beside.inputs) {
            let place = |difference| format!("{}, beside it: {difference}", row.name);
            contest::outcomes(input).map_err(place)?;
        }
        let last = outcomes.iter().filter_map(|calls| calls.last());
        let accepted = last.filter(|last| last.number == 0);
        let calls = || outcomes.iter().flat_map(|calls| after_start(calls));
        let done = calls().filter(|call| call.number == 0);
        Ok(Summary {
            name: &row.name,
            inputs: row.inputs.len(),
            calls: calls().count(),
            given: median(row.inputs.iter().map(Input::size)).unwrap_or(0),
            left: median(accepted.filter_map(|last| last.entries)),
            most: outcomes
                .iter()
                .flatten()
                .filter_map(|call| call.entries)
                .max(),
            total: done.map(|call| call.entries).sum(),
            full: calls().filter(|call| call.number == FULL).count(),
        })
    }
}

/// The calls of an input; the first of several only starts a chain.
fn after_start(calls: &[Outcome]) -> &[Outcome] {
    match calls {
        [_, steps @ ..] if !steps.is_empty() => steps,
        _ => calls,
    }
}

/// Prints a line for each row, and last how many inputs there are.
pub fn print(summaries: &[Summary]) {
    println!(
        "{:<32} {:>6} {:>5} {:>5} {:>4} {:>4} {:>4} {:>6}",
        "row", "inputs", "given", "calls", "full", "left", "most", "total"
    );
    let number = |number: Option<usize>| number.map_or("-".into(), |number| number.to_string());
    for summary in summaries {
        println!(
            "{:<32} {:>6} {:>5} {:>5} {:>4} {:>4} {:>4} {:>6}",
            summary.name,
            summary.inputs,
            summary.given,
            summary.calls,
            summary.full,
            number(summary.left),
            number(summary.most),
            number(summary.total)
        );
    }
    let inputs: usize = summaries.iter().map(|summary| summary.inputs).sum();
    println!("both sides give the same on {inputs} inputs");
}

/// The middle one of some numbers.
pub fn median(numbers: impl Iterator<Item = usize>) -> Option<usize> {
    let mut numbers: Vec<usize> = numbers.collect();
    numbers.sort_unstable();
    numbers.get(numbers.len() / 2).copied()
}
