//! The rows of the reason behind a group, on tables of 256 entries. Ours is also timed against the
//! question whether a variable is ground, which reads the same table.

use reference::entry::{rising_bits, variable_bit};
use reference::terms::variables;
use reference::{Entry, Equation, Refusal, Table, ENTRIES, VARIABLES};
use support::Random;

use crate::input::Input;
use crate::load::{Row, WIDE};
use crate::{drawing, tables};

/// These rows have a generator of their own, so that the inputs of the others stay the same; this is
/// the fraction of the root of 13.
const SEED: u64 = 0x9B05_688C_2B3E_6C1F;

/// A row for each width of words in a form.
pub fn rows() -> Result<Vec<Row>, Refusal> {
    let mut random = Random::from_state(SEED);
    let widths = [WIDE, VARIABLES].into_iter();
    widths.map(|l| row(&mut random, l)).collect()
}

/// Tables that reading leaves as they are. Each group is one that the equation joins, since for these
/// nothing ends the search early.
fn row(random: &mut Random, l: u32) -> Result<Row, Refusal> {
    let fixed = l as usize / 2..=l as usize;
    let tables = tables::grown_strings(random, l, ENTRIES, &fixed)?;
    let (mut reasons, mut grounds) = (Vec::new(), Vec::new());
    for table in &tables {
        let equation = drawing::equation(random, l);
        let group = joined(random, table, &equation);
        reasons.push(Input::reason(table, &equation, group));
        grounds.push(Input::ground(table, equation.left.into()));
    }
    let name = format!("reason of {l}, {ENTRIES} entries");
    let row = Row::new(name, 0.50, reasons)?.bounded(0.50);
    row.beside("ground", grounds)
}

/// A group of the table with the left variable, and for each variable of the term one with that, taken
/// together.
fn joined(random: &mut Random, table: &Table, equation: &Equation) -> u32 {
    let names = variable_bit(equation.left.into()) | variables(&equation.term);
    rising_bits(names).fold(0, |all, name| all | group_with(random, table, name))
}

/// A group of the table with a variable; that variable alone where no entry covers one.
fn group_with(random: &mut Random, table: &Table, name: u32) -> u32 {
    let entries = table.entries.iter();
    let having: Vec<Entry> = entries
        .filter_map(|entry| entry.meet(Entry::ones_at(name)))
        .collect();
    let entry = having.get(random.below(having.len()));
    entry.map_or(name, |&entry| random.covered_by(table.l, entry))
}
