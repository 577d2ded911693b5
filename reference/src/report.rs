//! The text of the program `sharerun` (01, "The program `sharerun`"; how much it reads 02, "Thirty-two
//! variables").

use crate::forms::{read_equations, read_front};
use crate::refusal::Refusal;
use crate::running::Running;
use crate::table::{Side, Table};
use crate::terms::Equation;

/// The most bytes of input.
pub const INPUT: usize = 8192;

/// What the program makes of an input: the run as values, and the whole text it prints.
#[derive(Clone, Debug, PartialEq, Eq)]
pub struct Report {
    /// The number, the count of equations and the table.
    pub outcome: Running,
    /// The text, with a newline after every line.
    pub text: String,
}

/// Reads a positive table and then equations, and prints the table and what each equation makes
/// of it.
pub fn report(input: &[u8]) -> Report {
    let side = Side::Positive.number();
    match read_input(input) {
        Ok((table, equations)) => report_run(Running::started(side, table), &equations),
        Err(refusal) => Report {
            outcome: Running::refused(side, refusal),
            text: format!("refused {}\n", refusal.number()),
        },
    }
}

/// The input: more than 8192 bytes is 1 before any other check; more may follow the table, and
/// the equations take exactly the rest.
fn read_input(input: &[u8]) -> Result<(Table, Vec<Equation>), Refusal> {
    if input.len() > INPUT {
        return Err(Refusal::Torn);
    }
    let (table, rest) = read_front(input)?;
    let equations = read_equations(table.l, rest)?;
    Ok((table, equations))
}

/// The text of a checked run; a full equation ends it.
fn report_run(mut state: Running, equations: &[Equation]) -> Report {
    let count = state.table.entries.len();
    let mut text =
        format!("vars {} entries {count}\n", state.table.l) + &entries_text(&state.table);
    for (equation, number) in equations.iter().zip(1..) {
        if let Err(refusal) = state.apply(equation) {
            text += &format!("eq {number} refused {}\n", refusal.number());
            break;
        }
        text += &format!("eq {number} entries {}\n", state.table.entries.len());
        text += &entries_text(&state.table);
    }
    Report {
        outcome: state,
        text,
    }
}

/// Each entry on a line, position 1 first.
fn entries_text(table: &Table) -> String {
    table
        .entries
        .iter()
        .map(|entry| entry.text(table.l) + "\n")
        .collect()
}
