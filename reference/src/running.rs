//! The running analysis and the run (01, "Written form" and "Refusals"; with two terms 02, "Both
//! sides compound").

use crate::entry::Entry;
use crate::forms::write_table;
use crate::forms::{read_equations, read_table, read_tokens, read_two_terms, read_two_tokens};
use crate::operations;
use crate::refusal::{number_of, Refusal};
use crate::table::{Side, Table};
use crate::terms::{kind, Equation, TwoTerms};
use crate::{equations, unification};

/// The state of a running analysis.
#[derive(Clone, Debug, PartialEq, Eq)]
pub struct Running {
    /// The answer of the call that last wrote the state: 0 where accepted, else the refusal's
    /// number. A refused step writes nothing.
    pub code: u32,
    /// The side, as given: 0 is positive, any other number negative.
    pub side: u32,
    /// The number of accepted equations; it stays at its largest number.
    pub applied: u32,
    /// The table that the last accepted equation left.
    pub table: Table,
}

impl Running {
    /// The state before any equation.
    pub fn started(side: u32, table: Table) -> Running {
        Running {
            code: 0,
            side,
            applied: 0,
            table,
        }
    }

    /// The state of a refused start or run: no table value came in, so its table is all zero.
    pub fn refused(side: u32, refusal: Refusal) -> Running {
        Running {
            code: refusal.number(),
            side,
            applied: 0,
            table: Table::zero(),
        }
    }

    /// One checked equation of a run; a full one leaves the table and the count, and its number.
    pub fn apply(&mut self, equation: &Equation) -> Result<(), Refusal> {
        let x = u32::from(equation.left);
        let kind = kind(x, &equation.term);
        self.apply_rule(|side, l, entries| equations::equation(side, l, entries, x, kind))
    }

    /// The same of two checked terms.
    pub fn apply_terms(&mut self, terms: &TwoTerms) -> Result<(), Refusal> {
        let (left, right) = (&terms.left, &terms.right);
        self.apply_rule(|side, l, entries| unification::unify(side, l, entries, left, right))
    }

    /// The same by a rule on entries.
    fn apply_rule(
        &mut self,
        rule: impl Fn(Side, u32, &[Entry]) -> Result<Vec<Entry>, Refusal>,
    ) -> Result<(), Refusal> {
        let l = self.table.l;
        let entries = rule(Side::of_number(self.side), l, &self.table.entries);
        let taken = self.record(entries.map(|entries| Table { l, entries }));
        self.code = number_of(&taken);
        taken
    }

    /// Takes the outcome of an equation into the state; a refusal leaves all of it as it was.
    fn record(&mut self, outcome: Result<Table, Refusal>) -> Result<(), Refusal> {
        self.table = outcome?;
        self.code = 0;
        self.applied = self.applied.saturating_add(1);
        Ok(())
    }

    /// The table of one more equation: the table's checks as a value, then the term's bytes,
    /// then as the equation on values.
    fn next_table(&self, variable: u32, term: &[u8]) -> Result<Table, Refusal> {
        self.table.check()?;
        let tokens = read_tokens(term)?;
        operations::equation(Side::of_number(self.side), &self.table, variable, &tokens)
    }

    /// The table after two terms more are set equal: the checks in the same order.
    fn unified_table(&self, left: &[u8], right: &[u8]) -> Result<Table, Refusal> {
        self.table.check()?;
        let (left, right) = read_two_tokens(left, right)?;
        operations::unify(Side::of_number(self.side), &self.table, &left, &right)
    }
}

/// Starts a running analysis from the form of a table.
pub fn start(side: u32, table: &[u8]) -> Running {
    match read_table(table) {
        Ok(table) => Running::started(side, table),
        Err(refusal) => Running::refused(side, refusal),
    }
}

/// One equation of a running analysis; a refused one changes nothing.
pub fn step(state: &mut Running, variable: u32, term: &[u8]) -> u32 {
    let outcome = state.next_table(variable, term);
    number_of(&state.record(outcome))
}

/// Two terms set equal in a running analysis: one accepted call counts as one, however many
/// equations its walk finds.
pub fn unify_step(state: &mut Running, left: &[u8], right: &[u8]) -> u32 {
    let outcome = state.unified_table(left, right);
    number_of(&state.record(outcome))
}

/// Writes the form of the table that the state holds.
pub fn write(state: &Running, out: &mut [u8]) -> u32 {
    number_of(&write_table(&state.table, out))
}

/// A run: the whole input is checked first, then the equations are applied in order; a full one
/// ends it, with the table and the number of equations before it.
pub fn run(side: u32, table: &[u8], equations: &[u8]) -> Running {
    let read = |l| read_equations(l, equations);
    run_through(side, table, read, Running::apply)
}

/// A run of equations of two terms.
pub fn unify_run(side: u32, table: &[u8], equations: &[u8]) -> Running {
    let read = |l| read_two_terms(l, equations);
    run_through(side, table, read, Running::apply_terms)
}

/// A run of equations of either form, which are read for the l of the table.
fn run_through<E>(
    side: u32,
    table: &[u8],
    read: impl Fn(u32) -> Result<Vec<E>, Refusal>,
    apply: impl Fn(&mut Running, &E) -> Result<(), Refusal>,
) -> Running {
    let both = read_table(table).and_then(|table| Ok((read(table.l)?, table)));
    let (equations, table) = match both {
        Ok(both) => both,
        Err(refusal) => return Running::refused(side, refusal),
    };
    let mut state = Running::started(side, table);
    for equation in &equations {
        if apply(&mut state, equation).is_err() {
            break;
        }
    }
    state
}
