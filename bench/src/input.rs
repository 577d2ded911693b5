//! What is checked and timed: calls with the bytes and numbers that they are given.

use reference::forms::{bytes_of, table_length, write_table};
use reference::{Entry, Equation, Refusal, Side, Table, TwoTerms};
use support::tables::{form_entries, packed};

use crate::questions::{Equality, Independence, Question};

/// The calls of one input.
pub enum Input {
    /// A form that is read, which grows its strings in order.
    Read { table: Vec<u8> },
    /// A form that is read and packed.
    Pack { table: Vec<u8> },
    /// A packed form that is read.
    Unpack { packed: Vec<u8> },
    /// Groups that are converted, in order.
    Convert { l: u32, groups: Vec<u32> },
    /// A positive table that is changed to negative.
    ChangeSide { table: Vec<u8> },
    /// Two terms that are set equal on a positive table.
    Unify {
        table: Vec<u8>,
        left: Vec<u8>,
        right: Vec<u8>,
    },
    /// A running analysis.
    Chain(Chain),
    /// Two tables that are compared.
    Equal { first: Vec<u8>, second: Vec<u8> },
    /// Two sets that are asked of a negative table.
    Independent { table: Vec<u8>, a: u32, b: u32 },
    /// A variable that is asked of a positive table.
    Ground { table: Vec<u8>, variable: u32 },
    /// A group whose reason is asked, after an equation on a positive table.
    Reason {
        table: Vec<u8>,
        step: Step,
        group: u32,
    },
}

/// A start, and equations, each on the table that the last one left.
pub struct Chain {
    pub side: Side,
    pub table: Vec<u8>,
    pub steps: Vec<Step>,
}

/// An equation with its term as bytes.
pub struct Step {
    pub variable: u32,
    pub term: Vec<u8>,
}

impl Step {
    fn of(equation: &Equation) -> Step {
        Step {
            variable: equation.left.into(),
            term: bytes_of(equation.term.iter().copied()),
        }
    }
}

/// Each of these is refused where a table cannot be written.
impl Input {
    pub fn read(l: u32, strings: &[Entry]) -> Result<Input, Refusal> {
        let table = form(l, strings)?;
        Ok(Input::Read { table })
    }

    pub fn pack(table: &Table) -> Result<Input, Refusal> {
        let table = form(table.l, &table.entries)?;
        Ok(Input::Pack { table })
    }

    pub fn unpack(table: &Table) -> Result<Input, Refusal> {
        let packed = packed(table);
        Ok(Input::Unpack { packed })
    }

    pub fn change_side(table: &Table) -> Result<Input, Refusal> {
        let table = form(table.l, &table.entries)?;
        Ok(Input::ChangeSide { table })
    }

    pub fn unify(table: &Table, terms: &TwoTerms) -> Result<Input, Refusal> {
        Ok(Input::Unify {
            table: form(table.l, &table.entries)?,
            left: bytes_of(terms.left.iter().copied()),
            right: bytes_of(terms.right.iter().copied()),
        })
    }

    pub fn chain(side: Side, table: &Table, equations: &[Equation]) -> Result<Input, Refusal> {
        Ok(Input::Chain(Chain {
            side,
            table: form(table.l, &table.entries)?,
            steps: equations.iter().map(Step::of).collect(),
        }))
    }

    pub fn ground(table: &Table, variable: u32) -> Result<Input, Refusal> {
        let table = form(table.l, &table.entries)?;
        Ok(Input::Ground { table, variable })
    }

    pub fn reason(table: &Table, equation: &Equation, group: u32) -> Result<Input, Refusal> {
        Ok(Input::Reason {
            table: form(table.l, &table.entries)?,
            step: Step::of(equation),
            group,
        })
    }

    pub fn question(question: &Question) -> Result<Input, Refusal> {
        match question {
            Question::Equality(Equality { l, first, second }) => Ok(Input::Equal {
                first: form(*l, first)?,
                second: form(*l, second)?,
            }),
            Question::Independence(Independence { l, entries, a, b }) => Ok(Input::Independent {
                table: form(*l, entries)?,
                a: *a,
                b: *b,
            }),
        }
    }

    /// How many groups or entries the input starts from.
    pub fn size(&self) -> usize {
        match self {
            Input::Convert { groups, .. } => groups.len(),
            Input::Read { table }
            | Input::Pack { table }
            | Input::Unpack { packed: table }
            | Input::ChangeSide { table }
            | Input::Unify { table, .. }
            | Input::Chain(Chain { table, .. })
            | Input::Equal { first: table, .. }
            | Input::Independent { table, .. }
            | Input::Ground { table, .. }
            | Input::Reason { table, .. } => form_entries(table),
        }
    }
}

/// The form of a table with these entries, as they stand.
fn form(l: u32, entries: &[Entry]) -> Result<Vec<u8>, Refusal> {
    let entries = entries.to_vec();
    let mut form = vec![0; table_length(l, entries.len())];
    write_table(&Table { l, entries }, &mut form)?;
    Ok(form)
}
