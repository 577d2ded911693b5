//! The calls on byte buffers. Each returns 0 where accepted, else the number of the refusal,
//! and a refused call writes nothing. Side 0 is positive, any other number negative.

use crate::forms::{read_front, read_table, read_tokens, read_two_tokens, write_table};
use crate::operations;
use crate::packed::{read_packed, write_packed};
use crate::questions;
use crate::reasons;
use crate::refusal::{number_of, Refusal};
use crate::table::{Side, Table};

pub use crate::running::{run, start, step, unify_run, unify_step, write};

/// Writes an accepted table into the lent output (9 where it is too short).
fn hand_back(outcome: Result<Table, Refusal>, out: &mut [u8]) -> u32 {
    number_of(&outcome.and_then(|table| write_table(&table, out)))
}

/// Writes an accepted answer, 1 for yes and 0 for no.
fn answer_with(outcome: Result<bool, Refusal>, answer: &mut u32) -> u32 {
    if let Ok(yes) = outcome {
        *answer = u32::from(yes);
    }
    number_of(&outcome)
}

/// Two forms; the first is checked first.
fn read_two(first: &[u8], second: &[u8]) -> Result<(Table, Table), Refusal> {
    Ok((read_table(first)?, read_table(second)?))
}

/// Reads a form, which grows its entries, and writes it again.
pub fn read(table: &[u8], out: &mut [u8]) -> u32 {
    hand_back(read_table(table), out)
}

/// Reads a form and writes the packed form.
pub fn pack(table: &[u8], out: &mut [u8]) -> u32 {
    number_of(&read_table(table).and_then(|table| write_packed(&table, out)))
}

/// Reads a packed form, which grows its entries, and writes the form.
pub fn unpack(packed: &[u8], out: &mut [u8]) -> u32 {
    hand_back(read_packed(packed), out)
}

/// Converts groups to a positive table.
pub fn convert(l: u32, groups: &[u32], out: &mut [u8]) -> u32 {
    hand_back(operations::convert(l, groups), out)
}

/// Changes the side of a table; the rule is the same from either side.
pub fn change_side(_side: u32, table: &[u8], out: &mut [u8]) -> u32 {
    hand_back(
        read_table(table).and_then(|table| operations::change_side(&table)),
        out,
    )
}

/// One equation: the table, the term's bytes (7, 1), the variable, the tokens, 8, 9.
pub fn equation(side: u32, table: &[u8], variable: u32, term: &[u8], out: &mut [u8]) -> u32 {
    let outcome = read_table(table).and_then(|table| {
        let tokens = read_tokens(term)?;
        operations::equation(Side::of_number(side), &table, variable, &tokens)
    });
    hand_back(outcome, out)
}

/// Two terms set equal: the table, the terms' bytes (7, 1), the tokens, 8, 9.
pub fn unify(side: u32, table: &[u8], left: &[u8], right: &[u8], out: &mut [u8]) -> u32 {
    let outcome = read_table(table).and_then(|table| {
        let (left, right) = read_two_tokens(left, right)?;
        operations::unify(Side::of_number(side), &table, &left, &right)
    });
    hand_back(outcome, out)
}

/// Joins two tables of one side.
pub fn join(side: u32, first: &[u8], second: &[u8], out: &mut [u8]) -> u32 {
    let outcome = read_two(first, second)
        .and_then(|(first, second)| operations::join(Side::of_number(side), &first, &second));
    hand_back(outcome, out)
}

/// Projects a table onto a set of variables.
pub fn project(side: u32, table: &[u8], keep: u32, out: &mut [u8]) -> u32 {
    let outcome = read_table(table)
        .and_then(|table| operations::projection(Side::of_number(side), &table, keep));
    hand_back(outcome, out)
}

/// Whether two tables of one side are equal in groups.
pub fn equal(first: &[u8], second: &[u8], answer: &mut u32) -> u32 {
    let outcome =
        read_two(first, second).and_then(|(first, second)| questions::equal(&first, &second));
    answer_with(outcome, answer)
}

/// Whether a variable is ground.
pub fn ground(side: u32, table: &[u8], variable: u32, answer: &mut u32) -> u32 {
    let outcome = read_table(table)
        .and_then(|table| questions::ground(Side::of_number(side), &table, variable));
    answer_with(outcome, answer)
}

/// Whether two sets of variables are independent.
pub fn independent(side: u32, table: &[u8], first: u32, second: u32, answer: &mut u32) -> u32 {
    let outcome = read_table(table)
        .and_then(|table| questions::independent(Side::of_number(side), &table, first, second));
    answer_with(outcome, answer)
}

/// The reason behind a group after an equation on a positive table: the table, the term's bytes (7,
/// 1), the variable, the tokens, the group (4, 11). The answer is three words.
pub fn reason(
    table: &[u8],
    variable: u32,
    term: &[u8],
    group: u32,
    verdict: &mut u32,
    x_entry: &mut u32,
    t_entry: &mut u32,
) -> u32 {
    let outcome = read_table(table).and_then(|table| {
        let tokens = read_tokens(term)?;
        reasons::reason(&table, variable, &tokens, group)
    });
    if let Ok(reason) = outcome {
        [*verdict, *x_entry, *t_entry] = reason.numbers();
    }
    number_of(&outcome)
}

/// Of two buffers that begin with a positive and a negative form, the form with fewer entries
/// written, tail cut; equal counts give the positive. Empty where either does not read or their
/// l differ.
pub fn smaller<'a>(positive: &'a [u8], negative: &'a [u8]) -> &'a [u8] {
    match (read_form(positive), read_form(negative)) {
        (Ok((l, positive)), Ok((other_l, negative))) if l == other_l => {
            if negative.len() < positive.len() {
                negative
            } else {
                positive
            }
        }
        _ => &[],
    }
}

/// The l and the part of the buffer that its form takes up; its length goes by the n written.
fn read_form(buffer: &[u8]) -> Result<(u32, &[u8]), Refusal> {
    let (table, rest) = read_front(buffer)?;
    Ok((table.l, &buffer[..buffer.len() - rest.len()]))
}
