//! The three questions (01, "Questions"), on table values. The set of all groups, by which the paper
//! says them, is too large from some 20 variables on; a test compares the two for few variables.

use crate::cover::leaves_a_group;
use crate::entry::{low_bits, rising_bits, variable_bit, Entry};
use crate::refusal::Refusal;
use crate::table::{check_variable, Side, Table};

/// Whether two tables of one side are equal in groups; the answer is the same for both sides.
pub fn equal(first: &Table, second: &Table) -> Result<bool, Refusal> {
    first.check()?;
    second.check()?;
    if first.l != second.l {
        return Err(Refusal::Unlike);
    }
    Ok(covers(first, second) && covers(second, first))
}

/// Whether a variable is ground: no group has it.
pub fn ground(side: Side, table: &Table, variable: u32) -> Result<bool, Refusal> {
    table.check()?;
    check_variable(table.l, variable)?;
    Ok(no_group_has(side, table, variable_bit(variable)))
}

/// Whether two sets of variables are independent: no group meets both. Both sets are checked,
/// also where one is empty.
pub fn independent(side: Side, table: &Table, first: u32, second: u32) -> Result<bool, Refusal> {
    table.check()?;
    if (first | second) & !low_bits(table.l) != 0 {
        return Err(Refusal::Name);
    }
    let mut pairs = rising_bits(first).flat_map(|x| rising_bits(second).map(move |y| x | y));
    let no_group_meets_both = pairs.all(|pair| no_group_has(side, table, pair));
    Ok(no_group_meets_both)
}

/// Whether each group that an entry of the second table covers is covered by one of the first.
fn covers(first: &Table, second: &Table) -> bool {
    let mut entries = second.entries.iter();
    !entries.any(|&entry| leaves_a_group(first.l, entry, &first.entries))
}

/// Whether no group of a table has all variables of a set that is not empty.
fn no_group_has(side: Side, table: &Table, set: u32) -> bool {
    let having = Entry::ones_at(set);
    match side {
        Side::Positive => !table.entries.iter().any(|entry| entry.matches(having)),
        Side::Negative => !leaves_a_group(table.l, having, &table.entries),
    }
}
