//! The calls on table values: the checks of 01, "Refusals", in order, then the rule itself.
//! The refused caller still has the table that it gave. The questions are in `questions`.

use crate::entry::low_bits;
use crate::equations;
use crate::growth;
use crate::refusal::Refusal;
use crate::sides;
use crate::table::{check_width, Side, Table};
use crate::terms::{check_single_equation, check_single_terms, kind};
use crate::unification;

/// Convert groups to a positive table: 2, 4 over all words, 8.
pub fn convert(l: u32, groups: &[u32]) -> Result<Table, Refusal> {
    check_width(l)?;
    Ok(Table {
        l,
        entries: growth::convert(l, groups)?,
    })
}

/// Change of side; the rule is the same from either side.
pub fn change_side(table: &Table) -> Result<Table, Refusal> {
    table.check()?;
    Ok(Table {
        l: table.l,
        entries: sides::change_side(table.l, &table.entries)?,
    })
}

/// One equation: the table's checks, then those of the equation, then 8.
pub fn equation(side: Side, table: &Table, variable: u32, term: &[u16]) -> Result<Table, Refusal> {
    table.check()?;
    check_single_equation(table.l, variable, term)?;
    let kind = kind(variable, term);
    Ok(Table {
        l: table.l,
        entries: equations::equation(side, table.l, &table.entries, variable, kind)?,
    })
}

/// Two terms set equal: the table's checks, then those of the terms, then 8.
pub fn unify(side: Side, table: &Table, left: &[u16], right: &[u16]) -> Result<Table, Refusal> {
    table.check()?;
    check_single_terms(table.l, left, right)?;
    Ok(Table {
        l: table.l,
        entries: unification::unify(side, table.l, &table.entries, left, right)?,
    })
}

/// Join: the first table's checks, the second's, 10, 8.
pub fn join(side: Side, first: &Table, second: &Table) -> Result<Table, Refusal> {
    first.check()?;
    second.check()?;
    if first.l != second.l {
        return Err(Refusal::Unlike);
    }
    Ok(Table {
        l: first.l,
        entries: sides::join(side, first.l, &first.entries, &second.entries)?,
    })
}

/// Projection: the table's checks, 11 for no variable or one above l, 8.
pub fn projection(side: Side, table: &Table, keep: u32) -> Result<Table, Refusal> {
    table.check()?;
    if keep == 0 || keep & !low_bits(table.l) != 0 {
        return Err(Refusal::Keep);
    }
    Ok(Table {
        l: keep.count_ones(),
        entries: sides::projection(side, table.l, &table.entries, keep)?,
    })
}
