//! Relevant, irrelevant, cross, close and the equation of both sides (01, "The growth rule and
//! what stands on it"; 02, "A variable set equal to itself"). Sets of variables are words; x is a
//! variable number.

use crate::entry::{rising_bits, variable_bit, Entry};
use crate::growth::{grow, grow_all, grown};
use crate::refusal::Refusal;
use crate::sides::{change_side, meets};
use crate::table::{Side, Table};
use crate::terms::Kind;

/// Relevant: for each entry, for each named variable rising, grow its meet with the string
/// having 1 there, if they match.
pub fn relevant(l: u32, entries: &[Entry], names: u32) -> Result<Vec<Entry>, Refusal> {
    let mut list = Vec::new();
    for entry in entries {
        grow_all(
            l,
            &mut list,
            rising_bits(names).filter_map(|bit| entry.meet(Entry::ones_at(bit))),
        )?;
    }
    Ok(list)
}

/// Irrelevant: grow each entry's meet with the string having 0 at all named variables, if they
/// match.
pub fn irrelevant(l: u32, entries: &[Entry], names: u32) -> Result<Vec<Entry>, Refusal> {
    let zeros = Entry::zeros_at(names);
    grown(l, &[], entries.iter().filter_map(|entry| entry.meet(zeros)))
}

/// Cross: for each a, each b, grow "a or b".
pub fn cross(l: u32, first: &[Entry], second: &[Entry]) -> Result<Vec<Entry>, Refusal> {
    let mut list = Vec::new();
    for a in first {
        grow_all(l, &mut list, second.iter().map(|&b| a.or(b)))?;
    }
    Ok(list)
}

/// Close: for each c in turn, a copy of the list so far is grown by "r or c" for each r of that
/// list, then by c, and becomes the list.
pub fn close(l: u32, entries: &[Entry]) -> Result<Vec<Entry>, Refusal> {
    let mut closed: Vec<Entry> = Vec::new();
    for &c in entries {
        let mut copy = closed.clone();
        grow_all(l, &mut copy, closed.iter().map(|r| r.or(c)))?;
        grow(l, &mut copy, c)?;
        closed = copy;
    }
    Ok(closed)
}

/// Equation x = t on either side. Where t is x the entries are as given, and where it holds x deeper
/// there are no groups: neither grows a list, so neither is full.
pub fn equation(
    side: Side,
    l: u32,
    entries: &[Entry],
    x: u32,
    kind: Kind,
) -> Result<Vec<Entry>, Refusal> {
    match (kind, side) {
        (Kind::Itself, _) => Ok(entries.to_vec()),
        (Kind::Deeper, _) => Ok(Table::without_groups(side, l).entries),
        (Kind::Plain(variables), Side::Positive) => positive_equation(l, entries, x, variables),
        (Kind::Plain(variables), Side::Negative) => negative_equation(l, entries, x, variables),
    }
}

/// Equation, positive: grow the irrelevant entries, then those of the closed cross of the
/// entries relevant to x and to t, which does not hold x.
pub fn positive_equation(
    l: u32,
    entries: &[Entry],
    x: u32,
    variables: u32,
) -> Result<Vec<Entry>, Refusal> {
    let x = variable_bit(x);
    let relevant_x = relevant(l, entries, x)?;
    let relevant_t = relevant(l, entries, variables)?;
    let joined = close(l, &cross(l, &relevant_x, &relevant_t)?)?;
    grown(l, &irrelevant(l, entries, x | variables)?, joined)
}

/// Equation, negative, of such a t: P and Q stand for the groups with x and with some variable of t,
/// C for those with neither, K for the closed cross; the result is the meets of C and K.
pub fn negative_equation(
    l: u32,
    entries: &[Entry],
    x: u32,
    variables: u32,
) -> Result<Vec<Entry>, Refusal> {
    let x = variable_bit(x);
    let p = grown(l, entries, [Entry::zeros_at(x)])?;
    let q = grown(l, entries, [Entry::zeros_at(variables)])?;
    let c = grown(l, entries, rising_bits(x | variables).map(Entry::ones_at))?;
    let joined = close(l, &cross(l, &change_side(l, &p)?, &change_side(l, &q)?)?)?;
    let k = change_side(l, &joined)?;
    meets(l, &c, &k)
}
