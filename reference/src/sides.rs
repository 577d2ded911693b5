//! Change of side, join and projection (01, "The growth rule and what stands on it").

use crate::entry::{rising_bits, Entry};
use crate::growth::{grow, grow_all, grown};
use crate::refusal::Refusal;
use crate::table::Side;

/// Change of side: from one all-star entry, the strings of each given entry are taken away.
pub fn change_side(l: u32, entries: &[Entry]) -> Result<Vec<Entry>, Refusal> {
    let mut list = vec![Entry::ALL_STAR];
    for &v in entries {
        take_away(l, &mut list, v)?;
    }
    Ok(list)
}

/// One entry v of a change of side: the matching entries leave the list, in order, and each
/// gives the strings that differ from v at one position where it has `*` and v is fixed.
fn take_away(l: u32, list: &mut Vec<Entry>, v: Entry) -> Result<(), Refusal> {
    let (matching, left): (Vec<Entry>, Vec<Entry>) = list.iter().partition(|y| y.matches(v));
    *list = left;
    for y in matching {
        for bit in rising_bits(v.care & !y.care) {
            let opposite = Entry {
                care: y.care | bit,
                value: y.value | (bit & !v.value),
            };
            grow(l, list, opposite)?;
        }
    }
    Ok(())
}

/// Grow the meets of matching entries, the first list's outermost.
pub fn meets(l: u32, first: &[Entry], second: &[Entry]) -> Result<Vec<Entry>, Refusal> {
    let mut list = Vec::new();
    for &a in first {
        grow_all(l, &mut list, second.iter().filter_map(|&b| a.meet(b)))?;
    }
    Ok(list)
}

/// Join: positive, the first list grown by the second's entries; negative, the meets.
pub fn join(side: Side, l: u32, first: &[Entry], second: &[Entry]) -> Result<Vec<Entry>, Refusal> {
    match side {
        Side::Positive => grown(l, first, second.iter().copied()),
        Side::Negative => meets(l, first, second),
    }
}

/// Projection onto the kept positions; the result has as many positions as `keep` has ones.
pub fn projection(side: Side, l: u32, entries: &[Entry], keep: u32) -> Result<Vec<Entry>, Refusal> {
    match side {
        Side::Positive => positive_projection(entries, keep),
        Side::Negative => {
            let positive = change_side(l, entries)?;
            change_side(keep.count_ones(), &positive_projection(&positive, keep)?)
        }
    }
}

/// Projection, positive: cut each entry and grow.
fn positive_projection(entries: &[Entry], keep: u32) -> Result<Vec<Entry>, Refusal> {
    let mut list = Vec::new();
    for entry in entries {
        grow(keep.count_ones(), &mut list, entry.cut(keep))?;
    }
    Ok(list)
}
