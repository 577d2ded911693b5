//! The growth rule (01, "The growth rule and what stands on it"; 02, "Widen wherever a list
//! grows"). Working lists are vectors of at most 256 entries, for any l up to 32.

use crate::entry::{low_bits, rising_bits, Entry};
use crate::refusal::Refusal;
use crate::table::ENTRIES;

/// Grow: an all-zero string changes nothing; any other is widened first. Where an entry subsumes
/// what it became, nothing changes; else the entries that this subsumes go and it is appended.
/// Where this needs entry 257 the list stays and the call is refused 8.
pub fn grow(l: u32, list: &mut Vec<Entry>, y: Entry) -> Result<(), Refusal> {
    if y.is_zero(l) {
        return Ok(());
    }
    let widened = widen(list, y);
    if list.iter().any(|entry| entry.subsumes(widened)) {
        return Ok(());
    }
    list.retain(|&entry| !widened.subsumes(entry));
    if list.len() >= ENTRIES {
        return Err(Refusal::Full);
    }
    list.push(widened);
    Ok(())
}

/// Grow a list by each of some strings, in order.
pub fn grow_all(
    l: u32,
    list: &mut Vec<Entry>,
    strings: impl IntoIterator<Item = Entry>,
) -> Result<(), Refusal> {
    strings.into_iter().try_for_each(|y| grow(l, list, y))
}

/// The list that starts from the given entries as they stand and is grown by some strings.
pub fn grown(
    l: u32,
    start: &[Entry],
    strings: impl IntoIterator<Item = Entry>,
) -> Result<Vec<Entry>, Refusal> {
    let mut list = start.to_vec();
    grow_all(l, &mut list, strings)?;
    Ok(list)
}

/// Widen: position by position, while more than one is fixed, a fixed position becomes `*`
/// where the string with that value flipped is subsumed by one entry.
pub fn widen(list: &[Entry], y: Entry) -> Entry {
    let mut widened = y;
    for bit in rising_bits(y.care) {
        if widened.care.count_ones() <= 1 {
            break;
        }
        let flipped = widened.flip(bit);
        if list.iter().any(|entry| entry.subsumes(flipped)) {
            widened = widened.star(bit);
        }
    }
    widened
}

/// Convert groups: a bit above l in any word is 4; then each string is grown, in the given order.
pub fn convert(l: u32, groups: &[u32]) -> Result<Vec<Entry>, Refusal> {
    if groups.iter().any(|group| group & !low_bits(l) != 0) {
        return Err(Refusal::Stray);
    }
    let strings = groups.iter().map(|&group| Entry::of_group(l, group));
    grown(l, &[], strings)
}
