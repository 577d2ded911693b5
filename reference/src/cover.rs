//! Whether a list of strings covers all groups that a string covers, for any l: what an entry leaves
//! of the string is cut into strings, and each of them is asked of the other entries. The 2^l groups
//! are not gone through.

use crate::entry::{rising_bits, Entry};

/// Whether some group that y covers is covered by no entry. The entry that leaves fewest pieces of y
/// comes first.
pub fn leaves_a_group(l: u32, y: Entry, entries: &[Entry]) -> bool {
    if entries.iter().any(|entry| entry.subsumes(y)) {
        return false;
    }
    let near = entries.iter().copied().filter(|entry| entry.matches(y));
    let near: Vec<Entry> = near.collect();
    let fewest = |v: &&Entry| (v.care & !y.care).count_ones();
    match near.iter().min_by_key(fewest) {
        Some(&v) => pieces(y, v).any(|piece| leaves_a_group(l, piece, &near)),
        None => !y.is_zero(l),
    }
}

/// What y covers and v does not, as strings of which no two match: each has the opposite of v at one
/// position where y has `*` and v is fixed, and what v has at those before it.
pub fn pieces(y: Entry, v: Entry) -> impl Iterator<Item = Entry> {
    let mut rest = y;
    rising_bits(v.care & !y.care).map(move |bit| {
        rest.care |= bit;
        rest.value |= bit & v.value;
        rest.flip(bit)
    })
}
