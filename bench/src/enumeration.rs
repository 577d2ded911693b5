//! The questions by plain enumeration: a bit set with a bit for each of the 2^l strings of 0 and 1.

use reference::entry::low_bits;
use reference::Entry;

/// The bits of one word of a bit set.
const WORD: usize = u64::BITS as usize;

/// Whether two lists of strings of l positions cover the same groups.
pub fn equal(l: u32, first: &[Entry], second: &[Entry]) -> bool {
    covered(l, first) == covered(l, second)
}

/// Whether no group that the list leaves uncovered meets both sets.
pub fn independent_negative(l: u32, entries: &[Entry], a: u32, b: u32) -> bool {
    let covered = covered(l, entries);
    let mut uncovered = covered
        .iter()
        .enumerate()
        .flat_map(|(i, &word)| zeros(word).map(move |bit| (i * WORD) as u32 + bit))
        .take_while(|&group| group <= low_bits(l));
    !uncovered.any(|group| group & a != 0 && group & b != 0)
}

/// The strings that an entry covers. Bit 0 is set in any case: the all-zero string is no group,
/// so that no question may turn on it.
fn covered(l: u32, entries: &[Entry]) -> Vec<u64> {
    let mut set = vec![0; (1usize << l).div_ceil(WORD)];
    for entry in entries {
        add(&mut set, *entry, low_bits(l) & !entry.care);
    }
    set[0] |= 1;
    set
}

/// Adds the strings of one entry: its ones with each subset of its stars, from all to none. An
/// iterator over the subsets in place of this loop made it slower by a fifth.
fn add(set: &mut [u64], entry: Entry, stars: u32) {
    let mut some = stars;
    loop {
        let string = (entry.value | some) as usize;
        set[string / WORD] |= 1 << (string % WORD);
        if some == 0 {
            return;
        }
        some = (some - 1) & stars;
    }
}

/// The positions of the zeros of a word, in rising order.
fn zeros(word: u64) -> impl Iterator<Item = u32> {
    let mut rest = !word;
    std::iter::from_fn(move || {
        let bit = rest.trailing_zeros();
        rest &= rest.wrapping_sub(1);
        (bit < u64::BITS).then_some(bit)
    })
}
