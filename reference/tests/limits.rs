//! Refusal 8 exactly where a list needs entry 257, and the inner rules at 32 positions.

mod common;

use common::{even_strings, pairs_table, JOINED, SIDES};
use reference::entry::low_bits;
use reference::growth::{convert, grow, widen};
use reference::terms::head;
use reference::{equations, operations, sides, Entry, Kind, Refusal, Side, Table};

/// A table of so many strings of 10 positions, none within one flip of another.
fn even_table(count: usize) -> Table {
    let entries = even_strings(count)
        .iter()
        .map(|&word| Entry::of_group(10, word))
        .collect();
    Table { l: 10, entries }
}

/// A table of so many strings of 13 positions: 0 at X1, `*` at X2 and X3, an even string behind.
fn open_table(count: usize) -> Table {
    let behind = low_bits(10) << 3;
    let entries = even_strings(count)
        .iter()
        .map(|&word| Entry {
            care: 1 | behind,
            value: word << 3,
        })
        .collect();
    Table { l: 13, entries }
}

#[test]
fn grow_takes_256_entries() {
    let Table { mut entries, .. } = even_table(257);
    let more = entries.pop().expect("257 entries");
    let (mut list, before) = (entries.clone(), entries);
    assert_eq!(grow(10, &mut list, more), Err(Refusal::Full));
    assert_eq!(list, before);
    assert_eq!(grow(10, &mut list, before[7]), Ok(()));
    assert_eq!(grow(10, &mut list, Entry::of_group(10, 0)), Ok(()));
    assert_eq!(list, before);
    let wider = before[7].star(1);
    assert_eq!(grow(10, &mut list, wider), Ok(()));
    assert_eq!((list.len(), list.last()), (256, Some(&wider)));
}

/// A string beside an entry becomes one with it, and takes its place in a full list.
#[test]
fn widening_leaves_room() {
    let mut list = even_table(256).entries;
    let (entry, odd) = (list[7], list[7].flip(1));
    assert_eq!(grow(10, &mut list, odd), Ok(()));
    assert_eq!((list.len(), list.last()), (256, Some(&entry.star(1))));
    assert!(!list.contains(&entry));
}

#[test]
fn join_is_full_at_entry_257() {
    let Table { l, entries } = even_table(257);
    for (cut, end, left) in [(255, 256, Ok(256)), (256, 257, Err(8)), (1, 257, Err(8))] {
        let part = |entries: &[Entry]| Table {
            l,
            entries: entries.to_vec(),
        };
        let (first, second) = (part(&entries[..cut]), part(&entries[cut..end]));
        let joined = operations::join(Side::Positive, &first, &second);
        let counted = joined.map(|table| table.entries.len());
        assert_eq!(counted.map_err(|refusal| refusal.number()), left);
    }
}

/// The irrelevant entries and the joined ones make 256, or one more.
#[test]
fn equation_is_full_at_entry_257() {
    let equation = |others| {
        let given = pairs_table(others);
        let after = operations::equation(Side::Positive, &given, 1, &[2]);
        after.map(|table| table.entries.len())
    };
    assert_eq!(equation(0), Ok(JOINED));
    assert_eq!(equation(256 - JOINED), Ok(256));
    assert_eq!(equation(257 - JOINED), Err(Refusal::Full));
}

/// Relevant t is made, and may be full, though relevant x is empty and so is their cross.
#[test]
fn every_list_of_an_equation_has_the_limit() {
    let term = [head(1, 2), 2, 3];
    assert!(operations::equation(Side::Positive, &open_table(128), 1, &term).is_ok());
    assert_eq!(
        operations::equation(Side::Positive, &open_table(129), 1, &term),
        Err(Refusal::Full)
    );
}

/// P and C of a negative equation start from the table as it stands.
#[test]
fn negative_equation_is_full_on_a_full_table() {
    let full = Table {
        l: 10,
        entries: vec![Entry::of_group(10, 1); 256],
    };
    assert_eq!(
        operations::equation(Side::Negative, &full, 1, &[2]),
        Err(Refusal::Full)
    );
    let one = Table {
        l: 10,
        entries: vec![Entry::of_group(10, 1)],
    };
    assert!(operations::equation(Side::Negative, &one, 1, &[2]).is_ok());
}

#[test]
fn inner_rules_take_32_positions() {
    let (low, high) = (1, 1 << 31);
    assert_eq!((low_bits(0), low_bits(1), low_bits(32)), (0, 1, u32::MAX));
    assert!(Entry::of_group(32, 0).is_zero(32));
    assert_eq!(convert(32, &[high, low, 0]).map(|list| list.len()), Ok(2));
    let pair = convert(32, &[high, high | low]).expect("accepted");
    assert_eq!(pair, [Entry::of_group(32, high).star(low)]);
    let all = [Entry::ALL_STAR];
    assert_eq!(
        widen(&all, Entry::of_group(32, low)),
        Entry::ones_at(high).flip(high)
    );
    for side in SIDES {
        let result = equations::equation(side, 32, &all, 32, Kind::Plain(low));
        assert!(result.is_ok());
        assert!(sides::projection(side, 32, &all, high | low).is_ok());
    }
}
