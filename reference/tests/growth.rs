//! The growth rule (02, "Widen wherever a list grows"): small examples of it in reading and in each
//! operation, and what a grown list is.

mod common;

use common::{entry, some_table, table, text};
use reference::equations::{close, cross, irrelevant, relevant};
use reference::forms::read_table;
use reference::growth::{grow, grown, widen};
use reference::sides::{join, meets, projection};
use reference::{operations, Entry, Refusal, Side, Table};
use support::tables::form;
use support::Random;

/// The entries of a text.
fn list(text: &str) -> Vec<Entry> {
    text.split_whitespace().map(entry).collect()
}

/// The list that the strings of a text make, started from another one.
fn grown_from(l: u32, start: &str, strings: &str) -> Result<Vec<Entry>, Refusal> {
    grown(l, &list(start), list(strings))
}

#[test]
fn growing_widens() {
    for (start, y, after) in [
        ("", "110", "110"),
        ("100", "101", "10*"),
        ("100", "111", "100 111"),
        // Widened, and then subsumed.
        ("1**", "110", "1**"),
        // Position 1 comes first; what it has become is flipped at the next ones.
        ("010 100", "110", "100 *10"),
        ("01* 100", "110", "01* 100 *10"),
        ("01* *00", "110", "01* **0"),
        // The last fixed position stays.
        ("0**", "1**", "0** 1**"),
        ("0** *0*", "11*", "0** *0* *1*"),
    ] {
        let grown = grown_from(3, start, y).expect("accepted");
        assert_eq!(grown, list(after), "{start} by {y}");
    }
}

/// 11 is subsumed by 1*, but with 01 it is *1, which no entry subsumes.
#[test]
fn a_subsumed_string_may_widen_into_one_that_is_not() {
    assert_eq!(widen(&list("01 1*"), entry("11")), entry("*1"));
    assert_eq!(grown_from(2, "01 1*", "11"), Ok(list("1* *1")));
    assert_eq!(
        read_table(&form(&table(2, "01 1* 11"))),
        Ok(table(2, "1* *1"))
    );
}

/// Beside 100 the all-zero string would widen into *00, as any other string does.
#[test]
fn an_all_zero_string_is_dropped() {
    assert_eq!(widen(&list("100"), entry("000")), entry("*00"));
    assert_eq!(grown_from(3, "100", "000"), Ok(list("100")));
    assert_eq!(grown_from(3, "", "000"), Ok(vec![]));
}

/// What a list starts from stays as it stands, until a string subsumes it.
#[test]
fn the_start_of_a_list_stays() {
    assert_eq!(
        grown_from(3, "110 000 111 110", "001"),
        Ok(list("110 111 110 00*"))
    );
    assert_eq!(grown_from(3, "110 010 111", "011"), Ok(list("110 010 *11")));
}

#[test]
fn every_operation_widens() {
    assert_eq!(read_table(&form(&table(2, "10 11"))), Ok(table(2, "1*")));
    assert_eq!(relevant(2, &list("10 11"), 1), Ok(list("1*")));
    assert_eq!(irrelevant(3, &list("010 011"), 1), Ok(list("01*")));
    assert_eq!(cross(3, &list("100"), &list("010 011")), Ok(list("11*")));
    assert_eq!(close(3, &list("100 010")), Ok(list("1*0 *10")));
    assert_eq!(meets(2, &list("1*"), &list("*0 *1")), Ok(list("1*")));
    for (side, first, second, joined) in [
        (Side::Positive, "10", "11", "1*"),
        (Side::Negative, "10 11", "**", "1*"),
    ] {
        assert_eq!(join(side, 2, &list(first), &list(second)), Ok(list(joined)));
    }
    let cut = projection(Side::Positive, 3, &list("100 111"), 0b011);
    assert_eq!(cut, Ok(list("1*")));
}

/// X1 with any of nine other variables: 511 joined groups, which nine entries cover.
#[test]
fn a_table_that_can_be_shorter_is_not_full() {
    let mut groups = vec![0b10];
    groups.extend((2..11).map(|i| 1 | 1 << i));
    let given = operations::convert(16, &groups).expect("accepted");
    let after = operations::equation(Side::Positive, &given, 1, &[2]).expect("accepted");
    assert_eq!(after.entries.len(), 9, "{}", text(&after));
}

/// What a grown list is: none of its entries is all zero or subsumed by another, and none widens
/// against those before it.
fn assert_grown(l: u32, list: &[Entry]) {
    for (i, &entry) in list.iter().enumerate() {
        assert!(!entry.is_zero(l));
        assert_eq!(widen(&list[..i], entry), entry, "entry {i} of {list:?}");
        let others = list[..i].iter().chain(&list[i + 1..]);
        assert!(others.clone().all(|other| !other.subsumes(entry)));
    }
}

/// A grown list is grown from empty as itself, however it came about.
#[test]
fn a_grown_list_is_grown_again_as_itself() {
    for seed in 0..2000 {
        let mut random = Random::new(seed + 77);
        let l = random.width();
        let Table { entries, .. } = some_table(&mut random, l, 60);
        let mut list = Vec::new();
        for y in entries {
            grow(l, &mut list, y).expect("accepted");
            assert_grown(l, &list);
        }
        assert_eq!(grown(l, &[], list.clone()), Ok(list.clone()));
        let read = Table { l, entries: list };
        assert_eq!(read_table(&form(&read)), Ok(read));
    }
}
