//! The reason behind each group (02): the definition against the binary definitions, the quick form
//! against the definition, the order of the reasons and of the refusals.

mod common;

use common::{pairs_table, some_equation, some_table, table, JOINED};
use reference::entry::{low_bits, variable_bit};
use reference::forms::{bytes_of, read_table};
use reference::reasons::{by_groups, quick, reason};
use reference::terms::{head, kind};
use reference::{binary, byte_calls, groups, operations};
use reference::{Absence, Entry, Equation, GroupSet, Kind, Reason, Refusal, Side, Table};
use support::tables::form;
use support::{Random, Verdicts};

/// The number of cases of each random test.
const CASES: u64 = 1000;

/// What the words of an answer hold before a call.
const UNTOUCHED: [u32; 3] = [0xa5a5, 0x5a5a, 0x3c3c];

/// Heads, by symbol and arity.
const A: u16 = 0x8010;
const F1: u16 = 0x8031;
const F2: u16 = 0x8032;

/// Tries a property on each group of random tables of up to so many variables: the table, the equation
/// and the group. Each verdict has to be told.
fn for_groups(seed: u64, most: usize, property: impl Fn(&Table, u32, Kind, u32)) {
    let mut verdicts = Verdicts::default();
    for case in 0..CASES {
        let mut random = Random::new(seed * 1_000_003 + case);
        let l = random.within(1, most) as u32;
        let table = some_table(&mut random, l, 12);
        let Equation { left, term } = some_equation(&mut random, l);
        let (x, kind) = (u32::from(left), kind(left.into(), &term));
        for s in 1..=low_bits(l) {
            property(&table, x, kind, s);
            verdicts.enter(quick(&table, x, kind, s).numbers()[0]);
        }
    }
    assert_eq!(verdicts.complaints(), Vec::<String>::new());
}

/// A group is kept or joined exactly when it is one of the groups after the equation.
#[test]
fn present_where_the_result_has_it() {
    for_groups(1, 6, |table, x, kind, s| {
        let after = binary::equation(&groups(table, Side::Positive), x, kind);
        let told = by_groups(table, x, kind, s);
        assert_eq!(
            told.is_present(),
            after.contains(s),
            "{table:?} {x} {kind:?} {s}"
        );
    });
}

#[test]
fn quick_is_the_definition() {
    for_groups(2, 8, |table, x, kind, s| {
        let due = by_groups(table, x, kind, s);
        assert_eq!(quick(table, x, kind, s), due, "{table:?} {x} {kind:?} {s}");
    });
}

/// Each reason by the sets of groups that it speaks of, an earlier one before a later one.
#[test]
fn reasons_by_sets_of_groups() {
    for_groups(3, 5, |table, x, kind, s| {
        let set = groups(table, Side::Positive);
        let inside = set.filter(|group| group & !s == 0);
        let none = GroupSet::empty(table.l);
        let x_bit = variable_bit(x);
        let due = match kind {
            Kind::Deeper => 6,
            Kind::Plain(t) if s & (x_bit | t) != 0 => {
                if binary::relevant(&inside, x_bit) == none {
                    2
                } else if binary::relevant(&inside, t) == none {
                    3
                } else if !binary::close(&binary::relevant(&inside, x_bit | t)).contains(s) {
                    4
                } else {
                    1
                }
            }
            _ if set.contains(s) => 0,
            _ => 5,
        };
        let told = quick(table, x, kind, s);
        assert_eq!(told.numbers()[0], due, "{table:?} {x} {kind:?} {s}");
    });
}

/// An entry that is named covers such a group, and none below it does.
#[test]
fn the_lowest_entries_are_named() {
    for_groups(4, 6, |table, x, kind, s| {
        let told = quick(table, x, kind, s);
        let (Reason::Joined { x_entry, t_entry }, Kind::Plain(t)) = (told, kind) else {
            return assert_eq!(told.numbers()[1..], [0, 0]);
        };
        for (named, names) in [(x_entry, variable_bit(x)), (t_entry, t)] {
            let has = |group: u32| group & !s == 0 && group & names != 0;
            let covers = |entry: &Entry| (1..=s).any(|g| has(g) && entry.covers(g));
            let first = table.entries.iter().position(covers);
            assert_eq!(first, Some(named), "{table:?} {x} {kind:?} {s}");
        }
    });
}

/// The reason behind a group that a text writes.
fn told(given: &Table, x: u32, term: &[u16], group: &str) -> Reason {
    let group = common::entry(group).value;
    let by_definition = by_groups(given, x, kind(x, term), group);
    assert_eq!(reason(given, x, term, group), Ok(by_definition));
    by_definition
}

fn joined(x_entry: usize, t_entry: usize) -> Reason {
    Reason::Joined { x_entry, t_entry }
}

/// X1 = f(X2) on a table of three variables, each group of it.
#[test]
fn each_group_by_hand() {
    use Absence::*;
    let given = table(3, "100 01* 0*1");
    for (group, due) in [
        ("100", Reason::Absent(NoTEntry)),
        ("010", Reason::Absent(NoXEntry)),
        ("110", joined(0, 1)),
        ("001", Reason::Kept),
        ("101", Reason::Absent(NoTEntry)),
        ("011", Reason::Absent(NoXEntry)),
        ("111", joined(0, 1)),
    ] {
        assert_eq!(told(&given, 1, &[F1, 2], group), due, "{group}");
    }
    for (group, due) in [
        ("100", Reason::Kept),
        ("110", Reason::Absent(NotThere)),
        ("011", Reason::Kept),
    ] {
        assert_eq!(told(&given, 1, &[1], group), due, "{group}");
        let deeper = told(&given, 1, &[F2, 2, 1], group);
        assert_eq!(deeper, Reason::Absent(NoSolution), "{group}");
    }
}

/// Of several reasons the first is told.
#[test]
fn reasons_in_order() {
    use Absence::*;
    for (strings, group, due) in [
        // None of the three is met, then the last two, then the last.
        ("", "111", NoXEntry),
        ("100", "111", NoTEntry),
        ("100 010", "111", NotMadeUp),
        // A group that is not inside, or has neither variable, does not count.
        ("101 010", "110", NoXEntry),
        ("100 011", "110", NoTEntry),
        ("100 010 001", "111", NotMadeUp),
        ("010 001", "111", NoXEntry),
        ("", "001", NotThere),
        ("101 011", "001", NotThere),
    ] {
        let told = told(&table(3, strings), 1, &[2], group);
        assert_eq!(told, Reason::Absent(due), "{strings}, {group}");
    }
}

/// The two entries are looked for one by one, and all-zero strings count as entries.
#[test]
fn entries_by_hand() {
    for (strings, group, due) in [
        ("11*", "110", joined(0, 0)),
        ("***", "111", joined(0, 0)),
        ("010 100", "110", joined(1, 0)),
        ("000 0*0 1*0", "110", joined(2, 1)),
        ("001 111 100 010", "110", joined(2, 3)),
        ("001 111 100 010", "111", joined(1, 1)),
    ] {
        let told = told(&table(3, strings), 1, &[2], group);
        assert_eq!(told, due, "{strings}, {group}");
    }
}

/// A term without variables has no entry for any group.
#[test]
fn ground_terms() {
    let given = table(2, "1* 01");
    let absent = |why| Reason::Absent(why);
    assert_eq!(told(&given, 1, &[A], "10"), absent(Absence::NoTEntry));
    assert_eq!(told(&given, 1, &[A], "11"), absent(Absence::NoTEntry));
    assert_eq!(told(&given, 1, &[A], "01"), Reason::Kept);
    assert_eq!(
        told(&table(2, "01"), 1, &[A], "11"),
        absent(Absence::NoXEntry)
    );
    assert_eq!(
        told(&table(2, "1*"), 1, &[A], "01"),
        absent(Absence::NotThere)
    );
}

/// Where the equation is full the reasons are told all the same: X1 = X2 joins each union of the six
/// pairs with X1 and X2, and leaves the others.
#[test]
fn where_the_equation_is_full() {
    let others = 257 - JOINED;
    let given = pairs_table(others);
    let after = operations::equation(Side::Positive, &given, 1, &[2]);
    assert_eq!(after, Err(Refusal::Full));
    for some in 1u32..64 {
        let pairs = (0..6)
            .filter(|i| some >> i & 1 == 1)
            .map(|i| 3 << (2 + 2 * i));
        let group = 0b11 | pairs.sum::<u32>();
        let first = some.trailing_zeros() as usize;
        let due = joined(others + 1 + first, others);
        assert_eq!(reason(&given, 1, &[2], group), Ok(due));
    }
    for entry in &given.entries[..others] {
        assert_eq!(reason(&given, 1, &[2], entry.value), Ok(Reason::Kept));
    }
    let missing = Reason::Absent(Absence::NotMadeUp);
    assert_eq!(reason(&given, 1, &[2], 0b11111), Ok(missing));
}

/// What the call on bytes answers and leaves in its words.
fn on_bytes(table: &[u8], x: u32, term: &[u8], group: u32) -> (u32, [u32; 3]) {
    let [mut verdict, mut x_entry, mut t_entry] = UNTOUCHED;
    let number = byte_calls::reason(
        table,
        x,
        term,
        group,
        &mut verdict,
        &mut x_entry,
        &mut t_entry,
    );
    (number, [verdict, x_entry, t_entry])
}

/// The entries are those of the table as read, and all three words are written.
#[test]
fn entries_are_counted_as_read() {
    let given = table(3, "000 001 110 100 1*0 000 010");
    let read = read_table(&form(&given)).expect("reads");
    assert_eq!(common::text(&read), "001 1*0 *10");
    let term = bytes_of([2]);
    let x1_is_x2 = |group| on_bytes(&form(&given), 1, &term, group);
    assert_eq!(x1_is_x2(0b011), (0, [1, 1, 1]));
    assert_eq!(x1_is_x2(0b100), (0, [0, 0, 0]));
    assert_eq!(x1_is_x2(0b001), (0, [3, 0, 0]));
    for seed in 0..CASES {
        let mut random = Random::new(seed + 97);
        let l = random.within(1, 6) as u32;
        let Equation { left, term } = some_equation(&mut random, l);
        let form = form(&some_table(&mut random, l, 12));
        let (x, kind) = (u32::from(left), kind(left.into(), &term));
        let read = read_table(&form).expect("reads");
        for s in 1..=low_bits(l) {
            let due = by_groups(&read, x, kind, s).numbers();
            let tokens = bytes_of(term.iter().copied());
            assert_eq!(on_bytes(&form, x, &tokens, s), (0, due));
        }
    }
}

/// A refused call writes nothing. Each row has the faults of all rows below it, as far as they can
/// stand together.
#[test]
fn refusals_in_order() {
    let good = form(&table(2, "01 1*"));
    let stray = bytes_of([2, 1, 1, 2]);
    let (long, odd) = (vec![9; 2050], vec![9; 2049]);
    for (table, x, term, group, number) in [
        (&good[..3], 9, &long, 4, 1),
        (&bytes_of([33, 257]), 9, &long, 4, 2),
        (&bytes_of([2, 257]), 9, &long, 4, 3),
        (&stray[..7], 9, &long, 4, 1),
        (&[&stray[..], &[0]].concat(), 9, &long, 4, 1),
        (&stray, 9, &long, 4, 4),
        (&good, 9, &long, 4, 7),
        (&good, 9, &odd, 4, 1),
        (&good, 3, &bytes_of([F1, 3]), 4, 5),
        (&good, 0, &bytes_of([F1, 1]), 0, 5),
        (&good, 1, &bytes_of([F2, 3]), 4, 5),
        (&good, 1, &bytes_of([2, 0]), 0, 5),
        (&good, 1, &bytes_of([F2, 2]), 4, 6),
        (&good, 1, &bytes_of([2, 2]), 0, 6),
        (&good, 1, &vec![], 4, 6),
        (&good, 1, &bytes_of([2]), 4, 4),
        (&good, 1, &bytes_of([2]), 7, 4),
        (&good, 1, &bytes_of([F1, 1]), 1 << 31, 4),
        (&good, 1, &bytes_of([2]), 0, 11),
        (&good, 1, &bytes_of([1]), 0, 11),
        (&good, 1, &bytes_of([F1, 1]), 0, 11),
    ] {
        let answer = on_bytes(table, x, term, group);
        assert_eq!(answer, (number, UNTOUCHED), "{table:?} {x} {group}");
    }
    assert_eq!(on_bytes(&good, 1, &bytes_of([2]), 3), (0, [1, 1, 0]));
}

/// A table value meets its own checks, and is not grown: its entries count as they stand.
#[test]
fn on_table_values() {
    let term = [head(1, 1), 2];
    let wide = Table::empty(33);
    assert_eq!(reason(&wide, 9, &[], 0), Err(Refusal::Width));
    let many = Table {
        l: 2,
        entries: vec![common::entry("11"); 257],
    };
    assert_eq!(reason(&many, 9, &[], 0), Err(Refusal::Entries));
    let long = vec![F1; 1025];
    let given = table(2, "00 11 11 1*");
    assert_eq!(reason(&given, 9, &long, 0), Err(Refusal::Long));
    assert_eq!(reason(&given, 9, &[], 0), Err(Refusal::Name));
    assert_eq!(reason(&given, 1, &term, 4), Err(Refusal::Stray));
    assert_eq!(reason(&given, 1, &term, 0), Err(Refusal::Keep));
    assert_eq!(reason(&given, 1, &term, 3), Ok(joined(1, 1)));
}
