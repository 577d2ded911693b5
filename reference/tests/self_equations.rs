//! An equation whose term is its left variable, or holds it deeper (02, "A variable set equal to
//! itself").

mod common;

use common::{pairs_table, table, text, JOINED, SIDES};
use reference::byte_calls::{equation, start, step, unify, unify_step};
use reference::forms::{bytes_of, read_table};
use reference::terms::{head, kind, TOKENS};
use reference::{equations, operations, report, Entry, Kind, Refusal, Side, Table};
use support::tables::form;
use support::Equations;

/// Heads, by symbol and arity.
const A: u16 = 0x8010;
const B: u16 = 0x8020;
const F1: u16 = 0x8031;
const F2: u16 = 0x8032;
const G1: u16 = 0x8041;

/// A table that reading changes: doubled, subsumed and all-zero entries.
fn messy() -> Table {
    table(3, "110 000 101 1*1 110 000 011")
}

#[test]
fn symbols_and_arities_are_as_named() {
    assert_eq!([head(1, 0), head(2, 0)], [A, B]);
    assert_eq!([head(3, 1), head(3, 2), head(4, 1)], [F1, F2, G1]);
    let read = read_table(&form(&messy())).expect("reads");
    assert_ne!(read, messy());
}

#[test]
fn kinds_by_where_x_stands() {
    for (x, term, due) in [
        (1, &[1][..], Kind::Itself),
        (32, &[32], Kind::Itself),
        (1, &[2], Kind::Plain(0b10)),
        (2, &[1], Kind::Plain(0b1)),
        (1, &[A], Kind::Plain(0)),
        (1, &[F1, 1], Kind::Deeper),
        (1, &[F1, G1, 1], Kind::Deeper),
        (2, &[F2, 1, 2], Kind::Deeper),
        (2, &[F2, 2, 1], Kind::Deeper),
        (2, &[F2, 2, 2], Kind::Deeper),
        (32, &[F2, F1, 32, A], Kind::Deeper),
        (3, &[F2, 2, 1], Kind::Plain(0b11)),
        (1, &[F2, F1, A, B], Kind::Plain(0)),
    ] {
        assert_eq!(kind(x, term), due, "{x} {term:?}");
    }
}

/// No list is grown, so an ungrown value comes back as it was.
#[test]
fn itself_leaves_the_table_as_given() {
    for side in SIDES {
        for x in 1..=3 {
            let same = operations::equation(side, &messy(), u32::from(x), &[x]);
            assert_eq!(same, Ok(messy()));
            let mut state = start(side.number(), &form(&messy()));
            assert_eq!(step(&mut state, u32::from(x), &bytes_of([x])), 0);
            assert_eq!(
                (state.applied, Ok(state.table)),
                (1, read_table(&form(&messy())))
            );
        }
        let mut state = start(side.number(), &form(&messy()));
        state.table = messy();
        assert_eq!(step(&mut state, 2, &bytes_of([2])), 0);
        assert_eq!(unify_step(&mut state, &bytes_of([3]), &bytes_of([3])), 0);
        assert_eq!((state.applied, state.table), (2, messy()));
    }
}

#[test]
fn deeper_leaves_no_groups() {
    for term in [&[F1, 1][..], &[F1, G1, 1], &[F2, 1, 2], &[F2, F1, 3, F1, 1]] {
        let after = |side| operations::equation(side, &messy(), 1, term);
        assert_eq!(after(Side::Positive), Ok(Table::empty(3)));
        assert_eq!(after(Side::Negative), Ok(Table::all_star(3)));
    }
    let longest = [vec![G1; TOKENS - 1], vec![2]].concat();
    let after = operations::equation(Side::Negative, &messy(), 2, &longest);
    assert_eq!(after, Ok(Table::all_star(3)));
}

/// Tables on which the ordinary rule of the same sets is full: closing the groups with X1 makes 63, and
/// P of a negative equation needs entry 257.
#[test]
fn neither_is_full() {
    let pairs = pairs_table(257 - JOINED);
    let doubled = Table {
        l: 10,
        entries: vec![Entry::of_group(10, 6); 256],
    };
    for (side, given) in SIDES.into_iter().zip([pairs, doubled]) {
        let Table { l, entries } = &given;
        let ordinary = equations::equation(side, *l, entries, 1, Kind::Plain(1));
        assert_eq!(ordinary, Err(Refusal::Full));
        let after = |term: &[u16]| operations::equation(side, &given, 1, term);
        assert_eq!(after(&[1]), Ok(given.clone()));
        assert_eq!(after(&[F1, 1]), Ok(Table::without_groups(side, *l)));
    }
}

/// All checks of an equation come before its kind, and 9 after it.
#[test]
fn refusals_come_as_before() {
    let good = form(&table(2, "01 1*"));
    let stray = bytes_of([2, 1, 1, 2]);
    for (table, x, term, number) in [
        (&good[..3], 1, bytes_of([1]), 1),
        (&bytes_of([33, 0]), 1, bytes_of([1]), 2),
        (&bytes_of([2, 257]), 1, bytes_of([1]), 3),
        (&stray, 1, bytes_of([1]), 4),
        (&good, 1, vec![1; 2050], 7),
        (&good, 1, vec![1, 0, 1], 1),
        (&good, 3, bytes_of([3]), 5),
        (&good, 0, bytes_of([0]), 5),
        (&good, 1, bytes_of([F2, 1, 3]), 5),
        (&good, 1, bytes_of([1, 1]), 6),
        (&good, 1, bytes_of([F2, 1]), 6),
        (&good, 1, bytes_of([1]), 9),
        (&good, 1, bytes_of([F1, 1]), 9),
    ] {
        let mut out = [0xa5; 3];
        assert_eq!(equation(0, table, x, &term, &mut out), number);
        assert_eq!(
            unify(0, table, &bytes_of([x as u16]), &term, &mut out),
            number
        );
        assert_eq!(out, [0xa5; 3]);
    }
}

/// Each equation that a walk finds follows the rule, in order.
#[test]
fn in_walks() {
    let given = messy();
    for side in SIDES {
        let none = Ok(Table::without_groups(side, 3));
        let unify = |left: &[u16], right: &[u16]| operations::unify(side, &given, left, right);
        let equation = |x, term: &[u16]| operations::equation(side, &given, x, term);
        assert_eq!(unify(&[F1, 1], &[F1, 1]), Ok(given.clone()));
        assert_eq!(unify(&[F2, 1, F1, 3], &[F2, 1, F1, 3]), Ok(given.clone()));
        assert_eq!(unify(&[F1, 1], &[F1, G1, 1]), none);
        assert_eq!(unify(&[F1, G1, 1], &[F1, 1]), none);
        assert_eq!(unify(&[F2, 1, 2], &[F2, 1, G1, 3]), equation(2, &[G1, 3]));
        assert_eq!(unify(&[F2, 2, 1], &[F2, G1, 3, 1]), equation(2, &[G1, 3]));
        assert_eq!(unify(&[F2, 1, 2], &[F2, G1, 1, 3]), none);
        assert_eq!(unify(&[F2, 2, 1], &[F2, 3, G1, 1]), none);
        assert_eq!(unify(&[F2, 1, A], &[F2, 1, B]), none);
        assert_eq!(unify(&[F2, A, 1], &[F2, B, G1, 1]), none);
    }
}

/// A full equation refuses the whole call, unless a deeper x comes before it or the terms clash.
#[test]
fn beside_a_full_equation() {
    let given = pairs_table(257 - JOINED);
    let unify =
        |left: &[u16], right: &[u16]| operations::unify(Side::Positive, &given, left, right);
    let none = Ok(Table::empty(16));
    assert_eq!(unify(&[F2, 3, 1], &[F2, 3, 2]), Err(Refusal::Full));
    assert_eq!(unify(&[F2, 1, 3], &[F2, 2, 3]), Err(Refusal::Full));
    assert_eq!(unify(&[F2, 1, 3], &[F2, 2, G1, 3]), Err(Refusal::Full));
    assert_eq!(unify(&[F2, 3, 1], &[F2, G1, 3, 2]), none);
    let (left, right) = ([F2, F2, 1, 3, A], [F2, F2, 2, G1, 3, B]);
    assert_eq!(unify(&left, &right), none);
}

#[test]
fn the_text_of_a_run() {
    let mut equations = Equations::default();
    equations.push(1, &[1]);
    equations.push(3, &[2]);
    equations.push(2, &[F1, 2]);
    equations.push(1, &[1]);
    let input = [form(&table(3, "110 101")), equations.bytes()].concat();
    assert_eq!(
        report(&input).text,
        "vars 3 entries 2\n110\n101\neq 1 entries 2\n110\n101\neq 2 entries 1\n111\n\
         eq 3 entries 0\neq 4 entries 0\n"
    );
    assert_eq!(text(&report(&input).outcome.table), "");
}
