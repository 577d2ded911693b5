//! On random tables, each operation's table stands for the groups of the binary definition.

mod common;

use common::{some_equation, some_table, SIDES};
use reference::entry::variable_bit;
use reference::forms::read_table;
use reference::terms::kind;
use reference::{
    binary, equations, groups, growth, operations, questions, sides, Entry, Equation, GroupSet,
    Side, Table,
};
use std::cell::RefCell;
use support::tables::form;
use support::{Kinds, Random};

/// The number of cases of each test.
const CASES: u64 = 4000;

/// Tries a property on random cases: a generator, l from 1 to 6 and a table.
fn for_cases(seed: u64, property: impl Fn(&mut Random, u32, &Table)) {
    for case in 0..CASES {
        let mut random = Random::new(seed * 1_000_003 + case);
        let l = random.within(1, 6) as u32;
        let table = some_table(&mut random, l, 12);
        property(&mut random, l, &table);
    }
}

/// The groups that a list of entries covers.
fn covered(l: u32, entries: Vec<Entry>) -> GroupSet {
    groups(&Table { l, entries }, Side::Positive)
}

#[test]
fn equation_is_exact() {
    let kinds = RefCell::new(Kinds::default());
    for_cases(1, |random, l, table| {
        let Equation { left, term } = some_equation(random, l);
        let x = u32::from(left);
        let kind = kind(x, &term);
        kinds.borrow_mut().enter(kind);
        for side in SIDES {
            let result = operations::equation(side, table, x, &term).expect("accepted");
            let expected = binary::equation(&groups(table, side), x, kind);
            assert_eq!(
                groups(&result, side),
                expected,
                "{side:?} {table:?} {x} {term:?}"
            );
        }
    });
    assert_eq!(kinds.borrow().complaints(), Vec::<String>::new());
}

#[test]
fn join_is_exact() {
    for_cases(2, |random, l, first| {
        let second = some_table(random, l, 12);
        for side in SIDES {
            let result = operations::join(side, first, &second).expect("accepted");
            let expected = binary::join(&groups(first, side), &groups(&second, side));
            assert_eq!(
                groups(&result, side),
                expected,
                "{side:?} {first:?} {second:?}"
            );
        }
    });
}

#[test]
fn projection_is_exact() {
    for_cases(3, |random, l, table| {
        let keep = random.set(l).max(1);
        for side in SIDES {
            let result = operations::projection(side, table, keep).expect("accepted");
            assert_eq!(result.l, keep.count_ones());
            assert_eq!(
                groups(&result, side),
                binary::projection(&groups(table, side), keep),
                "{side:?} {table:?}"
            );
        }
    });
}

#[test]
fn change_of_side_keeps_the_groups() {
    for_cases(4, |_, _, table| {
        let result = operations::change_side(table).expect("accepted");
        for side in SIDES {
            assert_eq!(
                groups(&result, side.other()),
                groups(table, side),
                "{table:?}"
            );
        }
    });
}

#[test]
fn convert_is_exact() {
    for_cases(5, |random, l, _| {
        let count = random.below(1 << l);
        let words: Vec<u32> = (0..count).map(|_| random.below(1 << l) as u32).collect();
        let result = operations::convert(l, &words).expect("accepted");
        assert_eq!(groups(&result, Side::Positive), GroupSet::of(l, words));
    });
}

#[test]
fn inner_lists_are_exact() {
    for_cases(6, |random, l, table| {
        let set = groups(table, Side::Positive);
        let (names, other) = (random.set(l), some_table(random, l, 6));
        let relevant = equations::relevant(l, &table.entries, names).expect("accepted");
        assert_eq!(covered(l, relevant), binary::relevant(&set, names));
        let irrelevant = equations::irrelevant(l, &table.entries, names).expect("accepted");
        assert_eq!(covered(l, irrelevant), binary::irrelevant(&set, names));
        let meets = sides::meets(l, &table.entries, &other.entries).expect("accepted");
        let both = set.filter(|group| groups(&other, Side::Positive).contains(group));
        assert_eq!(covered(l, meets), both);
    });
}

/// Cross and close, on the strings that a positive equation hands them: each has a 1, so none
/// covers the all-zero string.
#[test]
fn cross_and_close_are_exact() {
    for_cases(7, |random, l, table| {
        let names = random.set(l) | 1;
        let first = equations::relevant(l, &table.entries, 1).expect("accepted");
        let second = equations::relevant(l, &table.entries, names).expect("accepted");
        let crossed = equations::cross(l, &first, &second).expect("accepted");
        let expected = binary::cross(&covered(l, first), &covered(l, second));
        assert_eq!(covered(l, crossed.clone()), expected);
        let closed = equations::close(l, &crossed).expect("accepted");
        assert_eq!(covered(l, closed), binary::close(&expected));
    });
}

#[test]
fn growth_adds_exactly_the_string() {
    for_cases(8, |random, l, table| {
        let stars = random.pick(&[0, 25, 50, 75]);
        let y = random.string(l, stars);
        let before = groups(table, Side::Positive);
        let mut list = table.entries.clone();
        growth::grow(l, &mut list, y).expect("accepted");
        assert_eq!(
            covered(l, list),
            binary::join(&before, &covered(l, vec![y]))
        );
        let widened = growth::widen(&table.entries, y);
        assert!(widened.subsumes(y) && (widened.care.count_ones() > 0 || y.care == 0));
        assert_eq!(
            binary::join(&before, &covered(l, vec![widened])),
            binary::join(&before, &covered(l, vec![y]))
        );
    });
}

#[test]
fn questions_answer_by_groups() {
    for_cases(9, |random, l, table| {
        let second = some_table(random, l, 4);
        let (a, b, x) = (random.set(l), random.set(l), u32::from(random.variable(l)));
        for side in SIDES {
            let set = groups(table, side);
            assert_eq!(
                questions::equal(table, &second),
                Ok(set == groups(&second, side))
            );
            assert_eq!(
                questions::ground(side, table, x),
                Ok(set.filter(|g| g >> (x - 1) & 1 == 1) == GroupSet::empty(l))
            );
            let common = set.filter(|g| g & a != 0 && g & b != 0);
            assert_eq!(
                questions::independent(side, table, a, b),
                Ok(common == GroupSet::empty(l))
            );
            assert_eq!(questions::independent(side, table, a, 0), Ok(true));
        }
        assert_eq!(questions::equal(table, table), Ok(true));
        let grown = read_table(&form(table)).expect("reads");
        assert_eq!(questions::equal(table, &grown), Ok(true));
    });
}

/// The same on more variables and entries: the questions do not go through all groups.
#[test]
fn questions_of_more_variables_answer_by_groups() {
    let mut answers = [0; 2];
    for seed in 0..300 {
        let mut random = Random::new(seed + 71);
        let l = random.within(7, 12) as u32;
        let [table, second] = [(); 2].map(|()| some_table(&mut random, l, 120));
        let (a, b, x) = (random.set(l), random.set(l), u32::from(random.variable(l)));
        let sets = [&table, &second].map(|table| groups(table, Side::Positive));
        let equal = questions::equal(&table, &second);
        assert_eq!(equal, Ok(sets[0] == sets[1]));
        for side in SIDES {
            let set = groups(&table, side);
            let has = |names: u32| move |group: u32| group & names != 0;
            let ground = set.iter().all(|group| !has(variable_bit(x))(group));
            assert_eq!(questions::ground(side, &table, x), Ok(ground));
            let independent = !set.iter().any(|group| has(a)(group) && has(b)(group));
            let answer = questions::independent(side, &table, a, b);
            assert_eq!(answer, Ok(independent));
            answers[usize::from(independent)] += 1;
        }
    }
    assert!(answers.iter().all(|&count| count > 100), "{answers:?}");
}

/// What the operations return is a grown list, so its form reads back as the same table.
#[test]
fn results_read_back() {
    for_cases(10, |random, l, table| {
        let Equation { left, term } = some_equation(random, l);
        let x = u32::from(left);
        let (second, keep) = (some_table(random, l, 12), random.set(l) | 1);
        let given = read_table(&form(table)).expect("reads");
        assert_eq!(read_table(&form(&given)), Ok(given.clone()));
        for side in SIDES {
            for result in [
                operations::equation(side, &given, x, &term),
                operations::join(side, &given, &second),
                operations::projection(side, &given, keep),
                operations::change_side(&given),
            ] {
                let result = result.expect("accepted");
                assert_eq!(read_table(&form(&result)), Ok(result));
            }
        }
    });
}
