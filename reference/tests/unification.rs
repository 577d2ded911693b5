//! Two terms set equal: what the walk finds, what comes of it, and the refusals in order.

mod common;

use common::{pairs_table, some_table, table, text, JOINED, SIDES};
use reference::byte_calls::{run, start, step, unify, unify_run, unify_step};
use reference::forms::{bytes_of, read_table, read_two_terms, table_length, write_two_terms};
use reference::operations;
use reference::terms::{head, kind, variables, TOKENS};
use reference::unification::{walk, Clash, Term};
use reference::{binary, groups, Equation, Refusal, Side, Table, TwoTerms};
use support::tables::{form, form_entries, LONGEST};
use support::{Equations, Kinds, Random, TermEquations};

/// Heads, by symbol and arity.
const A: u16 = 0x8010;
const B: u16 = 0x8020;
const F1: u16 = 0x8031;
const F2: u16 = 0x8032;
const G1: u16 = 0x8041;

/// The equations that a walk finds, each as its variable and the tokens of its term.
fn found(left: &[u16], right: &[u16]) -> Result<Vec<(u16, Vec<u16>)>, Clash> {
    let (left, right) = (Term::of(left), Term::of(right));
    let found = walk(&left, &right)?;
    Ok(found.iter().map(|(x, term)| (*x, term.tokens())).collect())
}

/// A pair of terms of up to so many tokens each.
fn some_terms(random: &mut Random, l: u32, most: usize) -> TwoTerms {
    let (left, right) = (random.within(1, most), random.within(1, most));
    random.two_terms_of(l, left, right)
}

#[test]
fn symbols_and_arities_are_as_named() {
    assert_eq!([head(1, 0), head(2, 0)], [A, B]);
    assert_eq!([head(3, 1), head(3, 2), head(4, 1)], [F1, F2, G1]);
}

/// The example of 02: f(X1, g(X2)) = f(X3, X4) is X1 = X3, X4 = g(X2).
#[test]
fn the_example_is_split() {
    assert_eq!(
        found(&[F2, 1, G1, 2], &[F2, 3, 4]),
        Ok(vec![(1, vec![3]), (4, vec![G1, 2])])
    );
}

#[test]
fn a_variable_makes_an_equation_with_the_term_across() {
    assert_eq!(found(&[1], &[F2, 2, 1]), Ok(vec![(1, vec![F2, 2, 1])]));
    assert_eq!(found(&[F2, 2, 1], &[1]), Ok(vec![(1, vec![F2, 2, 1])]));
    // The left variable comes before the right one.
    assert_eq!(found(&[1], &[2]), Ok(vec![(1, vec![2])]));
    assert_eq!(found(&[2], &[1]), Ok(vec![(2, vec![1])]));
    assert_eq!(found(&[1], &[1]), Ok(vec![(1, vec![1])]));
    // What a variable stands across from is not walked, in whatever it is.
    assert_eq!(
        found(&[F2, 1, F1, 1], &[F2, F2, A, B, F1, B]),
        Ok(vec![(1, vec![F2, A, B]), (1, vec![B])])
    );
}

#[test]
fn arguments_are_walked_left_to_right() {
    let left = [F2, F2, 1, 2, F2, 3, 4];
    let right = [F2, F2, 5, 6, F2, 7, 8];
    let pairs = [(1, 5), (2, 6), (3, 7), (4, 8)];
    assert_eq!(
        found(&left, &right),
        Ok(pairs.iter().map(|&(x, y)| (x, vec![y])).collect())
    );
}

#[test]
fn equal_heads_find_nothing() {
    assert_eq!(found(&[A], &[A]), Ok(vec![]));
    assert_eq!(found(&[F2, A, F1, B], &[F2, A, F1, B]), Ok(vec![]));
}

#[test]
fn anything_else_is_a_clash() {
    for (left, right) in [
        (&[A][..], &[B][..]),
        (&[F1, 1], &[G1, 1]),
        (&[F1, 1], &[F2, 1, 1]),
        (&[A], &[F1, 1]),
        (&[F2, 1, A], &[F2, A, B]),
        (&[F2, A, 1], &[F2, B, 1]),
        (&[F2, F1, F1, A, 1], &[F2, F1, F1, B, 1]),
        // Same symbol, other arity.
        (&[head(5, 0)], &[head(5, 1), 1]),
    ] {
        assert_eq!(found(left, right), Err(Clash), "{left:?} {right:?}");
        assert_eq!(found(right, left), Err(Clash), "{right:?} {left:?}");
    }
}

/// A tree has the tokens that it was read from.
#[test]
fn trees_have_their_tokens() {
    for seed in 0..1000 {
        let mut random = Random::new(seed + 7);
        let TwoTerms { left, right } = some_terms(&mut random, 4, 40);
        for tokens in [left, right] {
            let term = Term::of(&tokens);
            assert_eq!(term.tokens(), tokens);
            assert_eq!(term.variables(), variables(&tokens));
            for x in 1..=4 {
                assert_eq!(term.kind(x), kind(x, &tokens));
            }
        }
    }
}

/// The groups are those that the binary definitions give, on both sides.
#[test]
fn unification_is_exact() {
    let (mut clashes, mut kinds) = (0, Kinds::default());
    for seed in 0..4000 {
        let mut random = Random::new(seed + 41);
        let l = random.within(1, 6) as u32;
        let given = some_table(&mut random, l, 12);
        let TwoTerms { left, right } = some_terms(&mut random, l, 12);
        let terms = (Term::of(&left), Term::of(&right));
        match walk(&terms.0, &terms.1) {
            Err(Clash) => clashes += 1,
            Ok(found) => found
                .iter()
                .for_each(|(x, term)| kinds.enter(term.kind(u32::from(*x)))),
        }
        for side in SIDES {
            let result = operations::unify(side, &given, &left, &right).expect("accepted");
            let expected = binary::unify(&groups(&given, side), &terms.0, &terms.1);
            assert_eq!(
                groups(&result, side),
                expected,
                "{side:?} {left:?} {right:?}"
            );
        }
    }
    assert!((400..2000).contains(&clashes), "{clashes} of 4000 clash");
    assert_eq!(kinds.complaints(), Vec::<String>::new());
}

/// The entries are those of the found equations, applied one after another.
#[test]
fn unification_is_its_equations_in_order() {
    for seed in 0..2000 {
        let mut random = Random::new(seed + 43);
        let l = random.within(1, 6) as u32;
        let given = some_table(&mut random, l, 12);
        let TwoTerms { left, right } = random.terms_without_clash(l, 9, 12);
        for side in SIDES {
            let equations = found(&left, &right).expect("no clash");
            let apply = |table: Table, (x, term): &(u16, Vec<u16>)| {
                operations::equation(side, &table, u32::from(*x), term)
            };
            assert_eq!(
                operations::unify(side, &given, &left, &right),
                equations.iter().try_fold(given.clone(), apply)
            );
        }
    }
}

/// Where the left or the right term is a variable, the call is that equation.
#[test]
fn one_variable_is_the_equation() {
    for seed in 0..1000 {
        let mut random = Random::new(seed + 47);
        let l = random.within(1, 6) as u32;
        let given = some_table(&mut random, l, 12);
        let Equation { left: x, term } = random.equation_of(l, 7);
        for side in SIDES {
            let equation = operations::equation(side, &given, u32::from(x), &term);
            assert_eq!(operations::unify(side, &given, &[x], &term), equation);
            assert_eq!(operations::unify(side, &given, &term, &[x]), equation);
        }
    }
}

#[test]
fn a_clash_leaves_no_groups() {
    let given = table(3, "100 01* 0*1");
    let clash = |side| operations::unify(side, &given, &[F2, 1, A], &[F2, 2, B]);
    assert_eq!(clash(Side::Positive), Ok(Table::empty(3)));
    assert_eq!(clash(Side::Negative), Ok(Table::all_star(3)));
}

/// A table that is not grown comes back as it was given: nothing is applied to it.
#[test]
fn nothing_found_leaves_the_table_as_given() {
    let given = table(3, "000 100 1** 110 100");
    for side in SIDES {
        let same = operations::unify(side, &given, &[F2, A, B], &[F2, A, B]);
        assert_eq!(same, Ok(given.clone()));
    }
    let mut state = start(0, &form(&given));
    state.table = given.clone();
    assert_eq!(unify_step(&mut state, &bytes_of([A]), &bytes_of([A])), 0);
    assert_eq!((state.applied, state.table), (1, given));
}

/// A table of 16 variables on which X1 = X2 is full and X16 = a is not.
fn full_table() -> Table {
    pairs_table(257 - JOINED)
}

/// A full equation refuses the whole call, also where others before it were applied; but a clash is
/// found first, wherever it stands.
#[test]
fn a_full_equation_refuses_the_call() {
    let given = full_table();
    let unify =
        |left: &[u16], right: &[u16]| operations::unify(Side::Positive, &given, left, right);
    assert_eq!(unify(&[1], &[2]), Err(Refusal::Full));
    assert_eq!(unify(&[F2, 16, 1], &[F2, A, 2]), Err(Refusal::Full));
    assert_eq!(unify(&[F2, 1, 16], &[F2, 2, A]), Err(Refusal::Full));
    assert_eq!(unify(&[F2, 1, A], &[F2, 2, B]), Ok(Table::empty(16)));
    assert_eq!(unify(&[F2, A, 1], &[F2, B, 2]), Ok(Table::empty(16)));
    let mut state = start(0, &form(&given));
    let before = state.clone();
    let terms = [[F2, 16, 1], [F2, A, 2]].map(bytes_of);
    assert_eq!(unify_step(&mut state, &terms[0], &terms[1]), 8);
    assert_eq!(state, before);
}

/// Each case has the fault that is named and later ones too.
#[test]
fn terms_are_refused_in_order() {
    let good = form(&table(2, "01 1*"));
    let torn = &good[..3];
    let zeros = |bytes: usize| vec![0; bytes];
    let [x, z, part] = [[1], [3], [F1]].map(|tokens| bytes_of(tokens.to_vec()));
    let rest = bytes_of([1, 2]);
    let most = 2 * TOKENS;
    for (table, left, right, number) in [
        (torn, zeros(most + 3), zeros(1), 1),
        (&good, zeros(most + 2), vec![], 7),
        (&good, zeros(most + 3), zeros(1), 7),
        (&good, zeros(1), zeros(most + 2), 7),
        (&good, zeros(most), zeros(2), 7),
        (&good, zeros(most - 1), zeros(5), 7),
        // Each half is rounded down.
        (&good, zeros(most + 1), zeros(1), 1),
        (&good, zeros(most / 2 + 1), zeros(most / 2 + 1), 1),
        (&good, zeros(3), zeros(4), 1),
        (&good, zeros(4), zeros(3), 1),
        (&good, z.clone(), z.clone(), 5),
        (&good, bytes_of([F1, 1, 3]), z.clone(), 5),
        (&good, part.clone(), z.clone(), 6),
        (&good, rest.clone(), z.clone(), 6),
        (&good, vec![], z.clone(), 6),
        (&good, x.clone(), z.clone(), 5),
        (&good, x.clone(), bytes_of([1, 0]), 5),
        (&good, x.clone(), part, 6),
        (&good, x.clone(), rest, 6),
        (&good, x.clone(), vec![], 6),
        (&good, x.clone(), x.clone(), 9),
    ] {
        let mut out = [0xa5; 3];
        assert_eq!(unify(0, table, &left, &right, &mut out), number);
        assert_eq!(out, [0xa5; 3]);
        if number != 9 && table == good {
            let mut state = start(1, table);
            let before = state.clone();
            assert_eq!(unify_step(&mut state, &left, &right), number);
            assert_eq!(state, before);
        }
    }
}

/// 1024 tokens are taken in any split, and one more in none.
#[test]
fn terms_of_1024_tokens_are_taken() {
    let mut random = Random::new(53);
    for left in [1, 2, 100, 511, 512, 513, 1000, 1022, 1023] {
        let terms = random.two_terms_of(3, left, TOKENS - left);
        let given = table(3, "100 010 001");
        let result = operations::unify(Side::Positive, &given, &terms.left, &terms.right);
        assert!(result.is_ok(), "{left}");
        let longer = random.two_terms_of(3, left, TOKENS + 1 - left);
        let result = operations::unify(Side::Positive, &given, &longer.left, &longer.right);
        assert_eq!(result, Err(Refusal::Long));
    }
}

/// Reads a row of words as equations of two terms about 3 variables.
fn read_words(words: &[u16]) -> Result<Vec<TwoTerms>, Refusal> {
    read_two_terms(3, &bytes_of(words.iter().copied()))
}

#[test]
fn forms_are_refused_in_order() {
    assert_eq!(read_two_terms(3, &[65, 0, 0]), Err(Refusal::Torn));
    assert_eq!(read_words(&[65, 0]), Err(Refusal::Long));
    assert_eq!(read_words(&[0, 1025]), Err(Refusal::Long));
    assert_eq!(read_words(&[64, 1024]), Err(Refusal::Torn));
    assert_eq!(read_words(&[0, 0, 0]), Err(Refusal::Torn));
    assert_eq!(read_words(&[0, 0]), Ok(vec![]));
    assert_eq!(read_words(&[0, 1, 1]), Err(Refusal::Term));
    // The sum is that of both arrays, and a true one.
    assert_eq!(read_words(&[1, 1, 1, 1, 9]), Err(Refusal::Term));
    assert_eq!(read_words(&[1, 3, 1, 1, 9, 9, 9]), Err(Refusal::Term));
    assert_eq!(read_words(&[1, 1, 0x8001, 0x8000, 9]), Err(Refusal::Term));
    assert_eq!(read_words(&[1, 2, 1, 1, 4, F1]), Err(Refusal::Name));
    assert_eq!(read_words(&[1, 2, 1, 1, F1, 4]), Err(Refusal::Term));
    assert_eq!(read_words(&[1, 2, 1, 1, 3, 0]), Err(Refusal::Name));
    assert_eq!(read_words(&[1, 2, 1, 1, 3, F1]), Err(Refusal::Term));
    assert_eq!(read_words(&[1, 3, 2, 1, 1, 4, F1]), Err(Refusal::Name));
    assert_eq!(read_words(&[1, 3, 2, 1, 1, 2, 4]), Err(Refusal::Term));
    assert_eq!(read_words(&[1, 1, 0, 1, 4]), Err(Refusal::Term));
    assert_eq!(read_words(&[1, 1, 1, 0, 1]), Err(Refusal::Term));
    // A side does not go on in the next one.
    assert_eq!(read_words(&[1, 3, 1, 2, F1, 1, 2]), Err(Refusal::Term));
    // The first equation comes before the second.
    assert_eq!(
        read_words(&[2, 4, 1, 1, 1, 1, 1, F1, 4, 1]),
        Err(Refusal::Term)
    );
    assert_eq!(
        read_words(&[2, 4, 1, 1, 1, 1, 1, 4, F1, 1]),
        Err(Refusal::Name)
    );
    let terms = TwoTerms {
        left: vec![F2, 1, 2],
        right: vec![3],
    };
    assert_eq!(read_words(&[1, 4, 3, 1, F2, 1, 2, 3]), Ok(vec![terms]));
}

#[test]
fn written_forms_read_back() {
    for seed in 0..2000 {
        let mut random = Random::new(seed + 59);
        let l = random.width();
        let count = random.below(10);
        let equations: Vec<TwoTerms> = (0..count).map(|_| some_terms(&mut random, l, 9)).collect();
        let mut numbers = TermEquations::default();
        for terms in &equations {
            numbers.push(&terms.left, &terms.right);
        }
        let mut out = vec![0; 4096];
        let length = write_two_terms(&equations, &mut out).expect("within the limits");
        assert_eq!(out[..length], numbers.bytes());
        assert_eq!(
            write_two_terms(&equations, &mut out[..length - 1]),
            Err(Refusal::Narrow)
        );
        assert_eq!(read_two_terms(l, &out[..length]), Ok(equations));
    }
}

/// The run, the running analysis and the calls on bytes agree on both sides, and each accepted
/// pair counts as one.
#[test]
fn run_and_steps_agree() {
    for seed in 0..1000 {
        let mut random = Random::new(seed + 61);
        let l = random.within(1, 5) as u32;
        let given = form(&some_table(&mut random, l, 8));
        let mut equations = TermEquations::default();
        for _ in 0..random.below(5) {
            let TwoTerms { left, right } = some_terms(&mut random, l, 9);
            equations.push(&left, &right);
        }
        let pairs = read_two_terms(l, &equations.bytes()).expect("reads");
        for side in SIDES.map(Side::number) {
            let (mut state, mut bytes) = (start(side, &given), given.clone());
            for TwoTerms { left, right } in &pairs {
                let (left, right) = (bytes_of(left.clone()), bytes_of(right.clone()));
                assert_eq!(unify_step(&mut state, &left, &right), 0);
                let mut out = vec![0; LONGEST];
                assert_eq!(unify(side, &bytes, &left, &right, &mut out), 0);
                out.truncate(table_length(l, form_entries(&out)));
                bytes = out;
            }
            assert_eq!(state, unify_run(side, &given, &equations.bytes()));
            assert_eq!((state.code, state.applied as usize), (0, pairs.len()));
            assert_eq!(read_table(&bytes), Ok(state.table));
        }
    }
}

/// A run of the new form does with variables on the left what one of the old form does.
#[test]
fn old_and_new_form_agree() {
    for seed in 0..500 {
        let mut random = Random::new(seed + 67);
        let l = random.within(1, 5) as u32;
        let given = form(&some_table(&mut random, l, 8));
        let (mut old, mut new) = (Equations::default(), TermEquations::default());
        for _ in 0..random.below(5) {
            let Equation { left, term } = common::some_equation(&mut random, l);
            old.push(left, &term);
            new.push(&[left], &term);
        }
        for side in SIDES.map(Side::number) {
            let state = run(side, &given, &old.bytes());
            assert_eq!(state, unify_run(side, &given, &new.bytes()));
        }
    }
}

/// The whole input is checked first; a full pair ends the run, and no later one is looked at.
#[test]
fn a_full_pair_ends_the_run() {
    let given = form(&full_table());
    let mut equations = TermEquations::default();
    equations.push(&[F1, 16], &[F1, A]);
    equations.push(&[F2, 1, 16], &[F2, 2, A]);
    equations.push(&[A], &[B]);
    let state = unify_run(0, &given, &equations.bytes());
    assert_eq!((state.code, state.applied), (8, 1));
    assert_eq!(text(&state.table), text(&full_table()));
    equations.push(&[A], &[17]);
    let state = unify_run(0, &given, &equations.bytes());
    assert_eq!(
        (state.code, state.applied, state.table),
        (5, 0, Table::zero())
    );
}

/// From a clash on the table stays empty, and equations of both kinds are accepted.
#[test]
fn a_clash_goes_on_empty() {
    let mut state = start(0, &form(&table(3, "100 01* 0*1")));
    let [x, f] = [vec![2], vec![F1, 2]].map(bytes_of);
    assert_eq!(unify_step(&mut state, &f, &bytes_of([A])), 0);
    assert_eq!((state.applied, &state.table), (1, &Table::empty(3)));
    assert_eq!(step(&mut state, 1, &f), 0);
    assert_eq!(unify_step(&mut state, &f, &x), 0);
    assert_eq!((state.applied, &state.table), (3, &Table::empty(3)));
}
