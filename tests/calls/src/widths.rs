//! Every call on tables of 16, 17, 31 and 32 variables, and with 33: the width itself, and each bit of
//! the words and each number of a variable that a call is given beside its table.

use crate::base::short_base;
use crate::case::{Call, Case, Part};
use crate::ledger::rows;
use crate::tester::Tester;
use reference::forms::bytes_of;
use reference::terms::head;
use reference::VARIABLES;
use support::tables::EDGES;
use support::{Checked, Equations, Random, TermEquations};

/// How many tables of each width each call is given.
const TIMES: usize = 20;

/// All of them.
pub fn check(tester: &mut Tester) -> Checked<()> {
    let mut random = Random::new(14);
    for (call, negative) in rows() {
        for l in EDGES {
            for _ in 0..TIMES {
                let case = short_base(call, negative, l, &mut random);
                tester.answered(&case, 0)?;
            }
            let case = short_base(call, negative, l, &mut random);
            each_set(tester, &case, &mut random)?;
            each_variable(tester, &case)?;
        }
        for l in [0, VARIABLES + 1, VARIABLES + 16, 2 * VARIABLES, 0x100] {
            let case = short_base(call, negative, VARIABLES, &mut random);
            refused_width(tester, &case, l)?;
        }
    }
    Ok(())
}

/// A call on a table of so many variables, which are too few or too many; of two tables either one.
fn refused_width(tester: &mut Tester, given: &Case, l: u32) -> Checked<()> {
    let mut first = given.clone();
    let size = (l as u16).to_le_bytes();
    match &mut first.state {
        Some(state) => state.table.l = l,
        None if first.call == Call::Convert => first.word = l,
        None => first.first[..2].copy_from_slice(&size),
    }
    let mut cases = vec![first];
    if matches!(given.call, Call::Join | Call::Equal | Call::Smaller) {
        let mut second = given.clone();
        second.second[..2].copy_from_slice(&size);
        cases.push(second);
    }
    for case in cases {
        let number = if case.call == Call::Smaller { 0 } else { 2 };
        let outcome = tester.answered(&case, number)?;
        if case.call == Call::Smaller && outcome.part != Part::Empty {
            return Err(format!("a part of a form with l = {l}"));
        }
    }
    Ok(())
}

/// Each bit of a word that is a set of variables: with others beside it and alone.
fn each_set(tester: &mut Tester, given: &Case, random: &mut Random) -> Checked<()> {
    let (refusal, l) = match given.call {
        Call::Convert | Call::Reason => (4, given.l()),
        Call::Independent => (5, given.l()),
        Call::Project => (11, given.l()),
        _ => return Ok(()),
    };
    for i in 0..VARIABLES {
        let number = if i < l { 0 } else { refusal };
        for set in [1 << i, 1 << i | random.set(l)] {
            let mut case = given.clone();
            match given.call {
                Call::Convert => case.first.extend(set.to_le_bytes()),
                Call::Reason => case.other = set,
                _ => case.word = set,
            }
            tester.answered(&case, number)?;
            if given.call == Call::Independent {
                (case.word, case.other) = (random.set(l), set);
                tester.answered(&case, number)?;
            }
        }
    }
    Ok(())
}

/// Each number from 0 on as a variable: asked about, on the left, and in a term.
fn each_variable(tester: &mut Tester, given: &Case) -> Checked<()> {
    for variable in 0..=VARIABLES as u16 + 2 {
        let good = (1..=given.l()).contains(&variable.into());
        for case in naming(given, variable) {
            tester.answered(&case, if good { 0 } else { 5 })?;
        }
    }
    Ok(())
}

/// The calls of this sort that name a variable, in each place where they can.
fn naming(given: &Case, variable: u16) -> Vec<Case> {
    let with = |change: &dyn Fn(&mut Case)| {
        let mut case = given.clone();
        change(&mut case);
        case
    };
    let term = bytes_of([head(1, 1), variable]);
    let constant = bytes_of([head(2, 0)]);
    match given.call {
        Call::Ground => vec![with(&|case| case.word = variable.into())],
        Call::Equation | Call::Reason | Call::Step => vec![
            with(&|case| (case.word, case.second) = (variable.into(), constant.clone())),
            with(&|case| (case.word, case.second) = (1, term.clone())),
        ],
        Call::Unify | Call::UnifyStep => vec![
            with(&|case| (case.second, case.third) = (bytes_of([1]), term.clone())),
            with(&|case| (case.second, case.third) = (term.clone(), bytes_of([1]))),
        ],
        Call::Run => {
            let runs = [
                (variable, vec![head(2, 0)]),
                (1, vec![head(1, 1), variable]),
            ];
            let run = |(left, term): &(u16, Vec<u16>)| {
                let mut equations = Equations::default();
                equations.push(*left, term);
                with(&|case| case.second = equations.bytes())
            };
            runs.iter().map(run).collect()
        }
        Call::UnifyRun => {
            let mut equations = TermEquations::default();
            equations.push(&[variable], &[head(2, 0)]);
            equations.push(&[head(1, 1), 1], &[head(1, 1), variable]);
            vec![with(&|case| case.second = equations.bytes())]
        }
        _ => vec![],
    }
}
