//! Calls that apply equations or set two terms equal, on a table as it stands, and the table that they
//! leave.

use crate::base::{any_state, give_equation, give_terms, output};
use crate::case::{Call, Case, Outcome};
use crate::tester::Tester;
use reference::{Equation, Table, TwoTerms};
use std::slice;
use support::library::RawTable;
use support::tables::{form, table_of};
use support::{Checked, Equations, Random, TermEquations};

/// A call on a table as it stands, without its equation.
pub fn on_table(call: Call, side: u32, table: &Table, random: &mut Random) -> Case {
    let mut case = Case::new(call);
    case.side = side;
    if call.takes_state() {
        case.state = Some(Box::new(any_state(side, table, random)));
    } else {
        case.first = form(table);
    }
    if call == Call::Reason {
        case.other = random.group_of(table);
    }
    case.out = output(call, random);
    case
}

/// The calls that apply one equation to a table: as it is, and as two terms in both orders.
pub fn calls(side: u32, table: &Table, equation: &Equation, random: &mut Random) -> Vec<Case> {
    let alone = [Call::Equation, Call::Step, Call::Run];
    let mut cases: Vec<Case> = alone
        .map(|call| {
            let mut case = on_table(call, side, table, random);
            give_equations(&mut case, slice::from_ref(equation));
            case
        })
        .into();
    let (x, t) = (vec![equation.left], equation.term.clone());
    for (left, right) in [(x.clone(), t.clone()), (t, x)] {
        let terms = TwoTerms { left, right };
        cases.extend(calls_of_terms(side, table, &terms, random));
    }
    cases
}

/// The calls that set two terms equal on a table.
pub fn calls_of_terms(
    side: u32,
    table: &Table,
    terms: &TwoTerms,
    random: &mut Random,
) -> [Case; 3] {
    [Call::Unify, Call::UnifyStep, Call::UnifyRun].map(|call| {
        let mut case = on_table(call, side, table, random);
        give_pairs(&mut case, slice::from_ref(terms));
        case
    })
}

/// Gives a call the first of some equations, or a run all of them.
pub fn give_equations(case: &mut Case, equations: &[Equation]) {
    if case.call == Call::Run {
        let mut form = Equations::default();
        equations.iter().for_each(|equation| form.add(equation));
        case.second = form.bytes();
    } else {
        give_equation(case, equations[0].clone());
    }
}

/// The same of two terms each.
pub fn give_pairs(case: &mut Case, pairs: &[TwoTerms]) {
    if case.call == Call::UnifyRun {
        let mut form = TermEquations::default();
        pairs
            .iter()
            .for_each(|pair| form.push(&pair.left, &pair.right));
        case.second = form.bytes();
    } else {
        give_terms(case, &pairs[0]);
    }
}

/// Makes a call, which must be accepted and leave just this table.
pub fn leaves(tester: &mut Tester, case: &Case, due: &Table) -> Checked<()> {
    let outcome = tester.answered(case, 0)?;
    match table_after(case, &outcome) == RawTable::of(due) {
        true => Ok(()),
        false => Err(format!("{} leaves another table", case.call.name())),
    }
}

/// The table that an accepted call leaves, in its output or in its state.
fn table_after(case: &Case, outcome: &Outcome) -> RawTable {
    match &outcome.state {
        Some(state) => state.table,
        None => RawTable::of(&table_of(&outcome.out[..case.call.written(&outcome.out)])),
    }
}
