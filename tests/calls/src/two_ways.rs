//! The same in two ways: two terms and the equations that are found in them, and equations with a
//! variable on the left in either form. Then forms of two terms, cut, followed and changed.

use crate::base::{base, base_on, give_terms};
use crate::case::{Call, Case};
use crate::full::unify_step_of;
use crate::packed::written;
use crate::tester::Tester;
use reference::forms::{bytes_of, words_of};
use reference::terms::is_head;
use reference::unification::{walk, Term};
use reference::Equation;
use support::library::State;
use support::tables::{Size, LONGEST};
use support::{Checked, Equations, Random, TermEquations};

/// All of these tests.
pub fn check(tester: &mut Tester) -> Checked<()> {
    let mut random = Random::new(12);
    for negative in [false, true] {
        for k in 0..1200 {
            let size = if k % 40 == 0 { Size::Wide } else { Size::Light };
            one_by_one(tester, negative, size, &mut random)?;
            both_forms(tester, negative, size, &mut random)?;
        }
        for _ in 0..40 {
            each_length(tester, negative, &mut random)?;
            each_output(tester, negative, &mut random)?;
        }
    }
    Ok(())
}

/// Two terms that do not clash, and the equations found in them by calls of their own.
fn one_by_one(tester: &mut Tester, negative: bool, size: Size, random: &mut Random) -> Checked<()> {
    let mut case = base(Call::Unify, negative, size, random);
    let (left, right) = (random.within(1, 9), random.within(1, 9));
    let terms = random.terms_without_clash(case.l(), left, right);
    give_terms(&mut case, &terms);
    let (left, right) = (Term::of(&terms.left), Term::of(&terms.right));
    let found = walk(&left, &right).map_err(|_| "the terms clash")?;
    let found: Vec<(u16, Vec<u16>)> = found.iter().map(|(x, term)| (*x, term.tokens())).collect();
    by_bytes(tester, &case, &found, random)?;
    by_steps(tester, &unify_step_of(&case, random), &found)
}

/// Each equation on the bytes that the last one wrote.
pub fn by_bytes(
    tester: &mut Tester,
    case: &Case,
    found: &[(u16, Vec<u16>)],
    random: &mut Random,
) -> Checked<()> {
    let all = tester.check(case)?;
    let mut bytes = written(tester, Call::Read, case.first.clone(), random)?;
    for (x, term) in found {
        let mut equation = Case::new(Call::Equation);
        (equation.side, equation.word) = (case.side, u32::from(*x));
        equation.first = bytes;
        equation.second = bytes_of(term.iter().copied());
        equation.out = random.bytes(LONGEST);
        let outcome = tester.check(&equation)?;
        if outcome.number != 0 {
            return same(outcome.number == all.number, "two terms");
        }
        bytes = outcome.out[..Call::Equation.written(&outcome.out)].to_vec();
    }
    same(
        all.number == 0 && all.out[..bytes.len()] == bytes,
        "two terms",
    )
}

/// The same in a running analysis, which counts these equations one by one.
pub fn by_steps(tester: &mut Tester, case: &Case, found: &[(u16, Vec<u16>)]) -> Checked<()> {
    let all = tester.check(case)?;
    let mut state = case.state.clone();
    for (x, term) in found {
        let mut step = Case::new(Call::Step);
        (step.state, step.word) = (state, u32::from(*x));
        step.second = bytes_of(term.iter().copied());
        let outcome = tester.check(&step)?;
        if outcome.number != 0 {
            return same(outcome.number == all.number, "a step of two terms");
        }
        state = outcome.state;
    }
    let table = |state: Option<Box<State>>| state.map(|state| state.table);
    same(
        all.number == 0 && table(all.state) == table(state),
        "a step of two terms",
    )
}

/// What comes of it in the second way is the same.
fn same(holds: bool, what: &str) -> Checked<()> {
    match holds {
        true => Ok(()),
        false => Err(format!("{what}: another outcome in the second way")),
    }
}

/// Equations with a variable on the left give the same in either form; a form of one kind is
/// refused 6 by the run of the other kind.
fn both_forms(tester: &mut Tester, negative: bool, size: Size, random: &mut Random) -> Checked<()> {
    let mut run = base(Call::Run, negative, size, random);
    let l = run.l();
    let (mut old, mut new) = (Equations::default(), TermEquations::default());
    for _ in 0..random.within(1, 4) {
        let tokens = random.within(1, 5);
        let Equation { left, term } = random.equation_of(l, tokens);
        old.push(left, &term);
        match random.below(3) {
            0 if is_head(term[0]) => new.push(&term, &[left]),
            _ => new.push(&[left], &term),
        }
    }
    run.second = old.bytes();
    let outcome = tester.check(&run)?;
    run.call = Call::UnifyRun;
    tester.answered(&run, 6)?;
    run.second = new.bytes();
    let other = tester.check(&run)?;
    run.call = Call::Run;
    tester.answered(&run, 6)?;
    same(outcome == other, "equations in the new form")
}

/// A form of equations of two terms that is cut at every length or followed by more, and one with
/// each word of it changed.
fn each_length(tester: &mut Tester, negative: bool, random: &mut Random) -> Checked<()> {
    let mut run = base(Call::UnifyRun, negative, Size::Light, random);
    let mut equations = TermEquations::default();
    for _ in 0..random.within(1, 3) {
        let (left, right) = (random.within(1, 4), random.within(1, 4));
        let terms = random.two_terms_of(run.l(), left, right);
        equations.push(&terms.left, &terms.right);
    }
    let form = equations.bytes();
    let longer = [form.clone(), random.bytes(5)].concat();
    for len in 0..=longer.len() {
        run.second = longer[..len].to_vec();
        tester.answered(&run, u32::from(len != form.len()))?;
    }
    for place in 0..form.len() / 2 {
        let mut words = words_of(&form);
        let any = random.word() as u16;
        words[place] = random.pick(&[0, words[place] ^ 1, words[place] ^ 0x8000, any]);
        run.second = bytes_of(words);
        tester.check(&run)?;
    }
    Ok(())
}

/// Outputs of every length up to some bytes more than are needed.
fn each_output(tester: &mut Tester, negative: bool, random: &mut Random) -> Checked<()> {
    let (l, n) = (random.width(), random.below(4));
    let table = random.table(l, n);
    let mut case = base_on(Call::Unify, negative, Size::Light, &table, random);
    let outcome = tester.check(&case)?;
    for len in 0..case.needed(&outcome) + 5 {
        case.out = random.bytes(len);
        tester.check(&case)?;
    }
    Ok(())
}
