//! Sequences of calls: what one call leaves is what the next one gets.

use crate::base::{base_on, give_equation, give_terms};
use crate::case::{Call, Case, Outcome};
use crate::faults::Fault;
use crate::full::Full;
use crate::tester::Tester;
use crate::{packed, term_faults, word_faults};
use reference::forms::table_length;
use reference::{ENTRIES, VARIABLES};
use support::library::State;
use support::tables::{form, table_of, Size, LONGEST};
use support::{Checked, Random};

/// Running analyses, chains of calls on bytes, and runs beside steps.
pub fn check(tester: &mut Tester, full: &Full) -> Checked<()> {
    let mut random = Random::new(8);
    for k in 0..1200 {
        let negative = k % 2 == 1;
        let size = if k % 40 < 2 { Size::Wide } else { Size::Light };
        running(tester, negative, size, &mut random)?;
        chain(tester, negative, size, &mut random)?;
        if k % 20 < 2 {
            after_full(tester, full, negative, &mut random)?;
        }
    }
    Ok(())
}

/// Starts an analysis from some table and makes steps and writes; at times the table in the
/// state is damaged or put back from outside.
fn running(tester: &mut Tester, negative: bool, size: Size, random: &mut Random) -> Checked<()> {
    let mut state = start(tester, negative, size, random)?;
    let mut sound = state.clone();
    for _ in 0..random.within(4, 24) {
        state = match random.below(20) {
            0..=4 => step(tester, &state, &[], random)?,
            5..=9 => unify_step(tester, &state, &[], random)?,
            10 | 11 => refused_step(tester, &state, random)?,
            12 | 13 => refused_unify_step(tester, &state, random)?,
            14..=16 => write(tester, &state, random)?,
            17 => damage(tester, &state, random)?,
            18 => sound.clone(),
            _ => start(tester, negative, size, random)?,
        };
        if state.running().is_ok() {
            sound.clone_from(&state);
        }
    }
    Ok(())
}

/// Starts an analysis, now and then from a form that does not read.
fn start(
    tester: &mut Tester,
    negative: bool,
    size: Size,
    random: &mut Random,
) -> Checked<Box<State>> {
    let (l, n) = random.shape(size);
    let table = random.table(l, n);
    let mut case = base_on(Call::Start, negative, size, &table, random);
    if random.percent(10) {
        case.first.truncate(random.below(case.first.len()));
    }
    tester.check(&case).map(state_after)
}

/// A step from a state, with some faults in its term.
fn step(
    tester: &mut Tester,
    state: &State,
    faults: &[Fault],
    random: &mut Random,
) -> Checked<Box<State>> {
    let mut case = Case::new(Call::Step);
    let l = state.table.l.clamp(1, VARIABLES);
    case.state = Some(Box::new(*state));
    let size = random.within(1, 6);
    give_equation(&mut case, random.equation_of(l, size));
    for &fault in faults {
        match fault {
            Fault::Variable => word_faults::put(fault, l, &mut case, random),
            _ => term_faults::put(fault, l, &mut case.second, random),
        }
    }
    tester.check(&case).map(state_after)
}

fn refused_step(tester: &mut Tester, state: &State, random: &mut Random) -> Checked<Box<State>> {
    let fault = random.pick(&[
        Fault::Variable,
        Fault::TermLong,
        Fault::TermToken,
        Fault::TermPart,
        Fault::TermRest,
        Fault::TermNone,
        Fault::TermOdd,
    ]);
    step(tester, state, &[fault], random)
}

/// Two terms set equal in a state, with some faults in them. Few clash: after a clash the table
/// stays without groups.
fn unify_step(
    tester: &mut Tester,
    state: &State,
    faults: &[Fault],
    random: &mut Random,
) -> Checked<Box<State>> {
    let mut case = Case::new(Call::UnifyStep);
    let l = state.table.l.clamp(1, VARIABLES);
    case.state = Some(Box::new(*state));
    let (left, right) = (random.within(1, 6), random.within(1, 6));
    let terms = match random.below(10) {
        0 => random.two_terms_of(l, left, right),
        _ => random.terms_without_clash(l, left, right),
    };
    give_terms(&mut case, &terms);
    for &fault in faults {
        let row = match fault {
            Fault::RightToken | Fault::RightPart | Fault::RightNone => &mut case.third,
            _ => &mut case.second,
        };
        term_faults::put(fault, l, row, random);
    }
    tester.check(&case).map(state_after)
}

fn refused_unify_step(
    tester: &mut Tester,
    state: &State,
    random: &mut Random,
) -> Checked<Box<State>> {
    let fault = random.pick(&[
        Fault::TermLong,
        Fault::TermToken,
        Fault::TermRest,
        Fault::TermOdd,
        Fault::RightToken,
        Fault::RightPart,
        Fault::RightNone,
    ]);
    unify_step(tester, state, &[fault], random)
}

/// Writes the table of a state, into an output of any length.
fn write(tester: &mut Tester, state: &State, random: &mut Random) -> Checked<Box<State>> {
    let mut case = Case::new(Call::Write);
    case.state = Some(Box::new(*state));
    let needed = table_length(state.table.l, state.table.n.min(ENTRIES));
    let len = random.within(0, needed + 8);
    let len = random.pick(&[len, needed, needed - 1, LONGEST]);
    case.out = random.bytes(len);
    tester.check(&case).map(state_after)
}

/// Damages the table of a state from outside, then tries a step and a write.
fn damage(tester: &mut Tester, state: &State, random: &mut Random) -> Checked<Box<State>> {
    let mut damaged = *state;
    let fault = match state.table.n {
        1..=255 => random.pick(&[Fault::StateStray, Fault::StateTail, Fault::StateCount]),
        _ => Fault::StateWidth,
    };
    let l = state.table.l.clamp(1, VARIABLES);
    word_faults::put_in_table(fault, l, &mut damaged.table, random);
    let after = step(tester, &damaged, &[], random)?;
    write(tester, &after, random)
}

fn state_after(outcome: Outcome) -> Box<State> {
    outcome.state.expect("the call leaves a state")
}

/// Calls on bytes: each gets what the last accepted one wrote; after a refusal the same bytes.
fn chain(tester: &mut Tester, negative: bool, size: Size, random: &mut Random) -> Checked<()> {
    let (l, n) = random.shape(size);
    let mut bytes = form(&random.table(l, n));
    let mut negative = negative;
    for _ in 0..random.within(3, 14) {
        let call = random.pick(&[
            Call::Equation,
            Call::Equation,
            Call::Unify,
            Call::Unify,
            Call::Join,
            Call::Project,
            Call::ChangeSide,
            Call::Read,
            Call::Pack,
        ]);
        let case = base_on(call, negative, Size::Light, &table_of(&bytes), random);
        let outcome = tester.check(&case)?;
        if outcome.number == 0 {
            negative ^= call == Call::ChangeSide;
            bytes = outcome.out[..call.written(&outcome.out)].to_vec();
            if call == Call::Pack {
                bytes = packed::written(tester, Call::Unpack, bytes, random)?;
            }
        }
        ask(tester, negative, &bytes, random)?;
    }
    Ok(())
}

/// One question about what a chain has come to.
fn ask(tester: &mut Tester, negative: bool, bytes: &[u8], random: &mut Random) -> Checked<()> {
    let table = table_of(bytes);
    let call = random.pick(&[
        Call::Equal,
        Call::Ground,
        Call::Independent,
        Call::Reason,
        Call::Smaller,
    ]);
    let mut case = base_on(call, negative, Size::Light, &table, random);
    if call == Call::Equal && random.percent(50) {
        // The same groups in another order.
        let mut other = table;
        random.shuffle(&mut other.entries);
        case.second = form(&other);
    }
    tester.check(&case).map(drop)
}

/// A full step leaves the table: the next steps and writes go on from it.
fn after_full(
    tester: &mut Tester,
    full: &Full,
    negative: bool,
    random: &mut Random,
) -> Checked<()> {
    let mut case = full.case(Call::Step, negative, random);
    case.state = Some(state_after(tester.check(&case)?));
    let state = state_after(tester.check(&case)?);
    let state = write(tester, &state, random)?;
    let state = refused_step(tester, &state, random)?;
    step(tester, &state, &[], random)?;
    for call in [Call::Run, Call::UnifyRun] {
        let run = full.case(call, negative, random);
        let state = state_after(tester.check(&run)?);
        let state = step(tester, &state, &[], random)?;
        unify_step(tester, &state, &[], random)?;
    }
    let mut case = full.case(Call::UnifyStep, negative, random);
    case.state = Some(state_after(tester.check(&case)?));
    let state = state_after(tester.check(&case)?);
    let state = write(tester, &state, random)?;
    let state = refused_unify_step(tester, &state, random)?;
    unify_step(tester, &state, &[], random).map(drop)
}
