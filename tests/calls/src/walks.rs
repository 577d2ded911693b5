//! Two terms set equal: as many tokens as there may be in every split, each place of a clash, walks
//! that find nothing, and clashes beside a full equation.

use crate::base::{base, base_on, give_terms};
use crate::case::{Call, Case, Outcome};
use crate::full::{unify_run_of, unify_step_of, Full};
use crate::packed::written;
use crate::tester::Tester;
use reference::forms::{bytes_of, table_length, words_of};
use reference::terms::{arity, head, TOKENS};
use reference::{Table, TwoTerms};
use support::tables::{form_entries, Size};
use support::{Checked, Random, TermEquations};

/// All tests of two terms.
pub fn check(tester: &mut Tester, full: &Full) -> Checked<()> {
    let mut random = Random::new(11);
    for negative in [false, true] {
        for _ in 0..4 {
            most_tokens(tester, negative, &mut random)?;
            rounded_halves(tester, negative, &mut random)?;
        }
        most_tokens_split(tester, negative, &mut random)?;
        for _ in 0..40 {
            each_split(tester, negative, &mut random)?;
            each_clash(tester, negative, &mut random)?;
        }
        for k in 0..600 {
            let size = if k % 40 == 0 { Size::Wide } else { Size::Light };
            nothing_found(tester, negative, size, &mut random)?;
        }
        clash_after_full(tester, full, negative, &mut random)?;
    }
    Ok(())
}

/// A call on a small table, without terms yet. Walks of many tokens about many variables would be full
/// at times: so negative tables have up to 12 variables, and from 17 on positive ones have up to three
/// groups, which make seven at most.
fn unify(negative: bool, random: &mut Random) -> Case {
    let (few, any, n) = (random.within(1, 12), random.width(), random.below(4));
    let l = if negative { few as u32 } else { any };
    let table = match l {
        ..=16 => random.table(l, n),
        _ => Table {
            l,
            entries: (0..n).map(|_| random.string(l, 0)).collect(),
        },
    };
    base_on(Call::Unify, negative, Size::Light, &table, random)
}

/// The call, the step of the same terms and the run of them alone answer the same number. In a run
/// there are no terms too long or of odd length.
fn answered(tester: &mut Tester, case: &Case, number: u32, random: &mut Random) -> Checked<()> {
    tester.answered(case, number)?;
    tester.answered(&unify_step_of(case, random), number)?;
    if case.second.len().is_multiple_of(2) && case.third.len().is_multiple_of(2) {
        let mut equations = TermEquations::default();
        equations.push(&words_of(&case.second), &words_of(&case.third));
        let mut run = Case::new(Call::UnifyRun);
        (run.side, run.first) = (case.side, case.first.clone());
        run.second = equations.bytes();
        tester.answered(&run, number)?;
    }
    Ok(())
}

/// 1024 tokens in every split that leaves both sides some.
fn most_tokens_split(tester: &mut Tester, negative: bool, random: &mut Random) -> Checked<()> {
    let mut case = unify(negative, random);
    let l = case.l();
    for left in 1..TOKENS {
        give_terms(&mut case, &random.two_terms_of(l, left, TOKENS - left));
        answered(tester, &case, 0, random)?;
    }
    Ok(())
}

/// 1024 tokens in some splits, with terms that do not clash too, and one more; of other splits a side
/// has none.
fn most_tokens(tester: &mut Tester, negative: bool, random: &mut Random) -> Checked<()> {
    let any = random.within(1, TOKENS - 1);
    for left in [1, 2, 3, any, 511, 512, 513, 1021, 1022, 1023] {
        let mut case = unify(negative, random);
        let l = case.l();
        for (all, number) in [(TOKENS, 0), (TOKENS + 1, 7)] {
            give_terms(&mut case, &random.two_terms_of(l, left, all - left));
            answered(tester, &case, number, random)?;
            give_terms(&mut case, &random.terms_without_clash(l, all - left, left));
            answered(tester, &case, number, random)?;
        }
    }
    for (tokens, number) in [(TOKENS, 6), (TOKENS + 1, 7)] {
        let mut case = unify(negative, random);
        case.second = bytes_of(random.term_of(case.l(), tokens));
        case.third.clear();
        answered(tester, &case, number, random)?;
        std::mem::swap(&mut case.second, &mut case.third);
        answered(tester, &case, number, random)?;
    }
    Ok(())
}

/// Half of each length is rounded down before the two are added; 7 comes before an odd length, and
/// an odd length before any token.
fn rounded_halves(tester: &mut Tester, negative: bool, random: &mut Random) -> Checked<()> {
    let most = 2 * TOKENS;
    let any = 2 * random.within(1, TOKENS - 1);
    for (left, right, number) in [
        (most + 1, 0, 1),
        (most + 1, 1, 1),
        (1, most + 1, 1),
        (any + 1, most - any + 1, 1),
        (any + 1, most - any, 1),
        (any, most - any + 1, 1),
        (most + 1, 2, 7),
        (2, most + 1, 7),
        (any + 1, most - any + 2, 7),
        (any + 2, most - any + 1, 7),
        (most + 3, 1, 7),
        (1, most + 3, 7),
        (1, 0, 1),
        (0, 1, 1),
        (0, 0, 6),
    ] {
        let mut case = unify(negative, random);
        (case.second, case.third) = (random.bytes(left), random.bytes(right));
        answered(tester, &case, number, random)?;
    }
    Ok(())
}

/// The tokens of two terms, one row after the other, cut at every place and not only between them.
fn each_split(tester: &mut Tester, negative: bool, random: &mut Random) -> Checked<()> {
    let mut case = unify(negative, random);
    let (left, right) = (random.within(1, 9), random.within(1, 9));
    let terms = random.two_terms_of(case.l(), left, right);
    let tokens = [terms.left, terms.right].concat();
    for split in 0..=tokens.len() {
        let terms = TwoTerms {
            left: tokens[..split].to_vec(),
            right: tokens[split..].to_vec(),
        };
        give_terms(&mut case, &terms);
        let number = if split == left { 0 } else { 6 };
        answered(tester, &case, number, random)?;
    }
    Ok(())
}

/// Two terms that are the same but for one head: a clash at each place where no variable hides it.
fn each_clash(tester: &mut Tester, negative: bool, random: &mut Random) -> Checked<()> {
    let mut case = unify(negative, random);
    let size = random.within(2, 20);
    let ground = random.ground_term_of(size);
    for place in 0..size {
        let mut other = ground.clone();
        other[place] ^= 0x10 << random.below(11);
        if arity(other[place]) > 0 && random.percent(50) {
            // Another arity, and one argument fewer: the last one of this head.
            other = with_fewer(&ground, place);
        }
        for (left, right) in [(&ground, &other), (&other, &ground)] {
            let (left, right) = (left.clone(), right.clone());
            give_terms(&mut case, &TwoTerms { left, right });
            let outcome = tester.answered(&case, 0)?;
            without_groups(&case, &outcome)?;
            tester.answered(&unify_step_of(&case, random), 0)?;
        }
    }
    Ok(())
}

/// A term in which the head at a place has lost its last argument.
fn with_fewer(term: &[u16], place: usize) -> Vec<u16> {
    let mut last = place + 1;
    for _ in 1..arity(term[place]) {
        last += length(&term[last..]);
    }
    let after = last + length(&term[last..]);
    let mut shorter = [&term[..last], &term[after..]].concat();
    shorter[place] -= 1;
    shorter
}

/// How many tokens the term at the front of a row has.
fn length(tokens: &[u16]) -> usize {
    let arguments = arity(tokens[0]);
    (0..arguments).fold(1, |length, _| length + self::length(&tokens[length..]))
}

/// A table without groups: no entry on the positive side, one of stars on the negative one.
fn without_groups(case: &Case, outcome: &Outcome) -> Checked<()> {
    let n = u8::from(case.is_negative());
    let words = vec![0; table_length(case.l(), n.into()) - 4];
    let due = [&case.first[..2], &[n, 0], &words].concat();
    if outcome.out[..due.len()] == due && form_entries(&outcome.out) == usize::from(n) {
        Ok(())
    } else {
        Err("a clash leaves a table with groups".into())
    }
}

/// Two ground terms that are the same: what is written is what reading writes, and a state's table
/// stays as it is, grown or not.
fn nothing_found(
    tester: &mut Tester,
    negative: bool,
    size: Size,
    random: &mut Random,
) -> Checked<()> {
    let mut case = base(Call::Unify, negative, size, random);
    let tokens = random.within(1, 12);
    let ground = random.ground_term_of(tokens);
    let (left, right) = (ground.clone(), ground);
    give_terms(&mut case, &TwoTerms { left, right });
    let outcome = tester.answered(&case, 0)?;
    let read = written(tester, Call::Read, case.first.clone(), random)?;
    let step = unify_step_of(&case, random);
    let table = step.state.as_ref().map(|state| state.table);
    let after = tester.answered(&step, 0)?.state.map(|state| state.table);
    if outcome.out[..read.len()] == read && after == table {
        Ok(())
    } else {
        Err("a walk that finds nothing changes the table".into())
    }
}

/// Full pairs, and the same with a clash behind them or before them: then nothing is full.
fn clash_after_full(
    tester: &mut Tester,
    full: &Full,
    negative: bool,
    random: &mut Random,
) -> Checked<()> {
    for _ in 0..40 {
        let mut case = full.case(Call::Unify, negative, random);
        let (left, right) = (words_of(&case.second), words_of(&case.third));
        let (f, a, b) = (head(0x7fe, 2), head(1, 0), head(1, 1));
        answered(tester, &case, 8, random)?;
        for (behind, number) in [(true, 0), (false, 0), (true, 8)] {
            let other = if number == 0 { vec![b, a] } else { vec![a] };
            let pair = |term: &[u16], leaf: &[u16]| match behind {
                true => [&[f], term, leaf].concat(),
                false => [&[f], leaf, term].concat(),
            };
            let terms = TwoTerms {
                left: pair(&left, &[a]),
                right: pair(&right, &other),
            };
            give_terms(&mut case, &terms);
            answered(tester, &case, number, random)?;
            if number == 0 {
                without_groups(&case, &tester.check(&case)?)?;
            }
            tester.check(&unify_run_of(&case, random))?;
        }
    }
    Ok(())
}
