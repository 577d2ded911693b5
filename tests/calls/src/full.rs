//! Calls that need entry 257.

use crate::base::{any_state, base_on, give_equation, give_terms};
use crate::case::{Call, Case};
use crate::expected::expected;
use reference::entry::low_bits;
use reference::forms::words_of;
use reference::terms::head;
use reference::{Entry, Table, TwoTerms, ENTRIES};
use std::collections::{BTreeMap, BTreeSet};
use support::tables::{form, form_width, table_of, Size, LONGEST};
use support::{Equations, Random, TermEquations};

/// How many full calls of each kind are found at the start, to be used again and again.
const FOUND: usize = 12;

/// Full calls of each kind. Their tables leave room for a bit above l and for an entry more.
pub struct Full(BTreeMap<(Call, bool), Vec<Case>>);

impl Full {
    /// Looks for full calls of each kind.
    pub fn find(random: &mut Random) -> Full {
        let mut found = BTreeMap::new();
        for call in [Call::Convert, Call::ChangeSide, Call::Join, Call::Equation] {
            for negative in [false, true] {
                found.insert((call, negative), find(call, negative, random));
            }
        }
        for negative in [false, true] {
            let equations = found[&(Call::Equation, negative)].clone();
            let steps = equations.iter().map(|case| step_of(case, random));
            found.insert((Call::Step, negative), steps.collect());
            let runs = equations.iter().map(|case| run_of(case, random));
            found.insert((Call::Run, negative), runs.collect());
            let pairs: Vec<Case> = equations
                .iter()
                .map(|case| unify_of(case, random))
                .collect();
            let steps = pairs.iter().map(|case| unify_step_of(case, random));
            found.insert((Call::UnifyStep, negative), steps.collect());
            let runs = pairs.iter().map(|case| unify_run_of(case, random));
            found.insert((Call::UnifyRun, negative), runs.collect());
            found.insert((Call::Unify, negative), pairs);
        }
        found.insert((Call::Project, true), find(Call::Project, true, random));
        Full(found)
    }

    /// One of the full calls of a kind.
    pub fn case(&self, call: Call, negative: bool, random: &mut Random) -> Case {
        let cases = &self.0[&(call, negative)];
        cases[random.below(cases.len())].clone()
    }

    /// All full calls.
    pub fn cases(&self) -> impl Iterator<Item = &Case> {
        self.0.values().flatten()
    }
}

/// Draws calls until enough are full.
fn find(call: Call, negative: bool, random: &mut Random) -> Vec<Case> {
    let mut found = Vec::new();
    while found.len() < FOUND {
        let case = candidate(call, negative, random);
        if expected(&case).number == 8 {
            found.push(case);
        }
    }
    found
}

/// A call that is likely to be full.
fn candidate(call: Call, negative: bool, random: &mut Random) -> Case {
    let [few, many] = [(10, 15), (17, 31)].map(|(a, b)| random.within(a, b) as u32);
    let l = random.pick(&[few, many]);
    match (call, negative) {
        (Call::Convert, _) => convert(l, ENTRIES + 1 + random.below(40), random),
        (Call::Join, false) => {
            let k = random.within(128, 250);
            let [first, second] = [(); 2].map(|()| alternate(l, k, random));
            join(l, &first, &second, random)
        }
        (Call::Join, true) => {
            let (first, second) = (random.within(15, 31), random.within(15, 31));
            negative_join(l.max(12), first, second, random)
        }
        (Call::Equation, false) => {
            let (n, stars) = (random.within(30, 120), random.pick(&[0, 10, 30]));
            on_strings(call, negative, l, n, stars, random)
        }
        _ => {
            let n = random.within(8, 40);
            on_strings(call, negative, l, n, 75, random)
        }
    }
}

/// A call on a table of strings with the given chance of `*`.
fn on_strings(
    call: Call,
    negative: bool,
    l: u32,
    n: usize,
    stars: usize,
    random: &mut Random,
) -> Case {
    let entries = (0..n).map(|_| random.string(l, stars)).collect();
    let table = Table { l, entries };
    let mut case = base_on(call, negative, Size::Light, &table, random);
    if call == Call::Equation {
        let size = random.within(3, 12);
        give_equation(&mut case, random.equation_of(l, size));
    }
    case
}

/// So many different groups of which each two differ at two positions or more, so that none
/// widens beside another: each has an odd number of variables; there are 256 of 9 variables. Of more
/// than 12 variables they are drawn: few of all that there are.
pub fn alternate(l: u32, count: usize, random: &mut Random) -> Vec<u32> {
    let odd = |group: &u32| group.count_ones() % 2 == 1;
    let mut groups: Vec<u32> = if l <= 12 {
        (1..=low_bits(l)).filter(odd).collect()
    } else {
        let mut drawn = BTreeSet::new();
        while drawn.len() < count {
            drawn.extend(Some(random.word() & low_bits(l)).filter(odd));
        }
        drawn.into_iter().collect()
    };
    random.shuffle(&mut groups);
    groups.truncate(count);
    groups
}

/// A conversion that gives so many entries, with some words given again or zero.
pub fn convert(l: u32, count: usize, random: &mut Random) -> Case {
    let mut groups = alternate(l, count, random);
    for _ in 0..random.below(20) {
        let place = random.below(groups.len());
        let word = random.pick(&groups[..=place]);
        groups.insert(place + 1, random.pick(&[0, word]));
    }
    let mut case = Case::new(Call::Convert);
    case.word = l;
    case.first = groups.into_iter().flat_map(u32::to_le_bytes).collect();
    case.out = random.bytes(LONGEST);
    case
}

/// A positive join of groups of l variables.
pub fn join(l: u32, first: &[u32], second: &[u32], random: &mut Random) -> Case {
    let fixed = |groups: &[u32]| Table {
        l,
        entries: groups
            .iter()
            .map(|&group| Entry::of_group(l, group))
            .collect(),
    };
    let mut case = Case::new(Call::Join);
    case.first = form(&fixed(first));
    case.second = form(&fixed(second));
    case.out = random.bytes(LONGEST);
    case
}

/// A negative join of tables of up to 32 entries each, which makes the product of the counts: the
/// first is fixed at the low 6 positions, the second at all others, with ones at the next 6
/// only. No two meets differ at one position alone, so that none widens. l is at least 12.
pub fn negative_join(l: u32, first: usize, second: usize, random: &mut Random) -> Case {
    let row = |count: usize, care: u32, shift: u32, random: &mut Random| {
        let entry = |value| Entry {
            care,
            value: value << shift,
        };
        let entries = alternate(6, count, random).into_iter().map(entry).collect();
        form(&Table { l, entries })
    };
    let mut case = Case::new(Call::Join);
    case.side = random.side(true);
    case.first = row(first, 63, 0, random);
    case.second = row(second, low_bits(l) & !63, 6, random);
    case.out = random.bytes(LONGEST);
    case
}

/// The step of the same equation from the same table, which is not grown first.
pub fn step_of(equation: &Case, random: &mut Random) -> Case {
    let mut case = Case::new(Call::Step);
    let table = table_of(&equation.first);
    case.state = Some(Box::new(any_state(equation.side, &table, random)));
    (case.word, case.second) = (equation.word, equation.second.clone());
    case
}

/// A run that comes to the given full equation, or to another one before it.
pub fn run_of(equation: &Case, random: &mut Random) -> Case {
    let l = form_width(&equation.first);
    let mut case = Case::new(Call::Run);
    (case.side, case.first) = (equation.side, equation.first.clone());
    for earlier in [2, 1, 0] {
        let mut equations = Equations::default();
        let some = |count: usize, equations: &mut Equations, random: &mut Random| {
            for _ in 0..count {
                equations.add(&random.equation_of(l, 2));
            }
        };
        some(earlier, &mut equations, random);
        equations.push(equation.word as u16, &words_of(&equation.second));
        some(random.below(3), &mut equations, random);
        case.second = equations.bytes();
        if expected(&case).number == 8 {
            break;
        }
    }
    case
}

/// Two terms whose walk finds the given full equation, with its variable on either side, and at
/// times others before and after it.
pub fn unify_of(equation: &Case, random: &mut Random) -> Case {
    let l = form_width(&equation.first);
    let mut case = equation.clone();
    case.call = Call::Unify;
    loop {
        let arity = random.within(1, 4);
        let mut sides = [(); 2].map(|()| vec![head(9, arity as u16)]);
        let place = random.below(arity);
        for k in 0..arity {
            let (x, y, constant) = (random.variable(l), random.variable(l), head(k as u16, 0));
            let swap = random.below(2);
            if k == place {
                sides[swap].push(equation.word as u16);
                sides[1 - swap].extend(words_of(&equation.second));
            } else {
                let (s, t) = random.pick(&[(constant, constant), (x, y), (x, constant)]);
                sides[swap].push(s);
                sides[1 - swap].push(t);
            }
        }
        let [left, right] = sides;
        give_terms(&mut case, &TwoTerms { left, right });
        if expected(&case).number == 8 {
            return case;
        }
    }
}

/// The step of the same two terms from the same table, which is not grown first.
pub fn unify_step_of(pair: &Case, random: &mut Random) -> Case {
    let mut case = step_of(pair, random);
    case.call = Call::UnifyStep;
    case.third.clone_from(&pair.third);
    case
}

/// A run that comes to the given full pair, or to another one before it.
pub fn unify_run_of(pair: &Case, random: &mut Random) -> Case {
    let l = form_width(&pair.first);
    let mut case = Case::new(Call::UnifyRun);
    (case.side, case.first) = (pair.side, pair.first.clone());
    for earlier in [2, 1, 0] {
        let mut equations = TermEquations::default();
        for _ in 0..earlier {
            let terms = random.terms_without_clash(l, 2, 3);
            equations.push(&terms.left, &terms.right);
        }
        equations.push(&words_of(&pair.second), &words_of(&pair.third));
        for _ in 0..random.below(3) {
            let terms = random.two_terms_of(l, 2, 3);
            equations.push(&terms.left, &terms.right);
        }
        case.second = equations.bytes();
        if expected(&case).number == 8 {
            break;
        }
    }
    case
}
