//! Walks that find x = x or a deeper x: first, last and between others, under several heads, beside
//! a clash and beside an equation that is full. Then runs of such equations.

use crate::applying::{calls_of_terms, give_equations, give_pairs, leaves, on_table};
use crate::case::{Call, Case};
use crate::full::Full;
use crate::packed::written;
use crate::seen::Seen;
use crate::self_equations::{deeper_term, some_table};
use crate::tester::Tester;
use crate::two_ways::{by_bytes, by_steps};
use reference::forms::words_of;
use reference::terms::head;
use reference::unification::{walk, Term};
use reference::{Equation, Side, Table, TwoTerms};
use support::tables::{form, table_of};
use support::{Checked, Random};

/// What the walk of one pair of arguments comes to.
#[derive(Clone, Copy, PartialEq, Eq)]
enum Part {
    Itself,
    Deeper,
    /// An ordinary equation.
    Plain,
    /// The same ground term on both sides.
    Nothing,
    Clash,
    /// An equation that is full.
    Full,
}

use Part::*;

/// The parts that come in every order.
const PARTS: [Part; 5] = [Itself, Deeper, Plain, Nothing, Clash];

/// Those with an equation that is full, and what is answered.
const WITH_FULL: [(&[Part], u32); 14] = [
    (&[Itself, Full], 8),
    (&[Full, Itself], 8),
    (&[Full, Deeper], 8),
    (&[Itself, Full, Deeper], 8),
    (&[Full, Deeper, Itself], 8),
    (&[Full, Itself, Deeper], 8),
    (&[Deeper, Full], 0),
    (&[Itself, Deeper, Full], 0),
    (&[Deeper, Itself, Full], 0),
    (&[Deeper, Full, Deeper], 0),
    (&[Full, Deeper, Clash], 0),
    (&[Deeper, Full, Clash], 0),
    (&[Clash, Full, Deeper], 0),
    (&[Full, Itself, Clash], 0),
];

/// All of these tests.
pub fn check(tester: &mut Tester, full: &Full) -> Checked<()> {
    let mut random = Random::new(16);
    for negative in [false, true] {
        for _ in 0..3 {
            for parts in orders() {
                one_walk(tester, negative, &parts, &mut random)?;
            }
        }
        for _ in 0..12 {
            for (parts, number) in WITH_FULL {
                beside_full(tester, full, negative, (parts, number), &mut random)?;
            }
            runs(tester, full, negative, &mut random)?;
        }
    }
    Ok(())
}

/// Every order of one to three parts of which one is such an equation.
fn orders() -> Vec<Vec<Part>> {
    let mut orders = vec![vec![]];
    let mut last = orders.clone();
    for _ in 0..3 {
        let longer = |parts: &Vec<Part>| PARTS.map(|part| [&parts[..], &[part]].concat());
        last = last.iter().flat_map(longer).collect();
        orders.extend(last.clone());
    }
    orders.retain(|parts| parts.contains(&Itself) || parts.contains(&Deeper));
    orders
}

/// A pair of terms for a part; the variable of an equation stands on either side.
fn pair(part: Part, l: u32, full: &Equation, random: &mut Random) -> [Vec<u16>; 2] {
    let (a, b) = (vec![head(1, 0)], vec![head(2, 0)]);
    let x = random.variable(l);
    let f = |term: &[u16]| [&[head(4, 1)], term].concat();
    let mut sides = match part {
        Itself => [vec![x], vec![x]],
        Deeper => [vec![x], deeper_term(l, x, random)],
        Plain => plain(l, x, random),
        Nothing => [f(&a), f(&a)],
        Clash if random.percent(50) => [f(&a), f(&b)],
        Clash => [a, f(&[x])],
        Full => [vec![full.left], full.term.clone()],
    };
    // A variable across from a variable is the left one's equation.
    if sides[0].len() != 1 || sides[1].len() != 1 {
        random.shuffle(&mut sides);
    }
    sides
}

/// An ordinary equation of x; of one variable, with a constant.
fn plain(l: u32, x: u16, random: &mut Random) -> [Vec<u16>; 2] {
    let y = random.variable(l);
    let term = match (x == y, random.below(3)) {
        (true, _) => vec![head(2, 0)],
        (_, 0) => vec![y],
        (_, 1) => vec![head(3, 1), y],
        _ => vec![head(3, 2), y, y],
    };
    [vec![x], term]
}

/// Two terms with these parts as their arguments, under some heads more.
fn terms(parts: &[Part], l: u32, full: &Equation, random: &mut Random) -> TwoTerms {
    let arity = parts.len() as u16;
    let mut sides = [(); 2].map(|()| vec![head(9, arity)]);
    for &part in parts {
        let pair = pair(part, l, full, random);
        sides
            .iter_mut()
            .zip(pair)
            .for_each(|(side, term)| side.extend(term));
    }
    for _ in 0..random.below(4) {
        sides = wrapped(sides, random);
    }
    let [left, right] = sides;
    TwoTerms { left, right }
}

/// Both sides under a head more, with the same ground argument before or after them, or with none.
fn wrapped(sides: [Vec<u16>; 2], random: &mut Random) -> [Vec<u16>; 2] {
    let (f, g, a) = (head(7, 1), head(7, 2), head(1, 0));
    match random.below(3) {
        0 => sides.map(|side| [vec![f], side].concat()),
        1 => sides.map(|side| [vec![g, a], side].concat()),
        _ => sides.map(|side| [vec![g], side, vec![a]].concat()),
    }
}

/// One walk by every call, on a table that no equation is full on, and by its equations alone.
fn one_walk(
    tester: &mut Tester,
    negative: bool,
    parts: &[Part],
    random: &mut Random,
) -> Checked<()> {
    let few = random.within(1, 6) as u32;
    let l = random.pick(&[few, few, few, 17, 32]);
    let table = match l {
        ..=6 => some_table(l, random),
        _ => random.short_table(l),
    };
    let none = Equation {
        left: 1,
        term: vec![],
    };
    let terms = terms(parts, l, &none, random);
    let side = random.side(negative);
    let read = table_of(&written(tester, Call::Read, form(&table), random)?);
    for case in calls_of_terms(side, &table, &terms, random) {
        let given = if case.call.takes_state() {
            &table
        } else {
            &read
        };
        match due(parts, side, given) {
            Some(due) => leaves(tester, &case, &due)?,
            None => drop(tester.answered(&case, 0)?),
        }
        note(tester, parts);
        if !parts.contains(&Clash) {
            equation_by_equation(tester, &case, &terms, random)?;
        }
    }
    Ok(())
}

/// The table that a walk leaves, where no equation of it has to be worked out.
fn due(parts: &[Part], side: u32, given: &Table) -> Option<Table> {
    if parts.contains(&Clash) || parts.contains(&Deeper) {
        return Some(Table::without_groups(Side::of_number(side), given.l));
    }
    let kept = parts.iter().all(|part| matches!(part, Itself | Nothing));
    kept.then(|| given.clone())
}

/// Counts an accepted walk.
fn note(tester: &mut Tester, parts: &[Part]) {
    let place = |part: Part| parts.iter().position(|&one| one == part);
    let seen = match (place(Clash), place(Deeper), place(Full)) {
        (Some(_), _, _) => Seen::Clashed,
        (None, Some(_), Some(_)) => Seen::FullAfter,
        (None, Some(_), None) => Seen::WalkNoneLeft,
        _ => Seen::WalkKept,
    };
    if seen != Seen::WalkKept || !parts.contains(&Plain) {
        tester.ledger.note(seen);
    }
}

/// The same by one call for each equation that is found.
fn equation_by_equation(
    tester: &mut Tester,
    case: &Case,
    terms: &TwoTerms,
    random: &mut Random,
) -> Checked<()> {
    let (left, right) = (Term::of(&terms.left), Term::of(&terms.right));
    let found = walk(&left, &right).map_err(|_| "the terms clash")?;
    let found = found.iter().map(|(x, term)| (*x, term.tokens()));
    let found: Vec<(u16, Vec<u16>)> = found.collect();
    match case.call {
        Call::Unify => by_bytes(tester, case, &found, random),
        Call::UnifyStep => by_steps(tester, case, &found),
        _ => Ok(()),
    }
}

/// An equation that is full on its table, by bytes and by a step.
fn full_equation(full: &Full, negative: bool, random: &mut Random) -> (u32, Table, Equation) {
    let case = full.case(Call::Equation, negative, random);
    let equation = Equation {
        left: case.word as u16,
        term: words_of(&case.second),
    };
    (case.side, table_of(&case.first), equation)
}

/// A walk with an equation that is full: it refuses the call, unless a deeper x comes before it or
/// the terms clash.
fn beside_full(
    tester: &mut Tester,
    full: &Full,
    negative: bool,
    (parts, number): (&[Part], u32),
    random: &mut Random,
) -> Checked<()> {
    let (side, table, equation) = full_equation(full, negative, random);
    let terms = terms(parts, table.l, &equation, random);
    for case in calls_of_terms(side, &table, &terms, random) {
        if number == 0 {
            let none = Table::without_groups(Side::of_number(side), table.l);
            leaves(tester, &case, &none)?;
            note(tester, parts);
        } else {
            tester.answered(&case, number)?;
            if parts.contains(&Deeper) {
                tester.ledger.note(Seen::FullBefore);
            }
        }
    }
    Ok(())
}

/// Runs of such equations and a full one, which ends the run with those before it, unless a deeper x
/// was one of them.
fn runs(tester: &mut Tester, full: &Full, negative: bool, random: &mut Random) -> Checked<()> {
    let (side, table, equation) = full_equation(full, negative, random);
    let clashes = |parts: &[Part]| parts.contains(&Clash);
    for (parts, number) in WITH_FULL.into_iter().filter(|(parts, _)| !clashes(parts)) {
        let pairs: Vec<TwoTerms> = parts
            .iter()
            .map(|part| terms(&[*part], table.l, &equation, random))
            .collect();
        let mut run = on_table(Call::UnifyRun, side, &table, random);
        give_pairs(&mut run, &pairs);
        let before = parts.iter().position(|part| *part == Full);
        let applied = match number {
            0 => parts.len(),
            _ => before.unwrap_or(0),
        };
        ends(tester, &run, number, applied)?;
        let found = pairs.iter().map(alone).collect::<Checked<Vec<_>>>()?;
        run.call = Call::Run;
        give_equations(&mut run, &found);
        ends(tester, &run, number, applied)?;
    }
    Ok(())
}

/// The one equation that the walk of a pair finds.
fn alone(terms: &TwoTerms) -> Checked<Equation> {
    let (left, right) = (Term::of(&terms.left), Term::of(&terms.right));
    match walk(&left, &right).as_deref() {
        Ok([(left, term)]) => Ok(Equation {
            left: *left,
            term: term.tokens(),
        }),
        _ => Err("not one equation".into()),
    }
}

/// Makes a run, which must end with this number after so many equations.
fn ends(tester: &mut Tester, run: &Case, number: u32, applied: usize) -> Checked<()> {
    let outcome = tester.answered(run, number)?;
    match outcome.state.map(|state| state.applied as usize) {
        Some(count) if count == applied => Ok(()),
        count => Err(format!("a run applies {count:?} and not {applied}")),
    }
}
