//! Accepted calls of each kind, to be made as they are or damaged first.

use crate::case::{Call, Case};
use reference::forms::bytes_of;
use reference::{Equation, Table, TwoTerms};
use support::library::{RawTable, State};
use support::tables::{form, packed, Size, LONGEST};
use support::{Equations, Random, TermEquations};

/// A call on tables of some size, with an output that is long enough.
pub fn base(call: Call, negative: bool, size: Size, random: &mut Random) -> Case {
    let (l, n) = random.shape(size);
    let table = random.table(l, n);
    base_on(call, negative, size, &table, random)
}

/// A call that can be damaged in each way: it has an entry, an equation, and room for a bit
/// above l or an unused digit.
pub fn base_to_damage(call: Call, negative: bool, random: &mut Random) -> Case {
    let few = random.within(1, 6) as u32;
    let l = match call {
        Call::Unpack => random.pick(&[1, 2, 3, 4, 6, 8, 11, 14, 16, 17, 28, 31, 32]),
        _ => random.pick(&[few, few, few, 15, 17, 24, 31]),
    };
    short_base(call, negative, l, random)
}

/// A call on a short table of l variables, with short terms and few equations.
pub fn short_base(call: Call, negative: bool, l: u32, random: &mut Random) -> Case {
    let table = random.short_table(l);
    let mut case = base_on(call, negative, Size::Light, &table, random);
    match call {
        Call::Join | Call::Equal | Call::Smaller => case.second = form(&random.short_table(l)),
        Call::Equation | Call::Reason | Call::Step => {
            let size = random.within(1, 8);
            give_equation(&mut case, random.equation_of(l, size));
        }
        call if call.takes_two_terms() => {
            let (left, right) = (random.within(1, 8), random.within(1, 8));
            give_terms(&mut case, &random.two_terms_of(l, left, right));
        }
        Call::Run => {
            let mut equations = Equations::default();
            for _ in 0..random.within(1, 4) {
                let size = random.within(1, 5);
                equations.add(&random.equation_of(l, size));
            }
            case.second = equations.bytes();
        }
        Call::UnifyRun => {
            let mut equations = TermEquations::default();
            for _ in 0..random.within(1, 4) {
                let (left, right) = (random.within(1, 5), random.within(1, 5));
                let terms = random.two_terms_of(l, left, right);
                equations.push(&terms.left, &terms.right);
            }
            case.second = equations.bytes();
        }
        _ => {}
    }
    case
}

/// Gives a call an equation.
pub fn give_equation(case: &mut Case, equation: Equation) {
    case.word = u32::from(equation.left);
    case.second = bytes_of(equation.term);
}

/// Gives a call the bytes of two terms.
pub fn give_terms(case: &mut Case, terms: &TwoTerms) {
    case.second = bytes_of(terms.left.iter().copied());
    case.third = bytes_of(terms.right.iter().copied());
}

/// A call on the given table.
pub fn base_on(call: Call, negative: bool, size: Size, table: &Table, random: &mut Random) -> Case {
    let l = table.l;
    let mut case = Case::new(call);
    case.side = random.side(negative);
    case.first = match call {
        Call::Unpack => packed(table),
        _ => form(table),
    };
    case.out = output(call, random);
    match call {
        Call::Convert => give_groups(&mut case, l, table.entries.len(), random),
        Call::Equation | Call::Step => {
            give_equation(&mut case, random.equation(l));
        }
        Call::Reason => {
            give_equation(&mut case, random.equation(l));
            case.other = random.group_of(table);
        }
        call if call.takes_two_terms() => {
            let terms = random.two_terms(l);
            give_terms(&mut case, &terms);
        }
        Call::Join | Call::Equal | Call::Smaller => {
            let n = random.shape(size).1;
            case.second = form(&random.table(l, n));
        }
        Call::Project => case.word = random.set(l).max(1),
        Call::Ground => case.word = u32::from(random.variable(l)),
        Call::Independent => (case.word, case.other) = (random.set(l), random.set(l)),
        Call::Run => case.second = random.equations(l).bytes(),
        Call::UnifyRun => case.second = random.term_equations(l).bytes(),
        _ => {}
    }
    if call.takes_state() {
        case.first.clear();
        case.state = Some(Box::new(any_state(case.side, table, random)));
    }
    case
}

/// What the output holds before the call, longer than any form; or the words for the answer.
pub fn output(call: Call, random: &mut Random) -> Vec<u8> {
    match call {
        _ if call.writes_form() => {
            let more = random.below(12);
            random.bytes(LONGEST + more)
        }
        _ if call.asks() => random.bytes(4),
        Call::Reason => random.bytes(12),
        _ => Vec::new(),
    }
}

/// Words for a conversion, some of them zero or given twice.
fn give_groups(case: &mut Case, l: u32, count: usize, random: &mut Random) {
    let mut groups: Vec<u32> = (0..count).map(|_| random.set(l)).collect();
    for k in 1..count {
        if random.percent(5) {
            groups[k] = groups[k - 1];
        }
    }
    case.word = l;
    case.first = groups.into_iter().flat_map(u32::to_le_bytes).collect();
}

/// A state around a table as it stands, with any last answer and count.
pub fn any_state(side: u32, table: &Table, random: &mut Random) -> State {
    let any = random.word();
    State {
        code: random.pick(&[0, 0, 5, 8, any]),
        side,
        applied: random.pick(&[0, 1, any, u32::MAX - 1, u32::MAX]),
        table: RawTable::of(table),
    }
}
