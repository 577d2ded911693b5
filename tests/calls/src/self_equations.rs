//! Equations whose term is their left variable or holds it deeper: every call that takes an equation,
//! each variable of several widths, x under up to 1022 heads, tables that reading changes, tables on
//! which the ordinary rule is full, and each refusal before and after.

use crate::applying::{calls, give_equations, give_pairs, leaves, on_table};
use crate::case::{Call, Case};
use crate::faults::{faults_of, put, Fault};
use crate::full::alternate;
use crate::ledger::rows;
use crate::packed::written;
use crate::seen::Seen;
use crate::tester::Tester;
use reference::entry::low_bits;
use reference::equations::{negative_equation, positive_equation};
use reference::forms::read_table;
use reference::terms::{head, kind, variables, TOKENS};
use reference::{Entry, Equation, Kind, Refusal, Side, Table, TwoTerms, ENTRIES};
use support::tables::{form, table_of};
use support::{Checked, Random};

/// The widths, of which each variable is taken.
const WIDTHS: [u32; 7] = [1, 2, 3, 8, 16, 17, 32];

/// The heads above x go from 1 to so many.
const DEEPEST: usize = 40;

/// Where x stands among the arguments of each head above it.
#[derive(Clone, Copy)]
enum Place {
    First,
    Last,
    Any,
}

const PLACES: [Place; 3] = [Place::First, Place::Last, Place::Any];

/// All of these tests.
pub fn check(tester: &mut Tester) -> Checked<()> {
    let mut random = Random::new(15);
    for negative in [false, true] {
        for l in WIDTHS {
            each_variable(tester, negative, l, &mut random)?;
            each_depth(tester, negative, l, &mut random)?;
            most_tokens(tester, negative, l, &mut random)?;
            no_variable(tester, negative, l, &mut random)?;
        }
        for _ in 0..6 {
            crowded(tester, negative, &mut random)?;
            each_output(tester, negative, &mut random)?;
        }
    }
    refusals(tester, &mut random)
}

/// x = x and x = t for each variable of a width, x in each place of t.
fn each_variable(tester: &mut Tester, negative: bool, l: u32, random: &mut Random) -> Checked<()> {
    for x in 1..=l as u16 {
        let mut terms = vec![vec![x]];
        for place in PLACES {
            let depth = random.within(1, 4);
            terms.push(holding(l, x, depth, place, random));
        }
        for term in terms {
            let table = some_table(l, random);
            obeys(
                tester,
                negative,
                &table,
                &Equation { left: x, term },
                random,
            )?;
        }
    }
    Ok(())
}

/// x under 1 to 40 heads, and under as many as it can have in two terms.
fn each_depth(tester: &mut Tester, negative: bool, l: u32, random: &mut Random) -> Checked<()> {
    for depth in 1..=DEEPEST {
        for place in PLACES {
            let (table, left) = (some_table(l, random), random.variable(l));
            let term = holding(l, left, depth, place, random);
            obeys(tester, negative, &table, &Equation { left, term }, random)?;
        }
    }
    let (table, left) = (some_table(l, random), random.variable(l));
    let term = [vec![head(3, 1); TOKENS - 2], vec![left]].concat();
    obeys(tester, negative, &table, &Equation { left, term }, random)
}

/// x under so many heads that there are as many tokens as there may be, or one more; of two terms,
/// whose tokens count together, there are too many in both.
fn most_tokens(tester: &mut Tester, negative: bool, l: u32, random: &mut Random) -> Checked<()> {
    let (table, left) = (some_table(l, random), random.variable(l));
    for (heads, alone, together) in [(TOKENS - 1, 0, 7), (TOKENS, 7, 7)] {
        let term = [vec![head(3, 1); heads], vec![left]].concat();
        let side = random.side(negative);
        for case in calls(side, &table, &Equation { left, term }, random) {
            let number = match case.call {
                Call::Equation | Call::Step | Call::Run => alone,
                _ => together,
            };
            tester.answered(&case, number)?;
        }
    }
    Ok(())
}

/// What is not one of X1 to Xl, set equal to itself and to a term that holds it.
fn no_variable(tester: &mut Tester, negative: bool, l: u32, random: &mut Random) -> Checked<()> {
    let table = some_table(l, random);
    for left in [0, l as u16 + 1, 33, 0x7fff] {
        for term in [vec![left], vec![head(3, 1), left]] {
            let side = random.side(negative);
            for case in calls(side, &table, &Equation { left, term }, random) {
                tester.answered(&case, 5)?;
                tester.ledger.note(Seen::Refused);
            }
        }
    }
    Ok(())
}

/// A term with x under so many heads, and beside it other variables and constants.
fn holding(l: u32, x: u16, depth: usize, place: Place, random: &mut Random) -> Vec<u16> {
    let mut term = vec![x];
    for _ in 0..depth {
        let arity = random.within(1, 4);
        let before = match place {
            Place::First => 0,
            Place::Last => arity - 1,
            Place::Any => random.below(arity),
        };
        let mut beside = |count| (0..count).map(|_| leaf(l, x, random)).collect();
        let (earlier, later): (Vec<u16>, Vec<u16>) = (beside(before), beside(arity - 1 - before));
        let symbol = random.word() as u16;
        term = [vec![head(symbol, arity as u16)], earlier, term, later].concat();
    }
    term
}

/// A variable other than x, or a constant.
fn leaf(l: u32, x: u16, random: &mut Random) -> u16 {
    let (y, constant) = (random.variable(l), head(random.word() as u16, 0));
    match random.pick(&[y, y, constant]) {
        token if token == x => constant,
        token => token,
    }
}

/// A term that holds x deeper.
pub fn deeper_term(l: u32, x: u16, random: &mut Random) -> Vec<u16> {
    let (depth, place) = (random.within(1, 4), random.pick(&PLACES));
    holding(l, x, depth, place, random)
}

/// Some table: a few strings, a grown list, or a list that reading changes.
pub fn some_table(l: u32, random: &mut Random) -> Table {
    match random.below(4) {
        0 => random.short_table(l),
        1 => {
            let messy = messy_table(l, false, random);
            read_table(&form(&messy)).unwrap_or(messy)
        }
        _ => messy_table(l, random.percent(30), random),
    }
}

/// A table with entries that are doubled, subsumed and all-zero, and at times an all-star one.
fn messy_table(l: u32, all_star: bool, random: &mut Random) -> Table {
    let some = random.string(l, 30);
    let bit = 1 << random.below(l as usize);
    let zero = Entry::zeros_at(low_bits(l));
    let mut entries = vec![some, some.star(bit), some, zero, zero];
    entries.extend((0..random.below(4)).map(|_| random.string(l, 50)));
    entries.extend(all_star.then_some(Entry::ALL_STAR));
    random.shuffle(&mut entries);
    Table { l, entries }
}

/// Makes every call with such an equation: x = x leaves the table as given, or as read where it came
/// in bytes, and a deeper x leaves no groups.
fn obeys(
    tester: &mut Tester,
    negative: bool,
    table: &Table,
    equation: &Equation,
    random: &mut Random,
) -> Checked<()> {
    let side = random.side(negative);
    let read = written(tester, Call::Read, form(table), random)?;
    let read = table_of(&read);
    let itself = kind(equation.left.into(), &equation.term) == Kind::Itself;
    for case in calls(side, table, equation, random) {
        let on_value = case.call.takes_state();
        let given = if on_value { table } else { &read };
        let due = match itself {
            true => given.clone(),
            false => Table::without_groups(Side::of_number(side), table.l),
        };
        leaves(tester, &case, &due)?;
        let seen = match (itself, read != *table, on_value) {
            (false, _, _) if due != *given => Seen::NoneLeft,
            (true, true, true) => Seen::UngrownKept,
            (true, true, false) => Seen::ReadKept,
            _ => continue,
        };
        tester.ledger.note(seen);
    }
    Ok(())
}

/// Tables of 256 entries, different ones and the same one again and again, on which the ordinary rule
/// is full: these equations are not.
fn crowded(tester: &mut Tester, negative: bool, random: &mut Random) -> Checked<()> {
    let l = random.width().max(10);
    let groups = alternate(l, ENTRIES, random).into_iter();
    let entries: Vec<Entry> = groups.map(|group| Entry::of_group(l, group)).collect();
    let doubled = vec![random.pick(&entries); ENTRIES];
    for entries in [entries, doubled] {
        let table = Table { l, entries };
        let left = random.variable(l);
        for term in [vec![left], deeper_term(l, left, random)] {
            let ordinary = ordinary(negative, &table, left.into(), variables(&term));
            if ordinary == Err(Refusal::Full) {
                tester.ledger.note(Seen::NotFull);
            }
            obeys(tester, negative, &table, &Equation { left, term }, random)?;
        }
    }
    Ok(())
}

/// What the rule of other equations would give.
fn ordinary(negative: bool, table: &Table, x: u32, names: u32) -> Result<Vec<Entry>, Refusal> {
    match negative {
        false => positive_equation(table.l, &table.entries, x, names),
        true => negative_equation(table.l, &table.entries, x, names),
    }
}

/// Outputs of every length up to some bytes more than are needed.
fn each_output(tester: &mut Tester, negative: bool, random: &mut Random) -> Checked<()> {
    let l = random.width();
    let (table, left) = (some_table(l, random), random.variable(l));
    for term in [vec![left], deeper_term(l, left, random)] {
        let cases = calls(
            random.side(negative),
            &table,
            &Equation { left, term },
            random,
        );
        for mut case in cases.into_iter().filter(|case| case.call.writes_form()) {
            let outcome = tester.answered(&case, 0)?;
            let needed = case.needed(&outcome);
            for len in 0..needed + 5 {
                case.out = random.bytes(len);
                tester.answered(&case, if len < needed { 9 } else { 0 })?;
            }
        }
    }
    Ok(())
}

/// Each fault of each call beside such an equation: the fault is answered, and before a short output.
fn refusals(tester: &mut Tester, random: &mut Random) -> Checked<()> {
    for (call, negative) in rows().filter(|(call, _)| call.takes_equations()) {
        let faults = faults_of(call, negative).into_iter();
        for fault in faults.filter(|&fault| fault != Fault::Full) {
            for deeper in [false, true, false, true] {
                let mut case = to_damage(call, negative, deeper, random);
                let l = case.l();
                if call.writes_form() && fault != Fault::Narrow && random.percent(50) {
                    put(Fault::Narrow, l, &mut case, random);
                }
                put(fault, l, &mut case, random);
                tester.answered(&case, fault.number())?;
                tester.ledger.note(Seen::Refused);
            }
        }
    }
    Ok(())
}

/// A call with such equations that can be damaged: it has an entry, and room for a bit above l.
fn to_damage(call: Call, negative: bool, deeper: bool, random: &mut Random) -> Case {
    let few = random.within(1, 6) as u32;
    let l = random.pick(&[few, few, few, 15, 17, 24, 31]);
    let table = random.short_table(l);
    let mut case = on_table(call, random.side(negative), &table, random);
    let some: Vec<Equation> = (0..random.within(1, 3))
        .map(|_| {
            let left = random.variable(l);
            let term = match deeper {
                false => vec![left],
                true => deeper_term(l, left, random),
            };
            Equation { left, term }
        })
        .collect();
    match call {
        Call::Equation | Call::Reason | Call::Step | Call::Run => {
            give_equations(&mut case, &some);
        }
        _ => {
            let under = |term: &[u16]| [&[head(5, 1)], term].concat();
            let pairs = some.iter().map(|equation| TwoTerms {
                left: under(&[equation.left]),
                right: under(&equation.term),
            });
            give_pairs(&mut case, &pairs.collect::<Vec<_>>());
        }
    }
    case
}
