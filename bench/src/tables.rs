//! The random tables that changes of side, equations and chains start from.

use std::iter::{once, repeat_with};
use std::ops::RangeInclusive;

use reference::cover::pieces;
use reference::entry::{low_bits, rising_bits};
use reference::{growth, operations, Entry, Refusal, Table};
use support::Random;

use crate::drawing::{even_string, fixed_string, some_variables, Draws};
use crate::load::{INPUTS, WIDE};

/// So few variables that a table can hold most of the groups.
const FEW: u32 = 8;

/// The percent of the groups that negative tables leave at most, and how many positions of their
/// strings are fixed. The equation on them is full for 4, 2 and 0 of 100; with up to six positions
/// fixed it would be for 45, 11 and 0.
pub const SHARES: [(u32, RangeInclusive<usize>); 3] = [(50, 3..=4), (70, 3..=5), (90, 3..=6)];

/// The same of 24 variables, where more calls are full: on these tables the equation is for 1, 0 and 1
/// of 64.
pub const SHARES_OF_MANY: [(u32, RangeInclusive<usize>); 3] =
    [(50, 2..=3), (70, 2..=4), (90, 3..=6)];

/// Tables of one sort; a refusal says that one cannot be made.
pub type Tables = Result<Vec<Table>, Refusal>;

/// The tables of so many strings drawn, zeros and repeats included: one of each seed from 1 on.
pub fn drawn(l: u32, seeds: usize, draws: usize) -> Tables {
    let table = |seed| {
        let mut strings = Draws(seed);
        let strings: Vec<u32> = (0..draws).map(|_| strings.string(l)).collect();
        operations::convert(l, &strings)
    };
    (1..).take(seeds).map(table).collect()
}

/// The tables of so many groups that have each variable with a chance of so many percent: one of each
/// seed from 1 on. Of 32 groups of 24 variables the equation is full for none of 64 with 75 percent,
/// and for all with 50, as draws have it.
pub fn random_groups(l: u32, percent: usize, seeds: usize, count: usize) -> Tables {
    let table = |seed| {
        let mut random = Random::new(seed);
        let mut group = || {
            (0..l)
                .map(|i| u32::from(random.percent(percent)) << i)
                .sum()
        };
        let groups: Vec<u32> = (0..count).map(|_| group()).collect();
        operations::convert(l, &groups)
    };
    (1..).take(seeds).map(table).collect()
}

/// What positive tables are changed to.
pub fn changed(tables: &[Table]) -> Tables {
    tables.iter().map(operations::change_side).collect()
}

/// Positive tables of so many strings, each with so many positions fixed. Of 40 strings of 12
/// variables with three or four positions fixed 67 to 75 % are `*`, and the change of side leaves
/// some 27 entries (median) and is full for 6 of 64; with up to five positions fixed it would be
/// full for half of them.
pub fn wide_strings(
    random: &mut Random,
    l: u32,
    strings: usize,
    fixed: RangeInclusive<usize>,
) -> Vec<Table> {
    let mut table = || {
        filled(random, l, fixed.clone(), |table| {
            table.entries.len() == strings
        })
    };
    (0..INPUTS).map(|_| table()).collect()
}

/// Negative tables of random strings, drawn until they leave at most so many percent of the groups;
/// 2 to 6 percent fewer are left (medians). One table of each seed from 1 on.
pub fn leaving(l: u32, percent: u32, fixed: RangeInclusive<usize>, seeds: usize) -> Vec<Table> {
    let share = u64::from(percent) * u64::from(low_bits(l));
    let few = |table: &Table| 100 * groups_left(table) <= share;
    let table = |seed| filled(&mut Random::from_state(seed), l, fixed.clone(), few);
    (1..).take(seeds).map(table).collect()
}

/// How many groups no entry covers. They are too many to go through, but each piece that the entries
/// leave of the all-star string stands for a power of two.
fn groups_left(table: &Table) -> u64 {
    let zero = !table.entries.iter().any(|entry| entry.covers(0));
    strings_left(table.l, Entry::ALL_STAR, &table.entries) - u64::from(zero)
}

/// How many strings of 0 and 1 that y covers are covered by no entry.
fn strings_left(l: u32, y: Entry, entries: &[Entry]) -> u64 {
    match entries.split_first() {
        None => 1 << (l - y.care.count_ones()),
        Some((v, later)) if v.matches(y) => pieces(y, *v)
            .map(|piece| strings_left(l, piece, later))
            .sum(),
        Some((_, later)) => strings_left(l, y, later),
    }
}

/// The table of random strings, some of their positions fixed, once there are enough. None subsumes
/// another; they stand as they were drawn, and reading widens them.
fn filled(
    random: &mut Random,
    l: u32,
    fixed: RangeInclusive<usize>,
    enough: impl Fn(&Table) -> bool,
) -> Table {
    let mut table = Table::empty(l);
    while !enough(&table) {
        let string = fixed_string(random, l, fixed.clone());
        if !table.entries.iter().any(|entry| entry.subsumes(string)) {
            table.entries.retain(|&entry| !string.subsumes(entry));
            table.entries.push(string);
        }
    }
    table
}

/// Tables of so many entries, grown from such strings, so that reading leaves them as they are.
pub fn grown_strings(
    random: &mut Random,
    l: u32,
    count: usize,
    fixed: &RangeInclusive<usize>,
) -> Tables {
    let mut table = || {
        let mut table = Table::empty(l);
        while table.entries.len() < count {
            let string = fixed_string(random, l, fixed.clone());
            growth::grow(l, &mut table.entries, string)?;
        }
        Ok(table)
    };
    (0..INPUTS).map(|_| table()).collect()
}

/// The positive tables of 80 % of the groups of 8 variables, in a random order: some 90 entries.
/// Their change of side leaves some 40 and is never full. With 9 variables it always is, and with
/// 10 the conversion too.
pub fn most_groups(random: &mut Random) -> Tables {
    let mut table = || {
        let groups = 1..=low_bits(FEW);
        let mut groups: Vec<u32> = groups.filter(|_| random.percent(80)).collect();
        random.shuffle(&mut groups);
        operations::convert(FEW, &groups)
    };
    (0..INPUTS).map(|_| table()).collect()
}

/// Tables of one entry of 16 variables: the all-star string, which stands for all groups, then
/// random strings. X1 to X3 are `*` in each, so that an equation on them has something to do.
pub fn one_entry(random: &mut Random) -> Vec<Table> {
    let strings = repeat_with(|| even_string(random, WIDE).star(1).star(2).star(4));
    let entries = once(Entry::ALL_STAR).chain(strings).take(INPUTS);
    let table = |entry| Table {
        l: WIDE,
        entries: vec![entry],
    };
    entries.map(table).collect()
}

/// The table of the l groups of one variable each, as before the first equation of a clause whose
/// variables are all free, for each chain.
pub fn single_groups(l: u32, chains: usize) -> Tables {
    let table = operations::convert(l, &singles(l))?;
    Ok(vec![table; chains])
}

/// The tables of these and 8 random groups of two or three variables.
pub fn more_groups(random: &mut Random, l: u32, chains: usize) -> Tables {
    let mut table = || {
        let mut groups = singles(l);
        groups.extend((0..8).map(|_| some_variables(random, l, 2..=3)));
        operations::convert(l, &groups)
    };
    (0..chains).map(|_| table()).collect()
}

fn singles(l: u32) -> Vec<u32> {
    rising_bits(low_bits(l)).collect()
}
