//! Helpers of the tests: tables written as text, and random cases.

#![allow(dead_code)]

use reference::{Entry, Equation, Side, Table};
use support::{Equations, Random};

/// Both sides, for tests that hold of either.
pub const SIDES: [Side; 2] = [Side::Positive, Side::Negative];

/// The entry that a text writes.
pub fn entry(text: &str) -> Entry {
    Entry::parse(text).expect("a string of 0, 1 and *")
}

/// The table of the strings of a text, separated by spaces.
pub fn table(l: u32, text: &str) -> Table {
    let entries = text.split_whitespace().map(entry).collect();
    Table { l, entries }
}

/// The strings of a table as text, separated by spaces.
pub fn text(table: &Table) -> String {
    let strings: Vec<String> = table
        .entries
        .iter()
        .map(|entry| entry.text(table.l))
        .collect();
    strings.join(" ")
}

/// The words of groups written as text.
pub fn group_words(text: &str) -> Vec<u32> {
    text.split_whitespace()
        .map(|group| entry(group).value)
        .collect()
}

/// The form of equations, also where it breaks a rule.
pub fn equations_form(equations: &[Equation]) -> Vec<u8> {
    let mut form = Equations::default();
    for equation in equations {
        form.push(equation.left, &equation.term);
    }
    form.bytes()
}

/// So many groups of 10 positions, none within one flip of another.
pub fn even_strings(count: usize) -> Vec<u32> {
    (1..1024u32)
        .filter(|word| word.count_ones() % 2 == 0)
        .take(count)
        .collect()
}

/// The entries that X1 = X2 joins in a table of pairs.
pub const JOINED: usize = 63;

/// A table of 16 variables with so many groups that have neither X1 nor X2, X2 alone, and X1 with
/// each of six pairs of variables: X1 = X2 leaves 63 entries beside the others. All groups have an
/// odd number of variables, and the joined ones differ by pairs, so that none widens. X15 and X16
/// are ground.
pub fn pairs_table(others: usize) -> Table {
    let odd = (1..1 << 12).filter(|word: &u32| word.count_ones() % 2 == 1);
    let mut words: Vec<u32> = odd.map(|word| word << 2).take(others).collect();
    words.push(0b10);
    words.extend((2..14).step_by(2).map(|i| 1 | 3 << i));
    let entries = words.iter().map(|&word| Entry::of_group(16, word));
    Table {
        l: 16,
        entries: entries.collect(),
    }
}

/// A table of l positions with up to so many entries.
pub fn some_table(random: &mut Random, l: u32, most: usize) -> Table {
    let count = random.within(0, most);
    random.table(l, count)
}

/// An equation over variables 1 to l with a short term.
pub fn some_equation(random: &mut Random, l: u32) -> Equation {
    let size = random.within(1, 12);
    random.equation_of(l, size)
}
