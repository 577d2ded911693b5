//! The random questions, as lists of strings.

use std::ops::RangeInclusive;

use reference::entry::rising_bits;
use reference::{Entry, ENTRIES};
use support::Random;

use crate::drawing::{even_string, fixed_string, group, star, string, variables};
use crate::load::WIDE;

/// The widths of most rows.
pub const WIDTHS: [u32; 2] = [12, 16];

/// Different inputs for each row.
const INPUTS: usize = 16;

/// The fixed positions of a hard string.
const HARD: RangeInclusive<usize> = 3..=6;

/// The strings that each table of a pair has in two halves.
const HALVED: usize = 32;

/// The entries by which the answer about independence is yes.
const COVERING: usize = 128;

/// The variables of each set that is asked about.
const ASKED: usize = 3;

/// The bound of a row, where it has no lower one.
const BOUND: f64 = 1.5;

/// Two lists of strings of l positions.
pub struct Equality {
    pub l: u32,
    pub first: Vec<Entry>,
    pub second: Vec<Entry>,
}

/// Two sets of l variables, asked of a negative list.
pub struct Independence {
    pub l: u32,
    pub entries: Vec<Entry>,
    pub a: u32,
    pub b: u32,
}

/// One of the two.
pub enum Question {
    Equality(Equality),
    Independence(Independence),
}

/// Questions that are drawn alike, which make a row.
pub struct Sort {
    pub name: String,
    /// The bound of the row.
    pub bound: f64,
    pub questions: Vec<Question>,
}

/// How the strings of a table are drawn.
#[derive(Clone, Copy)]
pub enum Strings {
    /// Each position 0, 1 or `*` with the same chance.
    Even,
    /// Each position `*` with this chance in percent.
    Stars(usize),
    /// Three to six positions fixed.
    Hard,
}

impl Strings {
    fn draw(self, random: &mut Random, l: u32) -> Entry {
        match self {
            Strings::Even => even_string(random, l),
            Strings::Stars(percent) => string(random, l, percent),
            Strings::Hard => fixed_string(random, l, HARD),
        }
    }

    pub fn name(self) -> String {
        match self {
            Strings::Even => "random".into(),
            Strings::Stars(percent) => format!("{percent} % stars"),
            Strings::Hard => "hard".into(),
        }
    }

    /// The bound of a row of equality.
    fn bound(self, l: u32) -> f64 {
        match (self, l) {
            (Strings::Even, 16) => 1.0,
            _ => BOUND,
        }
    }
}

/// The sorts of the rows at one width, fewer where there are more variables.
pub fn sorts(random: &mut Random, l: u32) -> Vec<Sort> {
    let mut sorts = Vec::new();
    let same: &[Strings] = match l {
        ..=WIDE => &[
            Strings::Even,
            Strings::Stars(30),
            Strings::Stars(50),
            Strings::Hard,
        ],
        _ => &[Strings::Even, Strings::Hard],
    };
    for &strings in same {
        let draw = || Question::Equality(same_groups(random, strings, l));
        sorts.push(equality("same", strings, l, draw));
    }
    for strings in [Strings::Even, Strings::Hard] {
        let draw = || Question::Equality(drawn_apart(random, strings, l));
        sorts.push(equality("apart", strings, l, draw));
    }
    for (name, draw) in INDEPENDENCE {
        let draw = || Question::Independence(draw(random, l));
        sorts.push(sort(format!("independent {l}, {name}"), BOUND, draw));
    }
    sorts
}

/// Draws one input about independence.
pub type Draw = fn(&mut Random, u32) -> Independence;

/// The sorts of inputs about independence.
pub const INDEPENDENCE: [(&str, Draw); 3] = [
    ("yes", all_covered),
    ("no", one_uncovered),
    ("hard", hard_sets),
];

fn equality(name: &str, strings: Strings, l: u32, draw: impl FnMut() -> Question) -> Sort {
    let name = format!("equal {l}, {}, {name}", strings.name());
    sort(name, strings.bound(l), draw)
}

fn sort(name: String, bound: f64, draw: impl FnMut() -> Question) -> Sort {
    Sort {
        name,
        bound,
        questions: std::iter::repeat_with(draw).take(INPUTS).collect(),
    }
}

/// Two tables with the same groups, in different orders. Each has some of the strings in two
/// halves, and seldom the same ones.
pub fn same_groups(random: &mut Random, strings: Strings, l: u32) -> Equality {
    let list = draw_list(random, strings, l, ENTRIES - HALVED);
    Equality {
        l,
        first: halved(random, l, list.clone()),
        second: halved(random, l, list),
    }
}

/// Two tables that have nothing to do with each other.
pub fn drawn_apart(random: &mut Random, strings: Strings, l: u32) -> Equality {
    Equality {
        l,
        first: draw_list(random, strings, l, ENTRIES),
        second: draw_list(random, strings, l, ENTRIES),
    }
}

/// A table in which no group meets both sets: entries that cover all that does, among random ones.
fn all_covered(random: &mut Random, l: u32) -> Independence {
    let (a, b) = two_sets(random, l);
    let mut entries = covering(random, l, a, b);
    entries.resize_with(ENTRIES, || even_string(random, l));
    random.shuffle(&mut entries);
    Independence { l, entries, a, b }
}

/// The same with one group taken out of each entry that covers it, a group that meets both sets.
fn one_uncovered(random: &mut Random, l: u32) -> Independence {
    let mut asked = all_covered(random, l);
    let meets = |set: u32| set & set.wrapping_neg();
    let group = group(random, l) | meets(asked.a) | meets(asked.b);
    for entry in asked.entries.iter_mut().filter(|entry| entry.covers(group)) {
        *entry = without(random, l, *entry, group);
    }
    asked
}

/// An entry fixed at one position more, or flipped, so that it does not cover a group.
fn without(random: &mut Random, l: u32, entry: Entry, group: u32) -> Entry {
    match star(random, l, entry) {
        Some(bit) => Entry {
            care: entry.care | bit,
            value: entry.value | (bit & !group),
        },
        None => entry.flip(1),
    }
}

/// A table of hard strings. Of up to 16 variables they leave hardly a group uncovered.
fn hard_sets(random: &mut Random, l: u32) -> Independence {
    let (a, b) = two_sets(random, l);
    Independence {
        l,
        entries: draw_list(random, Strings::Hard, l, ENTRIES),
        a,
        b,
    }
}

/// The strings with a 1 in each of two sets, cut into pieces at random.
fn covering(random: &mut Random, l: u32, a: u32, b: u32) -> Vec<Entry> {
    let mut list: Vec<Entry> = rising_bits(a)
        .flat_map(|x| rising_bits(b).map(move |y| Entry::ones_at(x | y)))
        .collect();
    while list.len() < COVERING {
        let k = random.below(list.len());
        halve(random, l, &mut list, k);
    }
    list
}

/// Two disjoint sets of variables.
fn two_sets(random: &mut Random, l: u32) -> (u32, u32) {
    let a = variables(random, l, ASKED, 0);
    (a, variables(random, l, ASKED, a))
}

fn draw_list(random: &mut Random, strings: Strings, l: u32, count: usize) -> Vec<Entry> {
    (0..count).map(|_| strings.draw(random, l)).collect()
}

/// A list with so many of its strings halved that it has 256, in a random order.
fn halved(random: &mut Random, l: u32, mut list: Vec<Entry>) -> Vec<Entry> {
    random.shuffle(&mut list);
    let mut k = 0;
    while list.len() < ENTRIES {
        halve(random, l, &mut list, k);
        k += 1;
    }
    random.shuffle(&mut list);
    list
}

/// Cuts one string in two at one of its stars, where it has one.
fn halve(random: &mut Random, l: u32, list: &mut Vec<Entry>, k: usize) {
    if let Some(bit) = star(random, l, list[k]) {
        list[k].care |= bit;
        let mut other = list[k];
        other.value |= bit;
        list.push(other);
    }
}
