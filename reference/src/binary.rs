//! Sets of groups, and the binary definitions on them (01, "Binary definitions"; 02, "Both sides
//! compound" and "A variable set equal to itself"). Nothing here uses the growth rule, so it says
//! independently what a table must stand for. A set has a bit for each of the 2^l strings, so l is
//! small here.

use crate::entry::{cut_word, low_bits, variable_bit};
use crate::table::{Side, Table};
use crate::terms::Kind;
use crate::unification::{walk, Clash, Term};

/// A set of groups of l positions, one bit for each string of 0 and 1.
#[derive(Clone, Debug, PartialEq, Eq)]
pub struct GroupSet {
    l: u32,
    words: Vec<u64>,
}

impl GroupSet {
    /// The set without groups.
    pub fn empty(l: u32) -> GroupSet {
        let words = (u64::from(low_bits(l)) / 64 + 1) as usize;
        GroupSet {
            l,
            words: vec![0; words],
        }
    }

    /// The set of some strings of l positions; the all-zero string is never a group.
    pub fn of(l: u32, strings: impl IntoIterator<Item = u32>) -> GroupSet {
        let mut set = GroupSet::empty(l);
        for string in strings {
            set.insert(string);
        }
        set
    }

    /// The number of positions.
    pub fn l(&self) -> u32 {
        self.l
    }

    /// Puts a string in, unless it is all zero; says whether the set changed.
    pub fn insert(&mut self, string: u32) -> bool {
        let (word, bit) = place(string);
        let changes = string != 0 && self.words[word] & bit == 0;
        if changes {
            self.words[word] |= bit;
        }
        changes
    }

    /// Whether a string is one of the groups.
    pub fn contains(&self, string: u32) -> bool {
        let (word, bit) = place(string);
        self.words[word] & bit != 0
    }

    /// The groups in rising order of their words.
    pub fn iter(&self) -> impl Iterator<Item = u32> + '_ {
        (1..=low_bits(self.l)).filter(|&string| self.contains(string))
    }

    /// The groups that have a property.
    pub fn filter(&self, property: impl Fn(u32) -> bool) -> GroupSet {
        GroupSet::of(self.l, self.iter().filter(|&group| property(group)))
    }
}

/// The word and the bit of it that stand for one string.
fn place(string: u32) -> (usize, u64) {
    ((string / 64) as usize, 1 << (string % 64))
}

/// The groups that a table of one side stands for, by trying all strings of l positions: for few
/// variables only.
pub fn groups(table: &Table, side: Side) -> GroupSet {
    let covered = |group: u32| table.entries.iter().any(|entry| entry.covers(group));
    let strings = 1..=low_bits(table.l);
    GroupSet::of(
        table.l,
        strings.filter(|&group| covered(group) == (side == Side::Positive)),
    )
}

/// The groups with some variable of a set.
pub fn relevant(set: &GroupSet, names: u32) -> GroupSet {
    set.filter(|group| group & names != 0)
}

/// The groups with no variable of a set.
pub fn irrelevant(set: &GroupSet, names: u32) -> GroupSet {
    set.filter(|group| group & names == 0)
}

/// Each "or" of a group of the first set and a group of the second.
pub fn cross(first: &GroupSet, second: &GroupSet) -> GroupSet {
    GroupSet::of(
        first.l,
        first.iter().flat_map(|a| second.iter().map(move |b| a | b)),
    )
}

/// Each "or" of one or more groups of the set.
pub fn close(set: &GroupSet) -> GroupSet {
    let members: Vec<u32> = set.iter().collect();
    let mut closed = set.clone();
    let mut pending = members.clone();
    while let Some(string) = pending.pop() {
        for member in &members {
            if closed.insert(string | member) {
                pending.push(string | member);
            }
        }
    }
    closed
}

/// Equation x = t: the same groups where t is x, none where t holds x deeper; else as below.
pub fn equation(set: &GroupSet, x: u32, kind: Kind) -> GroupSet {
    match kind {
        Kind::Itself => set.clone(),
        Kind::Deeper => GroupSet::empty(set.l),
        Kind::Plain(variables) => plain_equation(set, variable_bit(x), variables),
    }
}

/// The groups with neither x nor a variable of t, together with the closed cross of those with x
/// and those with some variable of t.
fn plain_equation(set: &GroupSet, x: u32, variables: u32) -> GroupSet {
    let joined = close(&cross(&relevant(set, x), &relevant(set, variables)));
    join(&irrelevant(set, x | variables), &joined)
}

/// Two terms set equal: the groups that the equations of their walk give, in order; none where it
/// clashes.
pub fn unify(set: &GroupSet, left: &Term, right: &Term) -> GroupSet {
    match walk(left, right) {
        Err(Clash) => GroupSet::empty(set.l),
        Ok(found) => found.iter().fold(set.clone(), |set, (x, term)| {
            let x = u32::from(*x);
            equation(&set, x, term.kind(x))
        }),
    }
}

/// Join: union.
pub fn join(first: &GroupSet, second: &GroupSet) -> GroupSet {
    GroupSet::of(first.l, first.iter().chain(second.iter()))
}

/// Projection: the kept positions in rising order, without the all-zero string.
pub fn projection(set: &GroupSet, keep: u32) -> GroupSet {
    GroupSet::of(
        keep.count_ones(),
        set.iter().map(|group| cut_word(group, keep)),
    )
}
