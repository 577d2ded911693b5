//! Why a group is in a positive table after an equation x = t, or is not (02, "The reason behind each
//! group"), on table values. `by_groups` is the definition, which goes through all groups; `quick`
//! does not, and so goes up to 32 variables. A test compares the two for few variables.

use crate::entry::{low_bits, variable_bit, Entry};
use crate::refusal::Refusal;
use crate::table::Table;
use crate::terms::{check_single_equation, kind, Kind};

/// What is told of a group.
#[derive(Clone, Copy, Debug, PartialEq, Eq, Hash)]
pub enum Reason {
    /// It was in the table, and the equation leaves it.
    Kept,
    /// The equation makes it. Entries are counted from 0.
    Joined {
        /// The lowest entry that covers a group inside this one with x.
        x_entry: usize,
        /// The lowest entry that covers a group inside this one with a variable of t.
        t_entry: usize,
    },
    /// It is not in the table after the equation.
    Absent(Absence),
}

/// Why a group is absent.
#[derive(Clone, Copy, Debug, PartialEq, Eq, Hash)]
pub enum Absence {
    /// No entry covers a group inside it with x.
    NoXEntry,
    /// No entry covers a group inside it with a variable of t.
    NoTEntry,
    /// The relevant groups inside it, taken together, are not all of it.
    NotMadeUp,
    /// The equation would leave it, but it was not in the table.
    NotThere,
    /// No finite terms solve the equation.
    NoSolution,
}

impl Reason {
    /// Whether the group is in the table after the equation.
    pub fn is_present(self) -> bool {
        !matches!(self, Reason::Absent(_))
    }

    /// The three numbers of the call on bytes: the verdict, then the two entries, which are 0 unless
    /// the group is joined.
    pub fn numbers(self) -> [u32; 3] {
        match self {
            Reason::Kept => [0, 0, 0],
            Reason::Joined { x_entry, t_entry } => [1, x_entry as u32, t_entry as u32],
            Reason::Absent(Absence::NoXEntry) => [2, 0, 0],
            Reason::Absent(Absence::NoTEntry) => [3, 0, 0],
            Reason::Absent(Absence::NotMadeUp) => [4, 0, 0],
            Reason::Absent(Absence::NotThere) => [5, 0, 0],
            Reason::Absent(Absence::NoSolution) => [6, 0, 0],
        }
    }
}

/// The reason behind a group: the table's checks, those of the equation, 4 for a variable above l, 11
/// for no variable. No list is grown, so this is never 8.
pub fn reason(table: &Table, variable: u32, term: &[u16], group: u32) -> Result<Reason, Refusal> {
    table.check()?;
    check_single_equation(table.l, variable, term)?;
    if group & !low_bits(table.l) != 0 {
        return Err(Refusal::Stray);
    }
    if group == 0 {
        return Err(Refusal::Keep);
    }
    Ok(quick(table, variable, kind(variable, term), group))
}

/// The definition, by trying all groups: for few variables only.
pub fn by_groups(table: &Table, x: u32, kind: Kind, s: u32) -> Reason {
    let all = 1..=low_bits(table.l);
    let inside = |entry: Entry| {
        let groups = all.clone().filter(move |group| group & !s == 0);
        groups.filter(move |&group| entry.covers(group))
    };
    told(table, x, kind, s, inside)
}

/// The same by one group of each entry: the others that it covers inside s are inside the greatest,
/// so that they are s, have a variable or add one to the groups together only where that does.
pub fn quick(table: &Table, x: u32, kind: Kind, s: u32) -> Reason {
    let inside = |entry| greatest(table.l, entry, s).into_iter();
    told(table, x, kind, s, inside)
}

/// The greatest group inside s that an entry covers: what it covers there is its meet with the string
/// having 0 at all other positions, and each `*` left becomes 1.
fn greatest(l: u32, entry: Entry, s: u32) -> Option<u32> {
    let all = low_bits(l);
    let meet = entry.meet(Entry::zeros_at(all & !s))?;
    let group = meet.value | all & !meet.care;
    (group != 0).then_some(group)
}

/// The reason behind s, by groups inside s that each entry covers. Where t is x, no group is relevant.
fn told<G: Iterator<Item = u32>>(
    table: &Table,
    x: u32,
    kind: Kind,
    s: u32,
    inside: impl Fn(Entry) -> G,
) -> Reason {
    let x = variable_bit(x);
    let entries = || table.entries.iter().copied();
    let groups = || entries().flat_map(&inside);
    let lowest = |names| entries().position(|entry| inside(entry).any(|g| g & names != 0));
    match kind {
        Kind::Deeper => Reason::Absent(Absence::NoSolution),
        Kind::Plain(variables) if s & (x | variables) != 0 => {
            let relevant = groups().filter(|group| group & (x | variables) != 0);
            let together = relevant.fold(0, |all, group| all | group);
            joined(lowest(x), lowest(variables), together == s)
        }
        _ if groups().any(|group| group == s) => Reason::Kept,
        _ => Reason::Absent(Absence::NotThere),
    }
}

/// The reason behind a relevant group: what is missing is told in this order.
fn joined(x_entry: Option<usize>, t_entry: Option<usize>, made_up: bool) -> Reason {
    match (x_entry, t_entry) {
        (None, _) => Reason::Absent(Absence::NoXEntry),
        (_, None) => Reason::Absent(Absence::NoTEntry),
        (Some(x_entry), Some(t_entry)) if made_up => Reason::Joined { x_entry, t_entry },
        _ => Reason::Absent(Absence::NotMadeUp),
    }
}
