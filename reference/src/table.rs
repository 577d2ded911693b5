//! Tables: l and up to 256 strings in order (01, "Strings and groups").

use crate::entry::Entry;
use crate::refusal::Refusal;

/// The most entries that a table or a working list holds.
pub const ENTRIES: usize = 256;

/// The most program variables that a table speaks of.
pub const VARIABLES: u32 = 32;

/// Which groups a table stands for: those that some entry covers, or those that none covers.
#[derive(Clone, Copy, Debug, PartialEq, Eq, Hash)]
pub enum Side {
    /// The groups that some entry covers.
    Positive,
    /// The groups that no entry covers.
    Negative,
}

impl Side {
    /// The side that a number of a byte call names: 0 is positive, any other negative.
    pub fn of_number(number: u32) -> Side {
        if number == 0 {
            Side::Positive
        } else {
            Side::Negative
        }
    }

    /// The number of a byte call that names this side.
    pub fn number(self) -> u32 {
        match self {
            Side::Positive => 0,
            Side::Negative => 1,
        }
    }

    /// The other side.
    pub fn other(self) -> Side {
        match self {
            Side::Positive => Side::Negative,
            Side::Negative => Side::Positive,
        }
    }
}

/// A table; its side is the caller's to say.
#[derive(Clone, Debug, PartialEq, Eq, Hash)]
pub struct Table {
    /// The number of positions.
    pub l: u32,
    /// The strings, in order.
    pub entries: Vec<Entry>,
}

impl Table {
    /// The table with l and count 0, which a refusal returns where no table value came in.
    pub fn zero() -> Table {
        Table {
            l: 0,
            entries: Vec::new(),
        }
    }

    /// The table without entries.
    pub fn empty(l: u32) -> Table {
        Table {
            l,
            entries: Vec::new(),
        }
    }

    /// The table with one entry, all stars.
    pub fn all_star(l: u32) -> Table {
        Table {
            l,
            entries: vec![Entry::ALL_STAR],
        }
    }

    /// The table that stands for no groups: empty where it is positive, all-star where negative.
    pub fn without_groups(side: Side, l: u32) -> Table {
        match side {
            Side::Positive => Table::empty(l),
            Side::Negative => Table::all_star(l),
        }
    }

    /// A table handed over as arrays and a count: 2, 3, 4, and 4 also for a nonzero entry past
    /// the count.
    pub fn from_arrays(
        l: u32,
        n: usize,
        care: &[u32; ENTRIES],
        value: &[u32; ENTRIES],
    ) -> Result<Table, Refusal> {
        check_width(l)?;
        if n > ENTRIES {
            return Err(Refusal::Entries);
        }
        let all = care
            .iter()
            .zip(value)
            .map(|(&care, &value)| Entry { care, value });
        if all.clone().skip(n).any(|entry| entry != Entry::ALL_STAR) {
            return Err(Refusal::Stray);
        }
        let table = Table {
            l,
            entries: all.take(n).collect(),
        };
        table.check()?;
        Ok(table)
    }

    /// What a table handed over as a value meets: 2, 3, then 4 by entry.
    pub fn check(&self) -> Result<(), Refusal> {
        check_width(self.l)?;
        if self.entries.len() > ENTRIES {
            return Err(Refusal::Entries);
        }
        if self.entries.iter().any(|entry| entry.is_stray(self.l)) {
            return Err(Refusal::Stray);
        }
        Ok(())
    }
}

/// Refusal 2: l must be 1 to the limit.
pub fn check_width(l: u32) -> Result<(), Refusal> {
    if (1..=VARIABLES).contains(&l) {
        Ok(())
    } else {
        Err(Refusal::Width)
    }
}

/// Refusal 5: a variable must be 1 to l.
pub fn check_variable(l: u32, variable: u32) -> Result<(), Refusal> {
    if (1..=l).contains(&variable) {
        Ok(())
    } else {
        Err(Refusal::Name)
    }
}
