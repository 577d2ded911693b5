//! Valid tables of all widths and counts, and their forms.

use crate::random::Random;
use reference::entry::low_bits;
use reference::forms::{entries_of, table_length, write_table};
use reference::packed::{packed_length, write_packed};
use reference::{Entry, Table, ENTRIES, VARIABLES};

/// How large the drawn tables are; calls that take long get light ones.
#[derive(Clone, Copy, PartialEq, Eq)]
pub enum Size {
    /// Up to 7 variables and 10 entries.
    Light,
    /// Any width and up to 24 entries.
    Wide,
    /// Any width and count, often at the limits.
    Any,
}

/// The widths at which the words of a form get longer, and the greatest ones.
pub const EDGES: [u32; 4] = [16, 17, VARIABLES - 1, VARIABLES];

impl Random {
    /// A width and a count.
    pub fn shape(&mut self, size: Size) -> (u32, usize) {
        match size {
            Size::Light => (self.within(1, 7) as u32, self.within(0, 10)),
            Size::Wide => (self.width(), self.within(0, 24)),
            Size::Any => {
                let count = self.below(ENTRIES + 1);
                let counts = [0, 1, 2, 17, ENTRIES - 1, ENTRIES, count, count];
                (self.width(), self.pick(&counts))
            }
        }
    }

    /// Any width, often one of those at which the words of a form get longer or are full.
    pub fn width(&mut self) -> u32 {
        let any = self.within(1, VARIABLES as usize) as u32;
        let [a, b, c, d] = EDGES;
        self.pick(&[any, any, any, any, any, any, a, b, c, d])
    }

    /// A table: dense or sparse, some with doubled, subsumed and all-zero entries.
    pub fn table(&mut self, l: u32, n: usize) -> Table {
        let stars = self.pick(&[0, 20, 50, 80, 95]);
        let odd = self.pick(&[0, 0, 10, 60]);
        let mut entries: Vec<Entry> = Vec::with_capacity(n);
        while entries.len() < n {
            let entry = if self.percent(odd) {
                self.odd_entry(l, &entries)
            } else {
                self.string(l, stars)
            };
            entries.push(entry);
        }
        Table { l, entries }
    }

    /// A table of a few entries, at least one. Of many variables there are two at most, with few fixed
    /// positions: with more, some equations of a run would be full.
    pub fn short_table(&mut self, l: u32) -> Table {
        if l <= 7 {
            let n = self.within(1, 6);
            return self.table(l, n);
        }
        let n = self.within(1, 2);
        let entries = (0..n).map(|_| self.string(l, 90)).collect();
        Table { l, entries }
    }

    /// A string: each position `*` with the given chance, else 0 or 1 evenly.
    pub fn string(&mut self, l: u32, stars: usize) -> Entry {
        let mut entry = Entry::ALL_STAR;
        for i in 0..l {
            if !self.percent(stars) {
                entry.care |= 1 << i;
            }
        }
        entry.value = self.word() & entry.care;
        entry
    }

    /// An all-zero entry, or an earlier one again, with a `*` more or with one fewer.
    fn odd_entry(&mut self, l: u32, earlier: &[Entry]) -> Entry {
        if earlier.is_empty() || self.percent(25) {
            return Entry::zeros_at(low_bits(l));
        }
        let entry = self.pick(earlier);
        let bit = 1 << self.below(l as usize);
        match self.below(3) {
            0 => entry,
            1 => entry.star(bit),
            _ => Entry {
                care: entry.care | bit,
                ..entry
            },
        }
    }

    /// A number that names a side.
    pub fn side(&mut self, negative: bool) -> u32 {
        let any = self.word().max(1);
        if negative {
            self.pick(&[1, 1, 2, 0x10000, 0x8000_0000, u32::MAX, any])
        } else {
            0
        }
    }

    /// A group of a table's variables: any, or some groups of the table taken together, at times with
    /// one variable more or less.
    pub fn group_of(&mut self, table: &Table) -> u32 {
        let Table { l, entries } = table;
        let any = self.set(*l);
        let mut made = 0;
        for _ in 0..self.within(1, 3).min(entries.len()) {
            let entry = self.pick(entries);
            made |= self.covered_by(*l, entry);
        }
        let nearly = made ^ 1 << self.below(*l as usize);
        self.pick(&[any, made, made, nearly]).max(1)
    }

    /// A string of 0 and 1 that an entry of l positions covers.
    pub fn covered_by(&mut self, l: u32, entry: Entry) -> u32 {
        entry.value | self.word() & low_bits(l) & !entry.care
    }

    /// A set of some of X1 to Xl, sometimes an empty one.
    pub fn set(&mut self, l: u32) -> u32 {
        let one = 1 << self.below(l as usize);
        let some = self.word() & low_bits(l);
        let few = some & self.word();
        self.pick(&[0, one, one, some, few, low_bits(l)])
    }
}

/// The length of the longest form of a table.
pub const LONGEST: usize = 4 + 8 * ENTRIES;

/// The variables that a form says it has, plain or packed.
pub fn form_width(form: &[u8]) -> u32 {
    u32::from(u16::from_le_bytes([form[0], form[1]]))
}

/// The entries that a form says it has, plain or packed.
pub fn form_entries(form: &[u8]) -> usize {
    usize::from(u16::from_le_bytes([form[2], form[3]]))
}

/// The form of a table as it stands.
pub fn form(table: &Table) -> Vec<u8> {
    let mut bytes = vec![0; table_length(table.l, table.entries.len())];
    write_table(table, &mut bytes).expect("the table is valid and the output has its length");
    bytes
}

/// The table of an undamaged form, as it stands.
pub fn table_of(form: &[u8]) -> Table {
    let l = form_width(form);
    Table {
        l,
        entries: entries_of(l, form_entries(form), form),
    }
}

/// The packed form of a table as it stands.
pub fn packed(table: &Table) -> Vec<u8> {
    let mut bytes = vec![0; packed_length(table.l, table.entries.len())];
    write_packed(table, &mut bytes).expect("the table is valid and the output has its length");
    bytes
}
