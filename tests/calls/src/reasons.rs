//! The reason behind each group: all groups of small tables against the definition, tables of up to 256
//! entries of 16, 24 and 32 variables, full equations among them, equations whose term holds their left
//! variable, tables that reading changes, and each refusal before the later ones. Where the equation
//! itself is accepted, a group is kept or joined exactly when the table that it leaves has it.

use crate::applying::on_table;
use crate::base::give_equation;
use crate::case::{Call, Case};
use crate::expected::words;
use crate::faults::{damaged, faults_of, Fault, Which};
use crate::full::{alternate, Full};
use crate::packed::written;
use crate::seen::Seen;
use crate::self_equations::{deeper_term, some_table};
use crate::tester::Tester;
use reference::entry::{low_bits, rising_bits};
use reference::forms::words_of;
use reference::reasons::by_groups;
use reference::terms::kind;
use reference::{Entry, Equation, Kind, Reason, Table, ENTRIES};
use support::tables::{form, table_of, EDGES};
use support::{Checked, Random, Verdicts};

/// How many small tables there are; each of their groups is asked about.
const SMALL: usize = 500;

/// The widths of the large tables, and how many of each sort there are.
const WIDTHS: [u32; 3] = [16, 24, 32];
const LARGE: usize = 2;

/// How many groups are asked about after one equation on a large table.
const ASKED: usize = 25;

/// How often each two faults stand together.
const TOGETHER: usize = 20;

/// The faults of the call in the order in which they are refused.
const ORDER: [Fault; 16] = [
    Fault::Sizes(Which::First),
    Fault::Width(Which::First),
    Fault::Count(Which::First),
    Fault::Short(Which::First),
    Fault::Long(Which::First),
    Fault::StrayBit(Which::First),
    Fault::StrayValue(Which::First),
    Fault::TermLong,
    Fault::TermOdd,
    Fault::Variable,
    Fault::TermToken,
    Fault::TermPart,
    Fault::TermRest,
    Fault::TermNone,
    Fault::GroupStray,
    Fault::GroupNone,
];

/// All of these tests.
pub fn check(tester: &mut Tester, full: &Full) -> Checked<()> {
    let mut random = Random::new(17);
    each_group(tester, &mut random)?;
    each_place(tester, &mut random)?;
    large_tables(tester, full, &mut random)?;
    self_equations(tester, &mut random)?;
    refusals(tester, full, &mut random)
}

/// A table and an equation, and what the library makes of them.
struct Asked<'a> {
    table: &'a Table,
    equation: Equation,
    /// The table with the entries that reading leaves.
    read: Table,
    /// The table after the equation; None where that is full.
    after: Option<Table>,
}

impl<'a> Asked<'a> {
    fn new(
        tester: &mut Tester,
        table: &'a Table,
        equation: Equation,
        random: &mut Random,
    ) -> Checked<Asked<'a>> {
        let read = written(tester, Call::Read, form(table), random)?;
        let mut case = on_table(Call::Equation, 0, table, random);
        give_equation(&mut case, equation.clone());
        let outcome = tester.check(&case)?;
        let after = match outcome.number {
            0 => Some(table_of(&outcome.out[..case.call.written(&outcome.out)])),
            8 => None,
            number => return Err(format!("an equation is refused {number}")),
        };
        Ok(Asked {
            table,
            equation,
            read: table_of(&read),
            after,
        })
    }

    fn kind(&self) -> Kind {
        kind(self.equation.left.into(), &self.equation.term)
    }

    /// The reason by the definition, with the entries of one of the two tables.
    fn defined(&self, table: &Table, group: u32) -> Reason {
        by_groups(table, self.equation.left.into(), self.kind(), group)
    }

    /// The three words that are told of a group.
    fn told(&self, tester: &mut Tester, group: u32, random: &mut Random) -> Checked<Vec<u32>> {
        let mut case = on_table(Call::Reason, 0, self.table, random);
        give_equation(&mut case, self.equation.clone());
        case.other = group;
        let told = words(&tester.answered(&case, 0)?.out);
        let present = told[0] == 0 || told[0] == 1;
        match &self.after {
            None => tester.ledger.note(Seen::ReasonWhereFull),
            Some(after) if covers(after, group) != present => {
                return Err(format!("{told:?} of {group:#x}: the equation differs"));
            }
            _ => {}
        }
        Ok(told)
    }

    /// The same, which must be these.
    fn tells(
        &self,
        tester: &mut Tester,
        group: u32,
        due: [u32; 3],
        random: &mut Random,
    ) -> Checked<()> {
        let told = self.told(tester, group, random)?;
        match told == due {
            true => Ok(()),
            false => Err(format!("{told:?} of {group:#x} and not {due:?}")),
        }
    }
}

/// Whether a group is in a positive table.
fn covers(table: &Table, group: u32) -> bool {
    table.entries.iter().any(|entry| entry.covers(group))
}

/// All groups of small tables against the definition. Each verdict has to be told.
fn each_group(tester: &mut Tester, random: &mut Random) -> Checked<()> {
    let mut verdicts = Verdicts::default();
    for k in 0..SMALL {
        let l = 1 + k as u32 % 8;
        let n = random.within(0, 24);
        let table = match k % 3 {
            0 => some_table(l, random),
            _ => random.table(l, n),
        };
        let equation = random.equation(l);
        let asked = Asked::new(tester, &table, equation, random)?;
        for group in 1..=low_bits(l) {
            let due = asked.defined(&asked.read, group).numbers();
            asked.tells(tester, group, due, random)?;
            if asked.defined(&table, group).numbers() != due {
                tester.ledger.note(Seen::EntriesAsRead);
            }
            verdicts.enter(due[0]);
        }
    }
    each_told(verdicts, "small tables")
}

/// Each verdict was told.
fn each_told(verdicts: Verdicts, of: &str) -> Checked<()> {
    let complaints = verdicts.complaints();
    match complaints.is_empty() {
        true => Ok(()),
        false => Err(format!("{of}: {}", complaints.join(", "))),
    }
}

/// A group with X1 in each place of a table of 256 entries and one with X2 in another, and what is to be
/// told after X1 = X2. All groups have an odd number of variables, so that reading widens none.
fn each_place(tester: &mut Tester, random: &mut Random) -> Checked<()> {
    for place in 0..ENTRIES {
        let l = random.pick(&EDGES);
        let groups = alternate(l - 2, ENTRIES + 1, random).into_iter();
        let groups: Vec<u32> = groups.map(|group| group << 2).collect();
        let other = (place + random.within(1, ENTRIES - 1)) % ENTRIES;
        let third = (place + random.within(1, ENTRIES - 1)) % ENTRIES;
        let mut table = table_of_groups(l, &groups[..ENTRIES]);
        // In place of the lowest variable of its group.
        let with = |variable: u32, group: u32| variable | group & (group - 1);
        let (x, t) = (with(1, groups[place]), with(2, groups[other]));
        table.entries[place] = Entry::of_group(l, x);
        table.entries[other] = Entry::of_group(l, t);
        let asked = Asked::new(tester, &table, equation(1, vec![2]), random)?;
        for (group, due) in [
            (x | t, [1, place as u32, other as u32]),
            (t, [2, 0, 0]),
            (x, [3, 0, 0]),
            (groups[ENTRIES], [5, 0, 0]),
            (groups[place], [5, 0, 0]),
            (groups[third], [if third == other { 5 } else { 0 }, 0, 0]),
        ] {
            asked.tells(tester, group, due, random)?;
        }
        for more in rising_bits(low_bits(l) & !(x | t)).take(2) {
            asked.tells(tester, x | t | more, [4, 0, 0], random)?;
        }
    }
    Ok(())
}

/// The table of these groups.
fn table_of_groups(l: u32, groups: &[u32]) -> Table {
    let entries = groups.iter().map(|&group| Entry::of_group(l, group));
    Table {
        l,
        entries: entries.collect(),
    }
}

/// Some groups of large tables, and of those that are known to make an equation full.
fn large_tables(tester: &mut Tester, full: &Full, random: &mut Random) -> Checked<()> {
    let mut verdicts = Verdicts::default();
    for l in WIDTHS {
        for _ in 0..LARGE {
            for table in large(l, random) {
                let x = random.variable(l);
                for equation in [
                    random.equation_of(l, 1),
                    random.equation_of(l, 5),
                    equation(x, vec![x]),
                    equation(x, deeper_term(l, x, random)),
                ] {
                    some_groups(tester, &table, equation, &mut verdicts, random)?;
                }
            }
        }
    }
    for _ in 0..4 {
        let case = full.case(Call::Equation, false, random);
        let equation = equation(case.word as u16, words_of(&case.second));
        let table = table_of(&case.first);
        some_groups(tester, &table, equation, &mut verdicts, random)?;
    }
    each_told(verdicts, "large tables")
}

fn equation(left: u16, term: Vec<u16>) -> Equation {
    Equation { left, term }
}

/// Tables of 200 to 256 entries: groups of about half of the variables, groups of few, and strings.
fn large(l: u32, random: &mut Random) -> [Table; 3] {
    let n = random.within(200, ENTRIES);
    let half = alternate(l, n, random);
    let few = (0..n).map(|_| random.word() & random.word() & random.word() & low_bits(l));
    let few: Vec<u32> = few.collect();
    let entries = (0..n).map(|_| random.string(l, 30)).collect();
    [
        table_of_groups(l, &half),
        table_of_groups(l, &few),
        Table { l, entries },
    ]
}

/// Some groups after one equation on a table.
fn some_groups(
    tester: &mut Tester,
    table: &Table,
    equation: Equation,
    verdicts: &mut Verdicts,
    random: &mut Random,
) -> Checked<()> {
    let asked = Asked::new(tester, table, equation, random)?;
    for _ in 0..ASKED {
        let group = random.group_of(table);
        verdicts.enter(asked.told(tester, group, random)?[0]);
    }
    Ok(())
}

/// x = x and x under heads, for each variable of several widths: kept or not there by what the table
/// covers as read, and no solution for any group.
fn self_equations(tester: &mut Tester, random: &mut Random) -> Checked<()> {
    for l in [1, 2, 3, 8].into_iter().chain(EDGES) {
        for x in 1..=l as u16 {
            let table = some_table(l, random);
            for term in [vec![x], deeper_term(l, x, random)] {
                let asked = Asked::new(tester, &table, equation(x, term), random)?;
                for _ in 0..4 {
                    let group = random.group_of(&table);
                    let verdict = match asked.kind() {
                        Kind::Itself if covers(&asked.read, group) => 0,
                        Kind::Itself => 5,
                        _ => 6,
                    };
                    asked.tells(tester, group, [verdict, 0, 0], random)?;
                }
            }
        }
    }
    Ok(())
}

/// Each fault alone and every two that can stand together: the one that comes first in the order is
/// answered, and no word is written.
fn refusals(tester: &mut Tester, full: &Full, random: &mut Random) -> Checked<()> {
    let mut faults = ORDER;
    faults.sort();
    if faults_of(Call::Reason, false) != faults {
        return Err("the order of the refusals lacks a fault".into());
    }
    for (k, &first) in ORDER.iter().enumerate() {
        for &other in &ORDER[k..] {
            let mut both = vec![first, other];
            both.sort();
            both.dedup();
            if both.len() == 2 && !both[0].goes_with(both[1]) {
                continue;
            }
            for _ in 0..TOGETHER {
                let case = damaged((Call::Reason, false), &both, full, random);
                untouched(tester, &case, first.number())?;
            }
        }
    }
    Ok(())
}

/// Makes a call that is refused by a number and leaves its words.
fn untouched(tester: &mut Tester, case: &Case, number: u32) -> Checked<()> {
    match tester.answered(case, number)?.out == case.out {
        true => Ok(()),
        false => Err(format!("a call refused {number} writes a word")),
    }
}
