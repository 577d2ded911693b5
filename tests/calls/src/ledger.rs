//! What was answered how often, and what each call can answer.

use crate::case::{Call, Case, Outcome, Part};
use crate::expected::words;
use crate::faults::Fault;
use crate::seen::Seen;
use reference::forms::{read_equations, read_two_terms, words_of};
use reference::terms::kind;
use reference::unification::{walk, Clash, Term};
use reference::{Equation, Kind, TwoTerms};
use std::collections::BTreeMap;
use support::answers::{Answers, NUMBERS};
use support::{Checked, Kinds, Verdicts};

/// A call, and whether its side is the negative one.
type Row = (Call, bool);

/// The row of the reasons behind groups.
const REASONS: Row = (Call::Reason, false);

/// The counts of one row.
#[derive(Default)]
struct Counts {
    numbers: Answers,
    /// Questions: yes and no. The two-buffer call: part of the first, of the second, empty. Two
    /// terms set equal: a clash, no equation, some.
    answers: [usize; 3],
    /// The equations of accepted calls, those that walks find among them.
    kinds: Kinds,
    /// The reasons behind groups.
    verdicts: Verdicts,
}

/// All counts of a run of this program.
#[derive(Default)]
pub struct Ledger {
    rows: BTreeMap<Row, Counts>,
    /// How often two faults stood together in a row, and which of their numbers was answered.
    pairs: BTreeMap<(Row, Fault, Fault), usize>,
    numbers: BTreeMap<(u32, u32), [usize; 2]>,
    /// What came of equations whose term holds their left variable, and of reasons.
    seen: BTreeMap<Seen, usize>,
    total: usize,
}

/// The numbers that a call can answer: all others are wrong whatever it is given.
fn possible(call: Call, negative: bool) -> &'static [u32] {
    match call {
        Call::Read | Call::Pack => &[0, 1, 2, 3, 4, 9],
        Call::Unpack => &[0, 1, 2, 3, 9, 12],
        Call::Convert => &[0, 2, 4, 8, 9],
        Call::ChangeSide => &[0, 1, 2, 3, 4, 8, 9],
        Call::Equation | Call::Unify => &[0, 1, 2, 3, 4, 5, 6, 7, 8, 9],
        Call::Join => &[0, 1, 2, 3, 4, 8, 9, 10],
        // At most 256 strings are cut on the positive side, so none of them is entry 257.
        Call::Project if negative => &[0, 1, 2, 3, 4, 8, 9, 11],
        Call::Project => &[0, 1, 2, 3, 4, 9, 11],
        Call::Equal => &[0, 1, 2, 3, 4, 10],
        Call::Ground | Call::Independent => &[0, 1, 2, 3, 4, 5],
        Call::Reason => &[0, 1, 2, 3, 4, 5, 6, 7, 11],
        Call::Smaller => &[0],
        Call::Run | Call::UnifyRun => &[0, 1, 2, 3, 4, 5, 6, 7, 8],
        Call::Step | Call::UnifyStep => &[0, 1, 2, 3, 4, 5, 6, 7, 8],
        Call::Start => &[0, 1, 2, 3, 4],
        Call::Write => &[0, 2, 3, 4, 9],
    }
}

/// All rows, in the order of the C header.
pub fn rows() -> impl Iterator<Item = Row> {
    Call::ALL.into_iter().flat_map(|call| {
        let sides: &[bool] = if call.has_side() {
            &[false, true]
        } else {
            &[false]
        };
        sides.iter().map(move |&negative| (call, negative))
    })
}

/// The name of a row, as in `equation -`.
fn title((call, negative): Row) -> String {
    let name = call.name().trim_start_matches("sharing_");
    match (call.has_side(), negative) {
        (false, _) => name.to_string(),
        (true, false) => format!("{name} +"),
        (true, true) => format!("{name} -"),
    }
}

impl Ledger {
    /// Counts a call that was compared.
    pub fn enter(&mut self, case: &Case, outcome: &Outcome) {
        self.total += 1;
        let counts = self
            .rows
            .entry((case.call, case.is_negative()))
            .or_default();
        counts.numbers.enter(outcome.number);
        if outcome.number == 0 {
            let applied = applied(case).into_iter();
            applied.for_each(|kind| counts.kinds.enter(kind));
        }
        match outcome.part {
            Part::None if case.call.asks() && outcome.number == 0 => {
                counts.answers[usize::from(outcome.out[0] == 0)] += 1;
            }
            Part::None if case.call.takes_two_terms() && outcome.number == 0 => {
                counts.answers[walked(case)] += 1;
            }
            Part::None if case.call == Call::Reason && outcome.number == 0 => {
                counts.verdicts.enter(words(&outcome.out)[0]);
            }
            Part::None | Part::Elsewhere(_) => {}
            Part::First(..) => counts.answers[0] += 1,
            Part::Second(..) => counts.answers[1] += 1,
            Part::Empty => counts.answers[2] += 1,
        }
    }

    /// Counts two faults that stood together, and the number that was answered; the two-buffer
    /// call answers none.
    pub fn enter_pair(&mut self, row: Row, faults: (Fault, Fault), answered: u32) {
        *self.pairs.entry((row, faults.0, faults.1)).or_default() += 1;
        if row.0 == Call::Smaller {
            return;
        }
        let (a, b) = (faults.0.number(), faults.1.number());
        let counts = self.numbers.entry((a.min(b), a.max(b))).or_default();
        counts[usize::from(answered != a.min(b))] += 1;
    }

    /// Counts what came of an equation whose term holds its left variable, or of a reason.
    pub fn note(&mut self, seen: Seen) {
        *self.seen.entry(seen).or_default() += 1;
    }

    /// Sees that each call came with each kind of equation: so far they were only drawn.
    pub fn drew_each_kind(&self) -> Checked<()> {
        let complaints = self.kind_complaints();
        match complaints.is_empty() {
            true => Ok(()),
            false => Err(complaints.join("\n")),
        }
    }

    /// Which kinds of equations a call never came with.
    fn kind_complaints(&self) -> Vec<String> {
        let none = Kinds::default();
        let complaints = |row: Row| {
            let kinds = self.rows.get(&row).map_or(none, |counts| counts.kinds);
            let unseen = kinds.complaints().into_iter();
            unseen.map(move |what| format!("{}: {what}", title(row)))
        };
        let rows = rows().filter(|(call, _)| call.takes_equations());
        rows.flat_map(complaints).collect()
    }

    /// The calls counted.
    pub fn total(&self) -> usize {
        self.total
    }

    /// Prints the counts: a row for each call and side, a column for each number.
    pub fn print(&self) {
        let heads: String = (0..NUMBERS).map(|number| format!("{number:>8}")).collect();
        println!("{:<15}{heads}", "answers");
        for row in rows() {
            let counts = self.rows.get(&row);
            let cells: String = (0..NUMBERS)
                .map(|number| cell(row, number, counts))
                .collect();
            println!("{:<15}{cells}", title(row));
        }
        for (row, counts) in self.rows.iter().filter(|((call, _), _)| call.asks()) {
            let [yes, no, _] = counts.answers;
            println!("{:<15}{yes:>8} yes {no:>8} no", title(*row));
        }
        let walks = self.rows.iter();
        for (row, counts) in walks.filter(|((call, _), _)| call.takes_two_terms()) {
            let [clash, none, some] = counts.answers;
            println!(
                "{:<15}{clash:>8} clash {none:>8} find no equation {some:>8} find some",
                title(*row)
            );
        }
        let equations = self.rows.iter();
        for (row, counts) in equations.filter(|((call, _), _)| call.takes_equations()) {
            println!("{:<15}{}", title(*row), counts.kinds);
        }
        if let Some(counts) = self.rows.get(&REASONS) {
            println!("{:<15}{}", title(REASONS), counts.verdicts);
        }
        if let Some(counts) = self.rows.get(&(Call::Smaller, false)) {
            let [first, second, empty] = counts.answers;
            println!("smaller        {first:>8} positive {second:>8} negative {empty:>8} empty");
        }
        for seen in Seen::ALL {
            let count = self.seen.get(&seen).unwrap_or(&0);
            println!("{:<40}{count:>8}", seen.name());
        }
        self.print_pairs();
    }

    /// Prints, for each pair of numbers whose faults stood together, how often each was answered.
    fn print_pairs(&self) {
        println!("two faults at once, as a/b: times a was answered, times b");
        let cells: Vec<String> = self
            .numbers
            .iter()
            .map(|((a, b), [first, second])| {
                format!(
                    "{:<8}{:<14}",
                    format!("{a}/{b}:"),
                    format!("{first} {second}")
                )
            })
            .collect();
        for line in cells.chunks(5) {
            println!("  {}", line.concat().trim_end());
        }
        let least = self.pairs.values().min().unwrap_or(&0);
        println!(
            "  {} pairs of faults in the calls, each at least {least} times",
            self.pairs.len()
        );
    }

    /// What is missing or was impossible: an empty list where all is as it should be.
    pub fn complaints(&self) -> Vec<String> {
        let none = Counts::default();
        let mut complaints = Vec::new();
        for row in rows() {
            let counts = self.rows.get(&row).unwrap_or(&none);
            let wrong = counts.numbers.complaints(possible(row.0, row.1));
            complaints.extend(wrong.iter().map(|what| format!("{}: {what}", title(row))));
            if counts.answers[..answers(row.0)].contains(&0) {
                complaints.push(format!("{}: an answer was never given", title(row)));
            }
            if row == REASONS {
                let unseen = counts.verdicts.complaints().into_iter();
                complaints.extend(unseen.map(|what| format!("{}: {what}", title(row))));
            }
        }
        let unseen = Seen::ALL
            .iter()
            .filter(|seen| !self.seen.contains_key(seen));
        complaints.extend(unseen.map(|seen| format!("never came: {}", seen.name())));
        complaints
    }
}

/// The kinds of the equations that an accepted call applies, in order; none of a walk that clashes.
fn applied(case: &Case) -> Vec<Kind> {
    let found = |left: &[u16], right: &[u16]| {
        let (left, right) = (Term::of(left), Term::of(right));
        let found = walk(&left, &right).unwrap_or_default();
        let kind = |(x, term): &(u16, &Term)| term.kind(u32::from(*x));
        found.iter().map(kind).collect::<Vec<Kind>>()
    };
    match case.call {
        Call::Equation | Call::Reason | Call::Step => {
            vec![kind(case.word, &words_of(&case.second))]
        }
        Call::Unify | Call::UnifyStep => found(&words_of(&case.second), &words_of(&case.third)),
        Call::Run => {
            let equations = read_equations(case.l(), &case.second).unwrap_or_default();
            let kind = |one: &Equation| kind(u32::from(one.left), &one.term);
            equations.iter().map(kind).collect()
        }
        Call::UnifyRun => {
            let equations = read_two_terms(case.l(), &case.second).unwrap_or_default();
            let kinds = |one: &TwoTerms| found(&one.left, &one.right);
            equations.iter().flat_map(kinds).collect()
        }
        _ => vec![],
    }
}

/// What the walk of two accepted terms comes to: a clash, no equation, some.
fn walked(case: &Case) -> usize {
    let [left, right] = [&case.second, &case.third].map(|row| Term::of(&words_of(row)));
    match walk(&left, &right) {
        Err(Clash) => 0,
        Ok(found) if found.is_empty() => 1,
        Ok(_) => 2,
    }
}

/// How many kinds of answers a call has besides its number.
fn answers(call: Call) -> usize {
    match call {
        Call::Smaller => 3,
        _ if call.takes_two_terms() => 3,
        _ if call.asks() => 2,
        _ => 0,
    }
}

/// A count; a dot where the number cannot be answered and was not.
fn cell((call, negative): Row, number: u32, counts: Option<&Counts>) -> String {
    match counts.map_or(0, |counts| counts.numbers.count(number)) {
        0 if !possible(call, negative).contains(&number) => format!("{:>8}", "."),
        count => format!("{count:>8}"),
    }
}
