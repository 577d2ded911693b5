//! Makes calls on both sides and compares the outcomes.

use crate::archive::perform;
use crate::case::{Call, Case, Outcome};
use crate::expected::expected;
use crate::ledger::Ledger;
use crate::stream;
use std::fmt::Write as _;
use support::library::State;
use support::{Checked, Random};

/// What is done with a case.
pub enum Mode {
    /// Make the call and compare.
    Compare,
    /// Write each of so many cases, with its expected outcome, to standard output.
    Write(usize),
}

/// Compares calls and counts them.
pub struct Tester {
    pub ledger: Ledger,
    mode: Mode,
    guards: Random,
}

impl Tester {
    /// A tester that has made no call.
    pub fn new(mode: Mode) -> Tester {
        Tester {
            ledger: Ledger::default(),
            mode,
            guards: Random::new(1),
        }
    }

    /// Makes one call and compares its whole outcome with the plain one, which is returned.
    pub fn check(&mut self, case: &Case) -> Checked<Outcome> {
        let plain = expected(case);
        match self.mode {
            Mode::Compare => {
                let ours = perform(case, &mut self.guards);
                if ours.as_ref() != Ok(&plain) {
                    return Err(difference(case, &plain, &ours));
                }
            }
            Mode::Write(every) => {
                if self.ledger.total().is_multiple_of(every) {
                    stream::write(case, &plain).map_err(|error| error.to_string())?;
                }
            }
        }
        self.ledger.enter(case, &plain);
        Ok(plain)
    }

    /// Makes one call, which must answer the given number.
    pub fn answered(&mut self, case: &Case, number: u32) -> Checked<Outcome> {
        let outcome = self.check(case)?;
        if outcome.number != number {
            let (name, answered) = (case.call.name(), outcome.number);
            return Err(format!("{name} answers {answered} and not {number}"));
        }
        Ok(outcome)
    }
}

/// The message of a difference: the call, what it was given, and both outcomes.
fn difference(case: &Case, plain: &Outcome, ours: &Result<Outcome, String>) -> String {
    let mut text = format!("difference in {}\n", case.call.name());
    let Case {
        side, word, other, ..
    } = case;
    let _ = writeln!(text, "side {side} word {word} other {other}");
    let _ = writeln!(text, "first    {}", hex(&case.first));
    let _ = writeln!(text, "second   {}", hex(&case.second));
    let _ = writeln!(text, "third    {}", hex(&case.third));
    let _ = writeln!(text, "held     {}", hex(&case.out));
    if let Some(state) = &case.state {
        let _ = writeln!(text, "state    {}", state_text(state));
    }
    let _ = writeln!(text, "expected {}", outcome_text(case.call, plain));
    match ours {
        Ok(ours) => {
            let _ = writeln!(text, "given    {}", outcome_text(case.call, ours));
        }
        Err(message) => {
            let _ = writeln!(text, "given    {message}");
        }
    }
    text
}

fn outcome_text(call: Call, outcome: &Outcome) -> String {
    let mut text = format!("number {}", outcome.number);
    if call == Call::Smaller {
        let _ = write!(text, " part {:?}", outcome.part);
    }
    if !outcome.out.is_empty() {
        let _ = write!(text, " holds {}", hex(&outcome.out));
    }
    if let Some(state) = &outcome.state {
        let _ = write!(text, " state {}", state_text(state));
    }
    text
}

/// The fields of a state; of its arrays all up to the last entry that is not zero.
fn state_text(state: &State) -> String {
    let table = &state.table;
    let filled = (0..table.care.len())
        .rev()
        .find(|&k| table.care[k] != 0 || table.value[k] != 0)
        .map_or(0, |k| k + 1);
    let entries: Vec<String> = (0..filled)
        .map(|k| format!("{:x}:{:x}", table.care[k], table.value[k]))
        .collect();
    format!(
        "code {} side {} applied {} l {} n {} care:value {}",
        state.code,
        state.side,
        state.applied,
        table.l,
        table.n,
        entries.join(" ")
    )
}

fn hex(bytes: &[u8]) -> String {
    bytes.iter().map(|byte| format!("{byte:02x}")).collect()
}
