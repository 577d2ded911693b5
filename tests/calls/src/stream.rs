//! Cases as a stream for the program with fenced buffers (tests/fences.c): 32-bit numbers, low
//! byte first; each row of bytes is preceded by its length.

use crate::case::{Case, Outcome, Part};
use std::io::{self, Write};
use support::library::State;

/// Writes one case and its expected outcome.
pub fn write(case: &Case, outcome: &Outcome) -> io::Result<()> {
    let mut record = Vec::new();
    let numbers = [case.call as u32, case.side, case.word, case.other];
    record.extend(numbers.into_iter().flat_map(u32::to_le_bytes));
    for row in [&case.first, &case.second, &case.third, &case.out] {
        push_row(&mut record, row);
    }
    push_row(&mut record, &state_bytes(case.state.as_deref()));
    record.extend(outcome.number.to_le_bytes());
    push_row(&mut record, &outcome.out);
    push_row(&mut record, &state_bytes(outcome.state.as_deref()));
    let (buffer, len) = match outcome.part {
        Part::First(_, len) => (0, len),
        Part::Second(_, len) => (1, len),
        _ => (2, 0),
    };
    record.extend([buffer, len as u32].into_iter().flat_map(u32::to_le_bytes));
    io::stdout().lock().write_all(&record)
}

fn push_row(record: &mut Vec<u8>, row: &[u8]) {
    record.extend((row.len() as u32).to_le_bytes());
    record.extend_from_slice(row);
}

/// The fields of a state; no bytes where there is none.
fn state_bytes(state: Option<&State>) -> Vec<u8> {
    state.map(State::bytes).unwrap_or_default()
}
