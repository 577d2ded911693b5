//! Runs the program and compares its text with the expected one.

use crate::program::{Drain, Feed, Program};
use reference::forms::words_of;
use std::fmt::Write as _;
use support::Checked;

/// Compares texts and counts the runs.
pub struct Tester {
    program: Program,
    /// The runs compared.
    pub runs: usize,
}

impl Tester {
    /// A tester of a program that was not run yet.
    pub fn new(program: Program) -> Tester {
        Tester { program, runs: 0 }
    }

    /// Runs the program on an input that comes at once.
    pub fn check(&mut self, name: &str, input: &[u8], expected: &str) -> Checked<()> {
        self.check_fed(name, input, expected, Feed::Whole, Drain::Fast)
    }

    /// Runs the program on an input and compares what it prints, byte for byte.
    pub fn check_fed(
        &mut self,
        name: &str,
        input: &[u8],
        expected: &str,
        feed: Feed,
        drain: Drain,
    ) -> Checked<()> {
        let given = self.program.run(input, feed, drain);
        self.runs += 1;
        let what = match given {
            Ok(text) if text == expected.as_bytes() => return Ok(()),
            Ok(text) => difference(expected.as_bytes(), &text),
            Err(message) => message,
        };
        Err(format!(
            "difference in {name}, input {feed:?}, text read {drain:?}\n{what}\n{}",
            input_text(input)
        ))
    }
}

/// Where two texts first differ: both lengths, and the line of each.
pub fn difference(expected: &[u8], given: &[u8]) -> String {
    let same = expected.iter().zip(given).take_while(|(a, b)| a == b);
    let same = same.count();
    let start = expected[..same].iter().rposition(|&byte| byte == b'\n');
    let start = start.map_or(0, |newline| newline + 1);
    let number = 1 + expected[..same].iter().filter(|&&b| b == b'\n').count();
    let line = |text: &[u8]| {
        let rest = &text[start..];
        let end = rest.iter().position(|&byte| byte == b'\n');
        String::from_utf8_lossy(&rest[..end.map_or(rest.len(), |end| end + 1)]).into_owned()
    };
    format!(
        "expected {} bytes, line {number}: {:?}\ngiven    {} bytes, line {number}: {:?}",
        expected.len(),
        line(expected),
        given.len(),
        line(given)
    )
}

/// An input as a stored case has it.
fn input_text(input: &[u8]) -> String {
    let mut text = String::from("the input, as in tests/runs/cases:\n");
    let padded = [input, &[0; 1][..input.len() % 2]].concat();
    for row in words_of(&padded).chunks(16) {
        let words: Vec<String> = row.iter().map(u16::to_string).collect();
        let _ = writeln!(text, "{}", words.join(" "));
    }
    let _ = write!(text, "bytes {}", input.len());
    text
}
