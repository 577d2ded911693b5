//! Compares every exported call of libanalyser.a with the plain implementation: random and
//! damaged input, guard bytes around all that is lent, outputs of every length, sequences of
//! calls. Prints how often each number was answered by each call, and how often equations of each
//! kind came; the last line is `N calls compared, 0 differences`. With `--cases` it writes some of
//! the cases with their expected outcomes to standard output, for tests/fences.c.

mod applying;
mod archive;
mod base;
mod case;
mod edges;
mod expected;
mod faults;
mod form_faults;
mod form_words;
mod full;
mod guard;
mod ledger;
mod noise;
mod packed;
mod packed_faults;
mod pairs;
mod reasons;
mod seen;
mod self_equations;
mod self_walks;
mod sequences;
mod stream;
mod term_faults;
mod tester;
mod two_ways;
mod twos;
mod valid;
mod walks;
mod widths;
mod word_faults;

use full::Full;
use std::process::ExitCode;
use support::{exit_code, Checked, Random};
use tester::{Mode, Tester};

/// Of so many cases one is written with `--cases`.
const EVERY: usize = 17;

fn main() -> ExitCode {
    let words: Vec<String> = std::env::args().skip(1).collect();
    let words: Vec<&str> = words.iter().map(String::as_str).collect();
    exit_code(match words[..] {
        [] => compare(),
        ["--cases"] => check_all(&mut Tester::new(Mode::Write(EVERY))),
        _ => Err("usage: calls [--cases]".into()),
    })
}

/// Makes all calls, and prints the counts.
fn compare() -> Checked<()> {
    let mut tester = Tester::new(Mode::Compare);
    check_all(&mut tester)?;
    tester.ledger.print();
    let complaints = tester.ledger.complaints();
    if !complaints.is_empty() {
        return Err(complaints.join("\n"));
    }
    println!("{} calls compared, 0 differences", tester.ledger.total());
    Ok(())
}

/// All groups of tests.
fn check_all(tester: &mut Tester) -> Checked<()> {
    let full = Full::find(&mut Random::new(9));
    valid::check(tester)?;
    pairs::check(tester, &full)?;
    valid::check_lengths(tester)?;
    edges::check(tester, &full)?;
    noise::check(tester)?;
    twos::check(tester)?;
    packed::check(tester)?;
    form_words::check(tester)?;
    widths::check(tester)?;
    walks::check(tester, &full)?;
    two_ways::check(tester)?;
    sequences::check(tester, &full)?;
    tester.ledger.drew_each_kind()?;
    self_equations::check(tester)?;
    self_walks::check(tester, &full)?;
    reasons::check(tester, &full)
}
