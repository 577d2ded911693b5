//! Inputs that come in pieces, from a file or not at all, and texts that are read slowly.

use crate::cases::Case;
use crate::drawn::draw;
use crate::inputs::Input;
use crate::program::{Drain, Feed};
use crate::tester::Tester;
use reference::report::INPUT;
use reference::terms::head;
use reference::{report, Entry, Table};
use std::fmt::Write as _;
use std::time::Duration;
use support::{Checked, Equations, Random};

/// How many bytes come at a time.
const SIZES: [usize; 5] = [1, 2, 3, 7, 1000];

/// How many drawn inputs come in pieces.
const DRAWN: usize = 200;

/// The length of the longest text: 65 tables of 256 lines of 33 bytes, the line of the first table
/// (20 bytes), and the lines of 9 equations (17 bytes) and of 55 more (18 bytes).
const LONGEST: usize = 65 * 256 * 33 + 20 + 9 * 17 + 55 * 18;

/// All of them.
pub fn check(tester: &mut Tester, cases: &[Case]) -> Checked<()> {
    check_pieces(tester, cases)?;
    check_pauses(tester, cases)?;
    check_drawn(tester)?;
    check_sources(tester, cases)?;
    check_longest(tester)
}

/// Every stored case, in pieces of each size.
fn check_pieces(tester: &mut Tester, cases: &[Case]) -> Checked<()> {
    for case in cases {
        for size in SIZES {
            check_case(tester, case, Feed::Pieces(size))?;
        }
    }
    Ok(())
}

/// Stored cases with pauses in which the program reads what there is: short ones in small pieces,
/// long ones in large pieces, and those that are too long by bytes that come late.
fn check_pauses(tester: &mut Tester, cases: &[Case]) -> Checked<()> {
    let pause = Duration::from_micros(300);
    let long_pause = Duration::from_millis(3);
    for case in cases {
        if case.input.len() <= 40 {
            for size in SIZES {
                check_case(tester, case, Feed::Paused(size, pause))?;
            }
        }
        if case.input.len() > 1000 {
            check_case(tester, case, Feed::Paused(1000, long_pause))?;
        }
        if case.input.len() > INPUT {
            check_case(tester, case, Feed::Paused(INPUT, long_pause))?;
        }
    }
    Ok(())
}

/// Drawn inputs in pieces, each of one size.
fn check_drawn(tester: &mut Tester) -> Checked<()> {
    let mut random = Random::new(32);
    for number in 1..=DRAWN {
        let input = draw(&mut random).bytes;
        let name = format!("drawn input {number} of those in pieces");
        let feed = Feed::Pieces(random.pick(&SIZES));
        tester.check_fed(&name, &input, &report(&input).text, feed, Drain::Fast)?;
    }
    Ok(())
}

/// Every stored case from a file, and no input at all.
fn check_sources(tester: &mut Tester, cases: &[Case]) -> Checked<()> {
    for case in cases {
        check_case(tester, case, Feed::File)?;
    }
    for feed in [Feed::Whole, Feed::Null, Feed::Closed] {
        tester.check_fed("no input", &[], "refused 1\n", feed, Drain::Fast)?;
    }
    Ok(())
}

/// The longest text, which is longer than a pipe holds.
fn check_longest(tester: &mut Tester) -> Checked<()> {
    let (input, text) = longest();
    if text.len() != LONGEST {
        return Err(format!("the longest text has {} bytes", text.len()));
    }
    for drain in [Drain::Fast, Drain::Slow, Drain::Stopped] {
        tester.check_fed("the longest text", &input, &text, Feed::Whole, drain)?;
    }
    Ok(())
}

/// The input of the longest text and the text: 256 groups of which none has X32, then 64 times the
/// equation X32 = a, which changes nothing. Each has an odd number of X1 to X9, so that none widens.
fn longest() -> (Vec<u8>, String) {
    let groups = (1..512).filter(|group: &u32| group.count_ones() % 2 == 1);
    let entries = groups.clone().map(|group| Entry::of_group(32, group));
    let table = Table {
        l: 32,
        entries: entries.collect(),
    };
    let mut equations = Equations::default();
    let mut lines = String::new();
    for group in groups {
        // Position 1 is the lowest bit.
        lines.extend(format!("{group:032b}").chars().rev());
        lines.push('\n');
    }
    let mut text = format!("vars 32 entries 256\n{lines}");
    for number in 1..=64 {
        equations.push(32, &[head(2, 0)]);
        let _ = write!(text, "eq {number} entries 256\n{lines}");
    }
    (Input::new(&table, &equations).bytes, text)
}

/// One stored case, given in some way.
fn check_case(tester: &mut Tester, case: &Case, feed: Feed) -> Checked<()> {
    let (name, text) = (case.title(), &case.text);
    tester.check_fed(&name, &case.input, text, feed, Drain::Fast)
}
