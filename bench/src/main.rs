//! Compares the exported calls of the library with plain Rust, both on byte forms: first that both
//! give the same on every input, then the time that they take. With `--same` it stops after the
//! first part and prints what the loads are; with `--check` a ratio above its bound is a failure.

mod calls;
mod contest;
mod drawing;
mod enumeration;
mod input;
mod load;
mod many;
mod ours;
mod plain;
mod questions;
mod reasons;
mod results;
mod summary;
mod tables;
mod timing;

use std::process::ExitCode;

use reference::Refusal;
use summary::Summary;
use support::{exit_code, Checked};

/// What is asked of a run.
#[derive(Clone, Copy, PartialEq, Eq)]
enum Mode {
    Same,
    Print,
    Check,
}

fn main() -> ExitCode {
    let arguments: Vec<String> = std::env::args().skip(1).collect();
    let mode = match arguments.as_slice() {
        [] => Mode::Print,
        [argument] if argument == "--same" => Mode::Same,
        [argument] if argument == "--check" => Mode::Check,
        _ => {
            eprintln!("usage: bench [--same | --check]");
            return ExitCode::from(2);
        }
    };
    exit_code(run(mode))
}

/// The whole comparison; the message of a failure.
fn run(mode: Mode) -> Checked<()> {
    let refused = |refusal: Refusal| format!("a start table is refused {}", refusal.number());
    let rows = load::rows().map_err(refused)?;
    let summaries = rows
        .iter()
        .map(Summary::of)
        .collect::<Result<Vec<_>, _>>()?;
    if mode == Mode::Same {
        summary::print(&summaries);
        return Ok(());
    }
    let results = results::measure(&rows);
    results::print(&results);
    if mode == Mode::Check {
        check_bounds(&results)?;
    }
    Ok(())
}

/// No ratio is above its bound; else the message has a line for each.
fn check_bounds(results: &[results::Measured]) -> Result<(), String> {
    let above = results::above_bounds(results);
    if above.is_empty() {
        Ok(())
    } else {
        Err(above.join("\n"))
    }
}
