//! Runs the program `sharerun` and compares all that it prints: stored cases with their stored
//! text, drawn inputs with the plain implementation, then inputs that come in pieces and text that
//! is read slowly. SHARERUN names the program, where it is not target/bin/sharerun. Prints how
//! often each number was answered; the last line is `sharerun: ..., 0 differences`.

mod cases;
mod damage;
mod drawn;
mod feeding;
mod inputs;
mod program;
mod tally;
mod tester;

use program::Program;
use std::path::Path;
use std::process::ExitCode;
use support::{exit_code, Checked};
use tester::Tester;

fn main() -> ExitCode {
    exit_code(check_all())
}

/// All tests, and the line that says how much was compared.
fn check_all() -> Checked<()> {
    let here = Path::new(env!("CARGO_MANIFEST_DIR"));
    let mut tester = Tester::new(Program::find(&here.join("../../target/bin/sharerun"))?);
    let cases = cases::read_folder(&here.join("cases"))?;
    cases::check(&mut tester, &cases)?;
    let inputs = drawn::check(&mut tester)?;
    let before = tester.runs;
    feeding::check(&mut tester, &cases)?;
    println!(
        "sharerun: {} stored cases, {inputs} inputs, {} runs fed in other ways, 0 differences",
        cases.len(),
        tester.runs - before
    );
    Ok(())
}
