//! What the tests and the benchmark share.

pub mod answers;
pub mod equations;
pub mod kinds;
#[cfg(feature = "library")]
pub mod library;
pub mod random;
pub mod tables;
pub mod two_terms;
pub mod verdicts;

pub use answers::Answers;
pub use equations::Equations;
pub use kinds::Kinds;
pub use random::Random;
pub use two_terms::TermEquations;
pub use verdicts::Verdicts;

use std::process::ExitCode;

/// What ends a program: a message for the reader where something failed.
pub type Checked<T> = Result<T, String>;

/// How a program ends, after the message of a failure.
pub fn exit_code(outcome: Checked<()>) -> ExitCode {
    match outcome {
        Ok(()) => ExitCode::SUCCESS,
        Err(message) => {
            eprintln!("{message}");
            ExitCode::FAILURE
        }
    }
}
