//! Ternary set-sharing tables, positive and negative, written straight from documents 01 and 02.
//!
//! The verified analyser is compared with it: the same rules, the same order of entries and the
//! same refusals, in plain Rust. The module `binary` holds a second means of comparison, the
//! binary definitions on sets of groups.

#![forbid(unsafe_code)]
#![warn(missing_docs)]

pub mod binary;
pub mod byte_calls;
pub mod cover;
pub mod entry;
pub mod equations;
pub mod forms;
pub mod growth;
pub mod operations;
pub mod packed;
pub mod questions;
pub mod reasons;
pub mod refusal;
pub mod report;
pub mod running;
pub mod sides;
pub mod table;
pub mod terms;
pub mod unification;

pub use binary::{groups, GroupSet};
pub use entry::Entry;
pub use reasons::{Absence, Reason};
pub use refusal::Refusal;
pub use report::{report, Report};
pub use running::Running;
pub use table::{Side, Table, ENTRIES, VARIABLES};
pub use terms::{Equation, Kind, TwoTerms};
