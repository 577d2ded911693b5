//! How often equations of each kind were applied.

use reference::Kind;
use std::fmt;

/// The counts of the kinds: the term is the left variable, holds it deeper, does not hold it.
#[derive(Clone, Copy, Default)]
pub struct Kinds([usize; 3]);

impl Kinds {
    /// Counts an equation.
    pub fn enter(&mut self, kind: Kind) {
        let place = match kind {
            Kind::Itself => 0,
            Kind::Deeper => 1,
            Kind::Plain(_) => 2,
        };
        self.0[place] += 1;
    }

    /// What is wrong where there should have been equations of each kind.
    pub fn complaints(&self) -> Vec<String> {
        let names = ["x = x", "a deeper x", "a plain equation"];
        let unseen = names.iter().zip(self.0).filter(|(_, count)| *count == 0);
        unseen
            .map(|(name, _)| format!("{name} never came"))
            .collect()
    }
}

impl fmt::Display for Kinds {
    fn fmt(&self, formatter: &mut fmt::Formatter) -> fmt::Result {
        let [itself, deeper, plain] = self.0;
        write!(
            formatter,
            "{itself:>8} x = x {deeper:>8} deeper {plain:>8} plain"
        )
    }
}
