//! Two terms set equal (02, "Both sides compound"): both are read as trees and walked together, and
//! what the walk finds is applied with the equation's rule.

use crate::entry::{variable_bit, Entry};
use crate::equations::equation;
use crate::refusal::Refusal;
use crate::table::{Side, Table};
use crate::terms::{arity, is_head, Kind};

/// A term as a tree.
#[derive(Clone, Debug, PartialEq, Eq)]
pub enum Term {
    /// A variable, by its number.
    Variable(u16),
    /// A head, by its token, and its arguments.
    Compound(u16, Vec<Term>),
}

/// An equation that a walk finds: a variable, and the term across.
pub type Found<'a> = (u16, &'a Term);

/// A pair of a walk that is neither a variable and a term nor two heads of equal symbol and arity.
#[derive(Clone, Copy, Debug, PartialEq, Eq)]
pub struct Clash;

impl Term {
    /// The tree of a row of tokens that was checked: one whole term.
    pub fn of(tokens: &[u16]) -> Term {
        Term::read(&mut tokens.iter().copied())
    }

    /// The tree of the term at the front of a row; the tokens after it are left.
    fn read(tokens: &mut impl Iterator<Item = u16>) -> Term {
        let token = tokens.next().expect("the term is whole");
        if is_head(token) {
            let arguments = (0..arity(token)).map(|_| Term::read(tokens));
            Term::Compound(token, arguments.collect())
        } else {
            Term::Variable(token)
        }
    }

    /// The tokens of the term.
    pub fn tokens(&self) -> Vec<u16> {
        match self {
            Term::Variable(variable) => vec![*variable],
            Term::Compound(head, arguments) => {
                let rest = arguments.iter().flat_map(Term::tokens);
                std::iter::once(*head).chain(rest).collect()
            }
        }
    }

    /// The set of the variables in the term, as a word.
    pub fn variables(&self) -> u32 {
        match self {
            Term::Variable(variable) => variable_bit(u32::from(*variable)),
            Term::Compound(_, arguments) => arguments
                .iter()
                .fold(0, |set, argument| set | argument.variables()),
        }
    }

    /// The kind of the equation of a variable and the term.
    pub fn kind(&self, x: u32) -> Kind {
        let variables = self.variables();
        match self {
            Term::Variable(y) if u32::from(*y) == x => Kind::Itself,
            _ if variables & variable_bit(x) != 0 => Kind::Deeper,
            _ => Kind::Plain(variables),
        }
    }
}

/// The walk of two terms, arguments left to right: the equations that it finds, in order.
pub fn walk<'a>(left: &'a Term, right: &'a Term) -> Result<Vec<Found<'a>>, Clash> {
    let mut found = Vec::new();
    walk_on(left, right, &mut found)?;
    Ok(found)
}

/// The walk from one pair on: a variable on the left makes an equation with the term across, else
/// one on the right does; heads of equal symbol and arity go down.
fn walk_on<'a>(left: &'a Term, right: &'a Term, found: &mut Vec<Found<'a>>) -> Result<(), Clash> {
    match (left, right) {
        (Term::Variable(x), across) | (across, Term::Variable(x)) => {
            found.push((*x, across));
            Ok(())
        }
        (Term::Compound(f, ss), Term::Compound(g, ts)) if f == g => {
            let mut pairs = ss.iter().zip(ts);
            pairs.try_for_each(|(s, t)| walk_on(s, t, found))
        }
        _ => Err(Clash),
    }
}

/// Two checked terms set equal: without groups after a clash, which is never full; else the found
/// equations applied in order, each on what the last one gave.
pub fn unify(
    side: Side,
    l: u32,
    entries: &[Entry],
    left: &[u16],
    right: &[u16],
) -> Result<Vec<Entry>, Refusal> {
    let (left, right) = (Term::of(left), Term::of(right));
    match walk(&left, &right) {
        Err(Clash) => Ok(Table::without_groups(side, l).entries),
        Ok(found) => found
            .iter()
            .try_fold(entries.to_vec(), |entries, (x, term)| {
                let x = u32::from(*x);
                equation(side, l, &entries, x, term.kind(x))
            }),
    }
}
