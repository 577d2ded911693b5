//! Terms as rows of 16-bit tokens, the checks of one equation and its kind (01, "Terms"; 02, "Both
//! sides compound" and "A variable set equal to itself").

use crate::entry::variable_bit;
use crate::refusal::Refusal;
use crate::table::check_variable;

/// The most tokens of a term, of two terms set equal, and of all terms of an equations' form.
pub const TOKENS: usize = 1024;

/// One equation: a left variable and the tokens of its term.
#[derive(Clone, Debug, PartialEq, Eq, Hash)]
pub struct Equation {
    /// The left variable.
    pub left: u16,
    /// The tokens of the right side.
    pub term: Vec<u16>,
}

/// An equation of two terms.
#[derive(Clone, Debug, PartialEq, Eq, Hash)]
pub struct TwoTerms {
    /// The tokens of the left side.
    pub left: Vec<u16>,
    /// The tokens of the right side.
    pub right: Vec<u16>,
}

/// Whether a token is a head (top bit 1) and not a variable.
pub fn is_head(token: u16) -> bool {
    token & 0x8000 != 0
}

/// The arity of a head: bits 0 to 3.
pub fn arity(head: u16) -> usize {
    usize::from(head & 0xf)
}

/// The head of a symbol (bits 4 to 14) and an arity (bits 0 to 3).
pub fn head(symbol: u16, arity: u16) -> u16 {
    0x8000 | (symbol & 0x7ff) << 4 | (arity & 0xf)
}

/// Reads one term: a variable alone, or a head and its row of arguments. Gives the rest of the
/// tokens; None where they end too early.
pub fn read_term(tokens: &[u16]) -> Option<&[u16]> {
    let (&token, rest) = tokens.split_first()?;
    if is_head(token) {
        read_row(arity(token), rest)
    } else {
        Some(rest)
    }
}

/// Reads so many terms, one after another, and gives the rest of the tokens.
fn read_row(count: usize, tokens: &[u16]) -> Option<&[u16]> {
    (0..count).try_fold(tokens, |rest, _| read_term(rest))
}

/// The checks of a term: tokens in order (5), whole term (6).
pub fn check_term(l: u32, term: &[u16]) -> Result<(), Refusal> {
    for &token in term.iter().filter(|&&token| !is_head(token)) {
        check_variable(l, u32::from(token))?;
    }
    match read_term(term) {
        Some([]) => Ok(()),
        _ => Err(Refusal::Term),
    }
}

/// The checks of one equation of a form: left variable (5), then the term.
pub fn check_equation(l: u32, variable: u32, term: &[u16]) -> Result<(), Refusal> {
    check_variable(l, variable)?;
    check_term(l, term)
}

/// The checks of one equation of two terms of a form: the left term, then the right one.
pub fn check_terms(l: u32, left: &[u16], right: &[u16]) -> Result<(), Refusal> {
    check_term(l, left)?;
    check_term(l, right)
}

/// The checks of an equation handed over by itself: more than 1024 tokens is 7, then as above.
pub fn check_single_equation(l: u32, variable: u32, term: &[u16]) -> Result<(), Refusal> {
    if term.len() > TOKENS {
        return Err(Refusal::Long);
    }
    check_equation(l, variable, term)
}

/// The checks of two terms handed over by themselves: more than 1024 tokens together is 7, then as
/// above.
pub fn check_single_terms(l: u32, left: &[u16], right: &[u16]) -> Result<(), Refusal> {
    if left.len() + right.len() > TOKENS {
        return Err(Refusal::Long);
    }
    check_terms(l, left, right)
}

/// The set of variables of a checked term, as a word.
pub fn variables(term: &[u16]) -> u32 {
    term.iter()
        .filter(|&&token| !is_head(token))
        .fold(0, |set, &token| set | variable_bit(u32::from(token)))
}

/// The kinds of an equation x = t, by where x stands in t.
#[derive(Clone, Copy, Debug, PartialEq, Eq, Hash)]
pub enum Kind {
    /// t is exactly x: nothing changes.
    Itself,
    /// t holds x deeper: no finite terms make the two sides the same.
    Deeper,
    /// t does not hold x. This is the set of its variables.
    Plain(u32),
}

/// The kind of the equation of a variable and a checked term.
pub fn kind(x: u32, term: &[u16]) -> Kind {
    let variables = variables(term);
    match term {
        [token] if u32::from(*token) == x => Kind::Itself,
        _ if variables & variable_bit(x) != 0 => Kind::Deeper,
        _ => Kind::Plain(variables),
    }
}
