//! Valid terms and equations.

use crate::random::Random;
use reference::forms::{bytes_of, words_of, EQUATIONS};
use reference::terms::{head, is_head, TOKENS};
use reference::Equation;

/// The numbers of an equations' form.
#[derive(Clone, Default)]
pub struct Equations {
    pub lefts: Vec<u16>,
    pub counts: Vec<u16>,
    pub tokens: Vec<u16>,
}

impl Equations {
    /// The form, of whatever counts: the sizes go by the rows.
    pub fn bytes(&self) -> Vec<u8> {
        let sizes = [self.lefts.len() as u16, self.tokens.len() as u16];
        let rows = [&sizes[..], &self.lefts, &self.counts, &self.tokens];
        bytes_of(rows.concat())
    }

    /// The numbers of a form that has the length its sizes give.
    pub fn of(bytes: &[u8]) -> Equations {
        let words = words_of(bytes);
        let e = usize::from(words[0]);
        Equations {
            lefts: words[2..2 + e].to_vec(),
            counts: words[2 + e..2 + 2 * e].to_vec(),
            tokens: words[2 + 2 * e..].to_vec(),
        }
    }

    /// Adds one equation.
    pub fn push(&mut self, left: u16, term: &[u16]) {
        self.lefts.push(left);
        self.counts.push(term.len() as u16);
        self.tokens.extend_from_slice(term);
    }

    /// The same of an equation.
    pub fn add(&mut self, equation: &Equation) {
        self.push(equation.left, &equation.term);
    }

    /// The tokens of one equation, as their places among all tokens.
    pub fn term(&self, k: usize) -> std::ops::Range<usize> {
        let start = self.counts[..k].iter().map(|&count| usize::from(count));
        let start = start.sum();
        start..start + usize::from(self.counts[k])
    }
}

impl Random {
    /// One of X1 to Xl.
    pub fn variable(&mut self, l: u32) -> u16 {
        self.within(1, l as usize) as u16
    }

    /// An equation, its term mostly a short one.
    pub fn equation(&mut self, l: u32) -> Equation {
        let size = match self.below(100) {
            0 => self.pick(&[TOKENS, TOKENS - 1]),
            1..=9 => self.within(16, 200),
            _ => self.within(1, 8),
        };
        self.equation_of(l, size)
    }

    /// An equation whose term has so many tokens.
    pub fn equation_of(&mut self, l: u32, size: usize) -> Equation {
        let left = self.variable(l);
        let term = self.term_across(l, left, size);
        Equation { left, term }
    }

    /// A term of so many tokens across from a variable. Few hold it deeper: then no groups are left,
    /// and what follows has nothing to do.
    pub fn term_across(&mut self, l: u32, x: u16, size: usize) -> Vec<u16> {
        let mut term = self.term_of(l, size);
        if size > 1 && !self.percent(10) {
            for token in term.iter_mut().filter(|token| **token == x) {
                *token = self.other_than(l, x);
            }
        }
        term
    }

    /// Another variable, or a constant where there is no other.
    fn other_than(&mut self, l: u32, x: u16) -> u16 {
        match l {
            1 => head(2, 0),
            _ => {
                let other = self.variable(l - 1);
                other + u16::from(other >= x)
            }
        }
    }

    /// A term of so many tokens, up to some thousands: it may nest as deep as it is long.
    pub fn term_of(&mut self, l: u32, size: usize) -> Vec<u16> {
        let mut term = Vec::with_capacity(size);
        let widest = self.pick(&[1, 2, 4, 15]);
        self.fill_term(l, size, widest, &mut term);
        term
    }

    /// The same without variables.
    pub fn ground_term_of(&mut self, size: usize) -> Vec<u16> {
        let mut term = self.term_of(1, size);
        for token in term.iter_mut().filter(|token| !is_head(**token)) {
            *token = head(*token, 0);
        }
        term
    }

    fn fill_term(&mut self, l: u32, size: usize, widest: usize, term: &mut Vec<u16>) {
        let any = self.word() as u16;
        let symbol = self.pick(&[0, 1, 0x7ff, any]);
        if size == 1 {
            let variable = self.variable(l);
            term.push(self.pick(&[variable, variable, head(symbol, 0)]));
            return;
        }
        let widest_here = widest.min(size - 1);
        let any = self.within(1, widest_here);
        let arity = self.pick(&[any, any, any, widest_here]);
        term.push(head(symbol, arity as u16));
        let mut tokens = size - 1;
        for later in (0..arity).rev() {
            let part = match later {
                0 => tokens,
                _ => self.within(1, tokens - later),
            };
            self.fill_term(l, part, widest, term);
            tokens -= part;
        }
    }

    /// Equations: few and short, or as many tokens or equations as there may be.
    pub fn equations(&mut self, l: u32) -> Equations {
        let mut equations = Equations::default();
        let e = match self.below(20) {
            0 => EQUATIONS,
            _ => self.below(6),
        };
        for _ in 0..e {
            let size = self.within(1, 5);
            equations.add(&self.equation_of(l, size));
        }
        if e < EQUATIONS && self.percent(5) {
            let size = TOKENS - equations.tokens.len();
            equations.add(&self.equation_of(l, size));
        }
        equations
    }
}
