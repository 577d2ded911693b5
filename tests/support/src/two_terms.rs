//! Valid pairs of terms, and equations of two terms.

use crate::random::Random;
use reference::forms::{bytes_of, words_of, EQUATIONS};
use reference::terms::{head, TOKENS};
use reference::TwoTerms;

/// The numbers of a form of equations of two terms. Its terms are counted from 0 in the order of
/// their tokens: equation k has the terms 2k on its left and 2k + 1 on its right.
#[derive(Clone, Default)]
pub struct TermEquations {
    /// The counts of left sides, then those of right sides.
    pub counts: [Vec<u16>; 2],
    pub tokens: Vec<u16>,
}

impl TermEquations {
    /// The form, of whatever counts: the sizes go by the rows.
    pub fn bytes(&self) -> Vec<u8> {
        let sizes = [self.counts[0].len() as u16, self.tokens.len() as u16];
        let rows = [&sizes[..], &self.counts[0], &self.counts[1], &self.tokens];
        bytes_of(rows.concat())
    }

    /// The numbers of a form that has the length its sizes give.
    pub fn of(bytes: &[u8]) -> TermEquations {
        let words = words_of(bytes);
        let e = usize::from(words[0]);
        TermEquations {
            counts: [words[2..2 + e].to_vec(), words[2 + e..2 + 2 * e].to_vec()],
            tokens: words[2 + 2 * e..].to_vec(),
        }
    }

    /// Adds one equation.
    pub fn push(&mut self, left: &[u16], right: &[u16]) {
        for (counts, term) in self.counts.iter_mut().zip([left, right]) {
            counts.push(term.len() as u16);
            self.tokens.extend_from_slice(term);
        }
    }

    /// How many equations there are.
    pub fn equations(&self) -> usize {
        self.counts[0].len()
    }

    /// The count of a term.
    pub fn count(&mut self, term: usize) -> &mut u16 {
        &mut self.counts[term % 2][term / 2]
    }

    /// The tokens of a term, as their places among all tokens.
    pub fn term(&self, term: usize) -> std::ops::Range<usize> {
        let count = |term: usize| usize::from(self.counts[term % 2][term / 2]);
        let start = (0..term).map(count).sum();
        start..start + count(term)
    }
}

/// How a pair of terms is drawn.
struct Pair {
    l: u32,
    widest: usize,
    /// So many pairs of the walk are still to come before one that clashes.
    before_clash: usize,
    left: Vec<u16>,
    right: Vec<u16>,
}

impl Random {
    /// Two terms, mostly short ones; at times as many tokens as there may be together.
    pub fn two_terms(&mut self, l: u32) -> TwoTerms {
        let all = match self.below(100) {
            0 => self.pick(&[TOKENS, TOKENS - 1]),
            1..=9 => self.within(16, 200),
            _ => self.within(2, 16),
        };
        let any = self.within(1, all - 1);
        let left = self.pick(&[1, all / 2, all - 1, any]).max(1);
        self.two_terms_of(l, left, all - left)
    }

    /// Two terms of so many tokens each, up to some thousands. They have heads in common as far as
    /// their sizes go, and variables on either side; some clash, early or late.
    pub fn two_terms_of(&mut self, l: u32, left: usize, right: usize) -> TwoTerms {
        let some = self.below(left.min(right));
        let before_clash = self.pick(&[0, some, some, usize::MAX, usize::MAX, usize::MAX]);
        self.draw_pair(l, left, right, before_clash)
    }

    /// The same, and the walk of them does not clash.
    pub fn terms_without_clash(&mut self, l: u32, left: usize, right: usize) -> TwoTerms {
        self.draw_pair(l, left, right, usize::MAX)
    }

    fn draw_pair(&mut self, l: u32, left: usize, right: usize, before_clash: usize) -> TwoTerms {
        let mut pair = Pair {
            l,
            widest: self.pick(&[1, 2, 4, 15]),
            before_clash,
            left: Vec::with_capacity(left),
            right: Vec::with_capacity(right),
        };
        self.fill_pair(&mut pair, left, right);
        TwoTerms {
            left: pair.left,
            right: pair.right,
        }
    }

    fn fill_pair(&mut self, pair: &mut Pair, left: usize, right: usize) {
        if pair.before_clash == 0 {
            pair.before_clash = usize::MAX;
            return self.fill_clash(pair, left, right);
        }
        pair.before_clash -= 1;
        let least = left.min(right);
        if least == 1 {
            return self.fill_leaf(pair, left, right);
        }
        let widest = pair.widest.min(least - 1);
        let any = self.within(1, widest);
        let arity = self.pick(&[any, any, any, widest]);
        let token = self.head(arity);
        pair.left.push(token);
        pair.right.push(token);
        let (mut left, mut right) = (left - 1, right - 1);
        for later in (0..arity).rev() {
            let (a, b) = (self.part(left, later), self.part(right, later));
            self.fill_pair(pair, a, b);
            left -= a;
            right -= b;
        }
    }

    /// A pair of which one term is a single token: a variable, or a constant across from one or
    /// from itself.
    fn fill_leaf(&mut self, pair: &mut Pair, left: usize, right: usize) {
        let (x, y, constant) = (self.variable(pair.l), self.variable(pair.l), self.head(0));
        let (leaf, across) = match (left, right) {
            (1, 1) => self.pick(&[
                (x, y),
                (x, x),
                (x, constant),
                (constant, y),
                (constant, constant),
            ]),
            _ => (x, x),
        };
        for (size, token, term) in [
            (left, leaf, &mut pair.left),
            (right, across, &mut pair.right),
        ] {
            match size {
                1 => term.push(token),
                _ => term.extend(self.term_across(pair.l, x, size)),
            }
        }
    }

    /// A pair of two heads that differ in their symbols, or in their arities where they can.
    fn fill_clash(&mut self, pair: &mut Pair, left: usize, right: usize) {
        let symbol = self.word() as u16 & 0x7ff;
        let other = self.pick(&[symbol ^ 1, symbol ^ 0x400, symbol]);
        let before = (pair.left.len(), pair.right.len());
        pair.left.extend(self.term_of(pair.l, left));
        pair.right.extend(self.term_of(pair.l, right));
        let (s, t) = (&mut pair.left[before.0], &mut pair.right[before.1]);
        let arity = |token: u16, size: usize| if size == 1 { 0 } else { token & 0xf };
        let (a, b) = (arity(*s, left), arity(*t, right));
        *s = head(symbol, a);
        *t = head(
            if a == b && other == symbol {
                symbol ^ 1
            } else {
                other
            },
            b,
        );
    }

    /// A head of an arity, whose symbol is often at the limits.
    fn head(&mut self, arity: usize) -> u16 {
        let any = self.word() as u16;
        head(self.pick(&[0, 1, 0x7ff, any]), arity as u16)
    }

    /// The size of a part of so many tokens that leaves one for each later part.
    fn part(&mut self, tokens: usize, later: usize) -> usize {
        match later {
            0 => tokens,
            _ => self.within(1, tokens - later),
        }
    }

    /// Equations of two terms: few and short, or as many tokens or equations as there may be.
    pub fn term_equations(&mut self, l: u32) -> TermEquations {
        let mut equations = TermEquations::default();
        let e = match self.below(20) {
            0 => EQUATIONS,
            _ => self.below(6),
        };
        for _ in 0..e {
            let (left, right) = (self.within(1, 5), self.within(1, 5));
            let terms = match self.below(4) {
                0 => self.two_terms_of(l, left, right),
                _ => self.terms_without_clash(l, left, right),
            };
            equations.push(&terms.left, &terms.right);
        }
        if e < EQUATIONS && self.percent(5) {
            let size = TOKENS - equations.tokens.len();
            let left = self.within(1, size - 1);
            let terms = self.two_terms_of(l, left, size - left);
            equations.push(&terms.left, &terms.right);
        }
        equations
    }
}
