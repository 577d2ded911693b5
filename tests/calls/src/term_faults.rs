//! Faults in a term, in two terms, and in both forms of equations.

use crate::faults::Fault;
use reference::forms::{bytes_of, words_of, EQUATIONS};
use reference::terms::{arity, head, is_head, TOKENS};
use reference::TwoTerms;
use support::{Equations, Random, TermEquations};

/// A variable token that is not one of X1 to Xl.
fn no_token(l: u32, random: &mut Random) -> u16 {
    let any = l as u16 + 1 + random.below(0x7fff - l as usize) as u16;
    random.pick(&[0, 0, l as u16 + 1, 0x7fff, any])
}

/// A left variable of a form that is not one of X1 to Xl; it may have the top bit.
fn no_left(l: u32, random: &mut Random) -> u16 {
    let token = no_token(l, random);
    let topped = 0x8000 | random.variable(l);
    random.pick(&[token, topped, u16::MAX])
}

/// A term with more than 1024 tokens, now and then with more than 16 bits can count.
fn long_term(l: u32, random: &mut Random) -> Vec<u16> {
    let size = random.pick(&[TOKENS + 1, TOKENS + 2, 1500]);
    match random.below(100) {
        0 => deep_term(0x10000 + 2),
        _ => random.term_of(l, size),
    }
}

/// A term of so many tokens that nests as deep.
fn deep_term(tokens: usize) -> Vec<u16> {
    let mut term = vec![head(0, 1); tokens - 1];
    term.push(1);
    term
}

/// Two terms with more than 1024 tokens together: one of them alone has more, or only both, now and
/// then with as many as 16 bits can just count.
pub fn long_terms(l: u32, random: &mut Random) -> TwoTerms {
    let all = random.pick(&[TOKENS + 1, TOKENS + 1, TOKENS + 2, 1500]);
    let any = random.within(1, all - 1);
    let left = random.pick(&[1, 2, TOKENS / 2, all - 2, all - 1, any]);
    match random.below(100) {
        0 => TwoTerms {
            left: deep_term(0x8000),
            right: deep_term(0x8000),
        },
        _ => random.two_terms_of(l, left, all - left),
    }
}

/// Makes tokens end within the term: one head asks for an argument more, or a head comes in front, so
/// that a fault in a token stays.
fn make_part(tokens: &mut Vec<u16>, random: &mut Random) {
    let heads = tokens.iter().enumerate();
    let heads = heads.filter(|(_, &token)| is_head(token) && arity(token) < 15);
    let places: Vec<usize> = heads.map(|(place, _)| place).collect();
    match places.len() {
        0 => tokens.insert(0, head(random.word() as u16, 15)),
        _ => tokens[random.pick(&places)] += 1,
    }
}

/// Tokens that may follow a term and should not.
fn rest(l: u32, random: &mut Random) -> Vec<u16> {
    let size = random.within(1, 3);
    random.term_of(l, size)
}

/// Puts a fault into the tokens of a term; says whether it is one of those.
fn put_in_tokens(fault: Fault, l: u32, tokens: &mut Vec<u16>, random: &mut Random) -> bool {
    use Fault::*;
    match fault {
        TermToken | RightToken | EquationToken => {
            if tokens.is_empty() {
                tokens.push(1);
            }
            let place = random.below(tokens.len());
            tokens[place] = no_token(l, random);
        }
        TermPart | RightPart | EquationPart => make_part(tokens, random),
        TermRest | RightRest | EquationRest => tokens.extend(rest(l, random)),
        TermNone | RightNone | EquationNone => tokens.clear(),
        _ => return false,
    }
    true
}

/// Puts a fault into the bytes of a term.
pub fn put(fault: Fault, l: u32, bytes: &mut Vec<u8>, random: &mut Random) {
    let mut tokens = match fault {
        Fault::TermLong => long_term(l, random),
        _ => words_of(bytes),
    };
    put_in_tokens(fault, l, &mut tokens, random);
    *bytes = bytes_of(tokens);
    if matches!(fault, Fault::TermOdd | Fault::RightOdd) {
        bytes.push(random.word() as u8);
    }
}

/// Puts a fault into the length of a form of equations; says whether it is one of those.
fn put_in_length(fault: Fault, bytes: &mut Vec<u8>, random: &mut Random) -> bool {
    match fault {
        Fault::EquationsShort => {
            let any = random.within(4, bytes.len() - 1);
            let least = bytes.len() - 1;
            bytes.truncate(random.pick(&[least, least - 1, any]).max(4));
        }
        Fault::EquationsLong => {
            let more = random.within(1, 6);
            bytes.extend(random.bytes(more));
        }
        Fault::EquationsSizes => bytes.truncate(random.below(4)),
        _ => return false,
    }
    true
}

/// More equations than there may be.
fn many_equations(random: &mut Random) -> usize {
    random.pick(&[EQUATIONS + 1, EQUATIONS + 1, EQUATIONS + 2, 0x100 + 3])
}

/// How many tokens more make too many of them.
fn many_tokens(tokens: usize, random: &mut Random) -> usize {
    (TOKENS + random.pick(&[1, 1, 2, 100])).saturating_sub(tokens)
}

/// Puts a fault into the form of equations.
pub fn put_in_equations(fault: Fault, l: u32, bytes: &mut Vec<u8>, random: &mut Random) {
    if put_in_length(fault, bytes, random) {
        return;
    }
    let mut equations = Equations::of(bytes);
    match fault {
        Fault::ManyEquations => {
            let e = many_equations(random);
            while equations.lefts.len() < e {
                let (left, token) = (random.variable(l), random.variable(l));
                equations.push(left, &[token]);
            }
        }
        Fault::ManyTokens => {
            let size = many_tokens(equations.tokens.len(), random).max(1);
            let left = random.variable(l);
            equations.push(left, &random.term_of(l, size));
        }
        _ => put_in_one(fault, l, &mut equations, random),
    }
    *bytes = equations.bytes();
}

/// A fault in one of the equations.
fn put_in_one(fault: Fault, l: u32, equations: &mut Equations, random: &mut Random) {
    let k = random.below(equations.lefts.len());
    let term = equations.term(k);
    let mut tokens = equations.tokens[term.clone()].to_vec();
    if fault == Fault::EquationLeft {
        equations.lefts[k] = no_left(l, random);
    } else if put_in_tokens(fault, l, &mut tokens, random) {
        equations.counts[k] = tokens.len() as u16;
        equations.tokens.splice(term, tokens);
    } else {
        make_sum(k, l, equations, random);
    }
}

/// Counts that do not sum to m: by one, by all that 16 bits can count, or a token too many.
fn make_sum(k: usize, l: u32, equations: &mut Equations, random: &mut Random) {
    let counts = &mut equations.counts;
    let next = (k + 1) % counts.len();
    match random.below(4) {
        0 => counts[k] += 1,
        1 if counts[k] > 0 => counts[k] -= 1,
        2 if next != k => {
            counts[k] += 0x8000;
            counts[next] += 0x8000;
        }
        _ => equations.tokens.push(random.variable(l)),
    }
}

/// Puts a fault into the form of equations of two terms.
pub fn put_in_term_equations(fault: Fault, l: u32, bytes: &mut Vec<u8>, random: &mut Random) {
    if put_in_length(fault, bytes, random) {
        return;
    }
    let mut equations = TermEquations::of(bytes);
    match fault {
        Fault::ManyEquations => {
            let e = many_equations(random);
            while equations.equations() < e {
                let (left, right) = (random.variable(l), random.variable(l));
                equations.push(&[left], &[right]);
            }
        }
        Fault::ManyTokens => {
            let size = many_tokens(equations.tokens.len(), random).max(2);
            let any = random.within(1, size - 1);
            let left = random.pick(&[1, size - 1, any]);
            let terms = random.two_terms_of(l, left, size - left);
            equations.push(&terms.left, &terms.right);
        }
        _ => put_in_one_term(fault, l, &mut equations, random),
    }
    *bytes = equations.bytes();
}

/// A fault in one term of the equations, on either side.
fn put_in_one_term(fault: Fault, l: u32, equations: &mut TermEquations, random: &mut Random) {
    let k = random.below(2 * equations.equations());
    let places = equations.term(k);
    let mut tokens = equations.tokens[places.clone()].to_vec();
    if put_in_tokens(fault, l, &mut tokens, random) {
        *equations.count(k) = tokens.len() as u16;
        equations.tokens.splice(places, tokens);
    } else {
        make_term_sum(k, l, equations, random);
    }
}

/// The same of the counts of both sides; 16 bits count all where two of an equation are wrong.
fn make_term_sum(k: usize, l: u32, equations: &mut TermEquations, random: &mut Random) {
    match random.below(4) {
        0 => *equations.count(k) += 1,
        1 if *equations.count(k) > 0 => *equations.count(k) -= 1,
        2 => {
            *equations.count(k) += 0x8000;
            *equations.count(k ^ 1) += 0x8000;
        }
        _ => equations.tokens.push(random.variable(l)),
    }
}
