//! What is drawn for the loads: strings, sets of variables and equations, the same in each run.

use std::ops::RangeInclusive;

use reference::entry::{low_bits, rising_bits};
use reference::terms::{arity, head};
use reference::{Entry, Equation, TwoTerms};
use support::Random;

/// A string of l positions: each `*` with the given chance, else 0 or 1 evenly.
pub fn string(random: &mut Random, l: u32, percent: usize) -> Entry {
    let mut entry = Entry::ALL_STAR;
    for i in 0..l {
        if !random.percent(percent) {
            entry.care |= 1 << i;
            entry.value |= (random.below(2) as u32) << i;
        }
    }
    entry
}

/// A string of l positions, each 0, 1 or `*` with the same chance.
pub fn even_string(random: &mut Random, l: u32) -> Entry {
    let mut entry = Entry::ALL_STAR;
    for i in 0..l {
        let digit = random.below(3);
        entry.care |= u32::from(digit < 2) << i;
        entry.value |= u32::from(digit == 1) << i;
    }
    entry
}

/// A string of l positions, of which some are fixed: how many, which and to what at random.
pub fn fixed_string(random: &mut Random, l: u32, counts: RangeInclusive<usize>) -> Entry {
    let care = some_variables(random, l, counts);
    Entry {
        care,
        value: random.word() & care,
    }
}

/// A set of l variables, their number at random from a range.
pub fn some_variables(random: &mut Random, l: u32, counts: RangeInclusive<usize>) -> u32 {
    let count = random.within(*counts.start(), *counts.end());
    variables(random, l, count, 0)
}

/// A set of so many of l variables, none of them in the other set.
pub fn variables(random: &mut Random, l: u32, count: usize, other: u32) -> u32 {
    let mut set = 0u32;
    while (set.count_ones() as usize) < count {
        set |= (1 << random.below(l as usize)) & !other;
    }
    set
}

/// One of the `*` of a string of l positions, where it has one.
pub fn star(random: &mut Random, l: u32, entry: Entry) -> Option<u32> {
    let stars = low_bits(l) & !entry.care;
    rising_bits(stars).nth(random.below(stars.count_ones() as usize))
}

/// A group: a word from 1 to 2^l - 1.
pub fn group(random: &mut Random, l: u32) -> u32 {
    1 + random.below(low_bits(l) as usize) as u32
}

/// An equation of l variables, more than 4. Its term has 1 to 4 of them, as in f(X3, f(X1, g(X3))).
/// Where it holds the left one that is drawn, which would leave no groups, the next one that it does
/// not hold is taken; after Xl comes X1.
pub fn equation(random: &mut Random, l: u32) -> Equation {
    let mut term = Vec::new();
    for _ in 0..random.below(4) {
        term.extend([head(1, 2), random.variable(l)]);
    }
    term.extend([head(2, 1), random.variable(l)]);
    let drawn = random.variable(l);
    let mut others = (drawn..=l as u16).chain(1..drawn);
    let left = others.find(|variable| !term.contains(variable));
    Equation {
        left: left.expect("the term does not hold all variables"),
        term,
    }
}

/// Two ground terms of so many tokens each that are the same, but for some leaves: these tokens of
/// the left and of the right one stand there.
pub fn two_terms(random: &mut Random, size: usize, leaves: &[(u16, u16)]) -> TwoTerms {
    loop {
        let ground = random.ground_term_of(size);
        let mut places: Vec<usize> = (0..size).filter(|&i| arity(ground[i]) == 0).collect();
        if places.len() < leaves.len() {
            continue;
        }
        random.shuffle(&mut places);
        let (mut left, mut right) = (ground.clone(), ground);
        for (place, leaf) in places.into_iter().zip(leaves) {
            (left[place], right[place]) = *leaf;
        }
        return TwoTerms { left, right };
    }
}

/// The generator of the test load (02, "A test load and a pace"): each number is the last times
/// 1664525 plus 1013904223, modulo 2^32; the seed itself is not drawn.
pub struct Draws(pub u32);

impl Draws {
    /// The next string of l positions, up to 16: the bits from 16 on, bit 16 for X1.
    pub fn string(&mut self, l: u32) -> u32 {
        self.0 = self.0.wrapping_mul(1_664_525).wrapping_add(1_013_904_223);
        self.0 >> 16 & low_bits(l)
    }
}
