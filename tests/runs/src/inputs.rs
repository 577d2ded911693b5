//! Inputs without a fault: a table, then equations.

use reference::forms::EQUATIONS;
use reference::terms::{head, TOKENS};
use reference::Table;
use support::tables::{form, Size};
use support::{Equations, Random};

/// An input, and the place where its equations start.
#[derive(Clone)]
pub struct Input {
    pub bytes: Vec<u8>,
    pub rest: usize,
}

impl Input {
    /// The table's form and then that of the equations.
    pub fn new(table: &Table, equations: &Equations) -> Input {
        let mut bytes = form(table);
        let rest = bytes.len();
        bytes.extend(equations.bytes());
        Input { bytes, rest }
    }
}

/// A table of some size and equations.
pub fn input(size: Size, random: &mut Random) -> Input {
    let (l, n) = random.shape(size);
    Input::new(&random.table(l, n), &random.equations(l))
}

/// A small input with at least one entry and one equation.
pub fn small_input(random: &mut Random) -> Input {
    let few = random.within(1, 6) as u32;
    let l = random.pick(&[few, few, few, 15, 16, 17, 24, 31, 32]);
    let count = random.within(1, 4);
    let mut equations = Equations::default();
    add_equations(l, count, 5, &mut equations, random);
    Input::new(&random.short_table(l), &equations)
}

/// An input whose run is likely to need entry 257, often after some accepted equations.
pub fn crowded_input(random: &mut Random) -> Input {
    let l = random.width().max(10);
    let (n, stars) = (random.within(30, 120), random.pick(&[0, 10, 30]));
    let entries = (0..n).map(|_| random.string(l, stars)).collect();
    let mut equations = Equations::default();
    for _ in 0..random.below(3) {
        // A variable that becomes ground: fewer groups are left.
        equations.push(random.variable(l), &[head(2, 0)]);
    }
    let size = random.within(3, 12);
    equations.add(&random.equation_of(l, size));
    let count = random.below(3);
    add_equations(l, count, 2, &mut equations, random);
    Input::new(&Table { l, entries }, &equations)
}

/// An input of the length that its sizes give, with more than 64 equations or 1024 tokens, or
/// with exactly as many as there may be.
pub fn long_input(random: &mut Random) -> Input {
    let (l, n) = random.shape(Size::Light);
    let mut equations = Equations::default();
    let count = random.pick(&[1, 5, EQUATIONS, EQUATIONS + 1, EQUATIONS + 2, 100, 256]);
    add_equations(l, count - 1, 1, &mut equations, random);
    let any = random.within(1, 1500);
    let tokens = random.pick(&[count, count, any, TOKENS, TOKENS + 1, TOKENS + 2]);
    let last = tokens.saturating_sub(equations.tokens.len()).max(1);
    equations.add(&random.equation_of(l, last));
    Input::new(&random.table(l, n), &equations)
}

/// Adds so many equations of few tokens.
fn add_equations(
    l: u32,
    count: usize,
    most: usize,
    equations: &mut Equations,
    random: &mut Random,
) {
    for _ in 0..count {
        let size = random.within(1, most);
        equations.add(&random.equation_of(l, size));
    }
}
