//! The rows and their random inputs: the same in each run, since the seeds are fixed.

use std::slice;

use reference::terms::{head, TOKENS};
use reference::{Equation, Refusal, Side, Table, ENTRIES};
use support::Random;

use crate::input::Input;
use crate::questions::{self, Sort};
use crate::{drawing, many, reasons, tables};

/// The number of variables of most inputs.
pub const L: u32 = 12;

/// The number of variables of the wider ones, the most for which the words of a form have 16 bits.
pub const WIDE: u32 = 16;

/// Different inputs for each row, so that no single list decides it.
pub const INPUTS: usize = 64;

/// The same for chains, which take long.
const CHAINS: usize = 32;

/// The same for one equation on tables that are drawn.
const EQUATIONS: usize = 100;

/// The equations of a chain.
const CHAIN: usize = 20;

/// Any nonzero number does; this one is the fraction of the golden ratio in 64 bits.
pub const SEED: u64 = 0x9E37_79B9_7F4A_7C15;

/// The rows that came later have a generator of their own, so that the inputs of the others stay
/// the same; this is the fraction of the root of 2.
const LATER_SEED: u64 = 0x6A09_E667_F3BC_C908;

/// The same for the rows of 16 variables; this is the fraction of the root of 3.
const WIDER_SEED: u64 = 0xBB67_AE85_84CA_A73B;

/// The same for the rows of packed forms; this is the fraction of the root of 5.
const PACKED_SEED: u64 = 0x3C6E_F372_FE94_F82B;

/// The same for the rows of two terms; this is the fraction of the root of 7.
const WALK_SEED: u64 = 0xA54F_F53A_5F1D_36F1;

/// The bound of a row, as a multiple of its goal: least times, too, differ from run to run.
const MARGIN: f64 = 1.25;

/// Inputs of one sort, which make one line of the printed table.
pub struct Row {
    pub name: String,
    /// What the time of ours shall be, as a part of the time of plain Rust.
    pub goal: f64,
    /// The part above which `--check` fails.
    pub bound: f64,
    pub inputs: Vec<Input>,
    /// With what ours is compared too.
    pub beside: Option<Beside>,
}

/// Another call on the same tables.
pub struct Beside {
    /// Its name, without `sharing_`.
    pub call: &'static str,
    /// One input for each of the row.
    pub inputs: Vec<Input>,
}

impl Row {
    /// A row; a refusal says that an input cannot be made.
    pub fn new<I>(name: String, goal: f64, inputs: I) -> Result<Row, Refusal>
    where
        I: IntoIterator<Item = Result<Input, Refusal>>,
    {
        Ok(Row {
            name,
            goal,
            bound: MARGIN * goal,
            inputs: inputs.into_iter().collect::<Result<_, _>>()?,
            beside: None,
        })
    }

    /// The row with another bound.
    pub fn bounded(self, bound: f64) -> Row {
        Row { bound, ..self }
    }

    /// The row with another call on the tables of its inputs.
    pub fn beside<I>(self, call: &'static str, inputs: I) -> Result<Row, Refusal>
    where
        I: IntoIterator<Item = Result<Input, Refusal>>,
    {
        let inputs = inputs.into_iter().collect::<Result<_, _>>()?;
        Ok(Row {
            beside: Some(Beside { call, inputs }),
            ..self
        })
    }
}

/// All rows: growing by rising density of stars, converting, changes of side, one equation, chains
/// of equations, the questions, packed forms, two terms; then those of more than 16 variables, and the
/// reasons behind groups.
pub fn rows() -> Result<Vec<Row>, Refusal> {
    let mut random = Random::from_state(SEED);
    let mut later = Random::from_state(LATER_SEED);
    let mut rows = Vec::new();
    for percent in (0..=90).step_by(10) {
        rows.push(growing(&mut random, L, percent)?);
    }
    for count in [32, 128] {
        rows.push(converting(&mut random, L, count)?);
    }
    let strings = tables::wide_strings(&mut later, L, 40, 3..=4);
    rows.push(change_of_side("40 strings", 0.28, &strings)?);
    let most = tables::most_groups(&mut later)?;
    rows.push(change_of_side("most groups", 0.28, &most)?);
    rows.extend(equations(&mut later)?);
    rows.extend(wider(&mut Random::from_state(WIDER_SEED))?);
    rows.extend(chains(&mut random, &mut later)?);
    for l in questions::WIDTHS {
        for sort in questions::sorts(&mut random, l) {
            rows.push(asking(&sort)?);
        }
    }
    let mut packed = Random::from_state(PACKED_SEED);
    for l in [L, WIDE] {
        rows.extend(packing(&mut packed, l, &[1, 32, ENTRIES])?);
    }
    rows.extend(walks(&mut Random::from_state(WALK_SEED))?);
    rows.extend(many::rows()?);
    rows.extend(reasons::rows()?);
    Ok(rows)
}

/// What the name of a row says of its variables, where they are not as many as in most.
fn of_variables(l: u32) -> String {
    match l {
        L => String::new(),
        _ => format!(" of {l}"),
    }
}

/// Forms of 256 strings, each position `*` with the given chance.
pub fn growing(random: &mut Random, l: u32, percent: usize) -> Result<Row, Refusal> {
    let input = |_| {
        let string = |_| drawing::string(random, l, percent);
        let strings: Vec<_> = (0..ENTRIES).map(string).collect();
        Input::read(l, &strings)
    };
    let name = format!("growing by {ENTRIES}{}, {percent} % stars", of_variables(l));
    Ok(Row::new(name, 0.50, (0..INPUTS).map(input))?.bounded(0.50))
}

/// Rows of nonzero groups.
pub fn converting(random: &mut Random, l: u32, count: usize) -> Result<Row, Refusal> {
    let input = |_| {
        let groups = (0..count).map(|_| drawing::group(random, l)).collect();
        Ok(Input::Convert { l, groups })
    };
    let name = format!("converting {count}{}", of_variables(l));
    Row::new(name, 0.13, (0..INPUTS).map(input))
}

pub fn change_of_side(name: &str, goal: f64, tables: &[Table]) -> Result<Row, Refusal> {
    let name = format!("change of side, {name}");
    Row::new(name, goal, tables.iter().map(Input::change_side))
}

/// One equation by itself.
fn equations(random: &mut Random) -> Result<Vec<Row>, Refusal> {
    let positive =
        |name: &str, goal, tables: &[Table]| equation(name.into(), goal, Side::Positive, tables);
    let drawn = tables::drawn(L, EQUATIONS, 32)?;
    let mut rows = vec![positive("positive equation, 32 draws", 0.12, &drawn)?];
    rows.extend(self_equations(&drawn)?);
    rows.extend(negative_equations(random)?);
    let one_entry = tables::one_entry(random);
    rows.push(positive("equation on one entry", 0.60, &one_entry)?);
    Ok(rows)
}

/// X1 = X1 and X1 = f(X1) on these tables: nothing is joined, so that the time is that of reading a
/// table and handing it on.
fn self_equations(tables: &[Table]) -> Result<Vec<Row>, Refusal> {
    let row = |name: &str, term: &[u16]| {
        let name = format!("{name}, 32 draws");
        let row = equation_of_x1(name, 1.00, Side::Positive, tables, term)?;
        Ok(row.bounded(1.00))
    };
    Ok(vec![
        row("X1 = X1", &[1])?,
        row("X1 = f(X1)", &[head(1, 1), 1])?,
    ])
}

/// One negative equation. The tables that leave a share of the groups are drawn as they stand; the
/// others are positive ones that are changed: of 5 draws one change is full already, of 32 draws
/// every one.
fn negative_equations(random: &mut Random) -> Result<Vec<Row>, Refusal> {
    let negative = |name: &str, goal, tables: &[Table]| {
        let name = format!("negative equation, {name}");
        equation(name, goal, Side::Negative, tables)
    };
    let mut rows = Vec::new();
    for (percent, fixed) in tables::SHARES {
        let tables = tables::leaving(L, percent, fixed, EQUATIONS);
        rows.push(negative(&format!("{percent} % left"), 0.35, &tables)?);
    }
    for draws in [2, 4] {
        let drawn = tables::changed(&tables::drawn(L, EQUATIONS, draws)?)?;
        rows.push(negative(&format!("{draws} draws"), 0.35, &drawn)?);
    }
    let most = tables::changed(&tables::most_groups(random)?)?;
    rows.push(negative("most groups", 0.35, &most)?);
    Ok(rows)
}

/// The change of side and the negative equation at 16 variables. Strings are chosen so that few
/// calls are full: with three or four positions fixed the change of side of 8 strings is for 21 of 64.
fn wider(random: &mut Random) -> Result<Vec<Row>, Refusal> {
    let strings = tables::wide_strings(random, WIDE, 24, 2..=3);
    let mut rows = vec![change_of_side("24 strings of 16", 0.28, &strings)?];
    for (percent, fixed) in tables::SHARES {
        let tables = tables::leaving(WIDE, percent, fixed, INPUTS);
        let name = format!("negative equation of 16, {percent} %");
        rows.push(equation(name, 0.35, Side::Negative, &tables)?);
    }
    Ok(rows)
}

/// The equation X1 = f(X2, X3).
pub fn equation(name: String, goal: f64, side: Side, tables: &[Table]) -> Result<Row, Refusal> {
    equation_of_x1(name, goal, side, tables, &[head(1, 2), 2, 3])
}

/// The equation of X1 and a term.
fn equation_of_x1(
    name: String,
    goal: f64,
    side: Side,
    tables: &[Table],
    term: &[u16],
) -> Result<Row, Refusal> {
    let equation = Equation {
        left: 1,
        term: term.to_vec(),
    };
    let input = |table| Input::chain(side, table, slice::from_ref(&equation));
    Row::new(name, goal, tables.iter().map(input))
}

/// Chains of random positive equations of 16 variables. Of 22 draws no equation is full, of 32 draws
/// 13 of 640 are, of 64 nearly all. From the all-star entry, where nothing is known of the variables,
/// tables stay short.
fn chains(random: &mut Random, later: &mut Random) -> Result<Vec<Row>, Refusal> {
    let drawn = tables::drawn(WIDE, CHAINS, 22)?;
    let more = tables::more_groups(later, WIDE, CHAINS)?;
    let single = tables::single_groups(WIDE, CHAINS)?;
    let unknown = vec![Table::all_star(WIDE); CHAINS];
    Ok(vec![
        chain(random, "22 draws", 0.15, &drawn)?,
        chain(later, "16 groups", 0.30, &single)?,
        chain(later, "24 groups", 0.20, &more)?,
        chain(later, "all-star entry", 0.60, &unknown)?,
    ])
}

pub fn chain(random: &mut Random, name: &str, goal: f64, tables: &[Table]) -> Result<Row, Refusal> {
    let input = |table: &Table| {
        let equation = |_| drawing::equation(random, table.l);
        let equations: Vec<_> = (0..CHAIN).map(equation).collect();
        Input::chain(Side::Positive, table, &equations)
    };
    let name = format!("chain of {CHAIN}, {name}");
    Row::new(name, goal, tables.iter().map(input))
}

/// The questions of one sort. Both sides read the forms first, which widens their strings and leaves
/// fewer than 256: at 12 variables 16 to 54 % fewer (medians of the rows), at 16 variables 2 to 44 %, at
/// 24 and 32 up to 40 %.
pub fn asking(sort: &Sort) -> Result<Row, Refusal> {
    let inputs = sort.questions.iter().map(Input::question);
    let row = Row::new(sort.name.clone(), sort.bound, inputs)?;
    Ok(row.bounded(sort.bound))
}

/// What makes an input of a table.
type MakeInput = fn(&Table) -> Result<Input, Refusal>;

/// The calls on packed forms.
const PACKING: [(&str, MakeInput); 2] = [("packing", Input::pack), ("unpacking", Input::unpack)];

/// Both calls on tables of so many entries that reading leaves as they are.
pub fn packing(random: &mut Random, l: u32, counts: &[usize]) -> Result<Vec<Row>, Refusal> {
    let mut rows = Vec::new();
    for &count in counts {
        let fixed = l as usize / 2..=l as usize;
        let tables = tables::grown_strings(random, l, count, &fixed)?;
        for (call, input) in PACKING {
            let name = format!("{call} {count} of {l}");
            let row = Row::new(name, 1.00, tables.iter().map(input))?;
            let read = |table: &Table| Input::read(table.l, &table.entries);
            rows.push(row.beside("read", tables.iter().map(read))?);
        }
    }
    Ok(rows)
}

/// Two terms that have together as many tokens as there may be, each half of them, on the all-star
/// entry. X1 = a is found in them, so that the time is nearly all that of reading and walking them;
/// the other row finds X1 = a to X8 = a.
fn walks(random: &mut Random) -> Result<Vec<Row>, Refusal> {
    let half = TOKENS / 2;
    let mut row = |name: &str, found: u16| {
        let leaves: Vec<(u16, u16)> = (1..=found).map(|x| (x, head(1, 0))).collect();
        let table = Table::all_star(WIDE);
        let input = |_| Input::unify(&table, &drawing::two_terms(random, half, &leaves));
        let name = format!("walk of {half} by {half}{name}");
        Row::new(name, 1.00, (0..INPUTS).map(input))
    };
    Ok(vec![row(" tokens", 1)?, row(", 8 equations", 8)?])
}
