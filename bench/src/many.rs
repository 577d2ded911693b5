//! The rows of more than 16 variables, like those of 12 and 16. Both sides meet them with words of 32
//! bits in the forms.

use reference::{Refusal, Side, VARIABLES};
use support::Random;

use crate::load::{self, Row};
use crate::{questions, tables};

/// The variables of one equation by itself.
const CLAUSE: u32 = 24;

/// The variables of a chain, as many as the longest clauses have.
const LONG_CLAUSE: u32 = 28;

/// Different inputs for each chain: those of 28 variables take longer than those of 16.
const CHAINS: usize = 16;

/// The widths of the questions.
const ASKED: [u32; 2] = [CLAUSE, VARIABLES];

/// These rows have a generator of their own, so that the inputs of the others stay the same; this is
/// the fraction of the root of 11.
const SEED: u64 = 0x510E_527F_ADE6_82D1;

/// All of them.
pub fn rows() -> Result<Vec<Row>, Refusal> {
    let mut random = Random::from_state(SEED);
    let mut rows = vec![
        load::growing(&mut random, VARIABLES, 30)?,
        load::converting(&mut random, VARIABLES, 128)?,
    ];
    rows.extend(load::packing(&mut random, VARIABLES, &[32])?);
    rows.extend(equations(&mut random)?);
    rows.extend(chains(&mut random)?);
    for l in ASKED {
        for sort in questions::sorts(&mut random, l) {
            rows.push(load::asking(&sort)?);
        }
    }
    Ok(rows)
}

/// The change of side and one equation of either side. Strings are chosen so that few calls are full:
/// the change of side of 10 strings would be for 23 of 64. Only of the first positive ones all are, and
/// there the way to the refusal is timed.
fn equations(random: &mut Random) -> Result<Vec<Row>, Refusal> {
    let strings = tables::wide_strings(random, CLAUSE, 6, 2..=3);
    let name = format!("6 strings of {CLAUSE}");
    let mut rows = vec![load::change_of_side(&name, 0.10, &strings)?];
    for percent in [50, 75] {
        let groups = tables::random_groups(CLAUSE, percent, load::INPUTS, 32)?;
        let name = format!("positive equation of {CLAUSE}, {percent} %");
        rows.push(load::equation(name, 0.16, Side::Positive, &groups)?);
    }
    for (percent, fixed) in tables::SHARES_OF_MANY {
        let tables = tables::leaving(CLAUSE, percent, fixed, load::INPUTS);
        let name = format!("negative equation of {CLAUSE}, {percent} %");
        rows.push(load::equation(name, 0.35, Side::Negative, &tables)?);
    }
    Ok(rows)
}

/// Chains of random positive equations. From the single groups 1 of 320 equations is full, with 8
/// groups more 6 are.
fn chains(random: &mut Random) -> Result<Vec<Row>, Refusal> {
    let l = LONG_CLAUSE;
    let single = tables::single_groups(l, CHAINS)?;
    let more = tables::more_groups(random, l, CHAINS)?;
    let large = tables::random_groups(l, 75, CHAINS, 22)?;
    Ok(vec![
        load::chain(random, "28 groups", 0.42, &single)?,
        load::chain(random, "36 groups", 0.24, &more)?,
        load::chain(random, "22 large groups", 0.08, &large)?,
    ])
}
