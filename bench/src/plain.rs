//! The plain side: the calls of `reference`. Questions about up to 16 variables go by enumeration; of
//! more variables there are too many groups, and `reference` cuts strings into pieces.

use reference::entry::low_bits;
use reference::forms::read_table;
use reference::refusal::number_of;
use reference::{byte_calls, questions, Entry, Refusal, Running, Side, ENTRIES};

use crate::calls::Calls;
use crate::enumeration;
use crate::load::WIDE;

/// Plain Rust.
pub struct Plain;

impl Calls for Plain {
    type State = Running;

    fn read(table: &[u8], out: &mut [u8]) -> u32 {
        byte_calls::read(table, out)
    }

    fn pack(table: &[u8], out: &mut [u8]) -> u32 {
        byte_calls::pack(table, out)
    }

    fn unpack(packed: &[u8], out: &mut [u8]) -> u32 {
        byte_calls::unpack(packed, out)
    }

    fn convert(l: u32, groups: &[u32], out: &mut [u8]) -> u32 {
        byte_calls::convert(l, groups, out)
    }

    fn change_side(side: u32, table: &[u8], out: &mut [u8]) -> u32 {
        byte_calls::change_side(side, table, out)
    }

    fn unify(side: u32, table: &[u8], left: &[u8], right: &[u8], out: &mut [u8]) -> u32 {
        byte_calls::unify(side, table, left, right, out)
    }

    fn start(side: u32, table: &[u8]) -> Running {
        byte_calls::start(side, table)
    }

    fn step(state: &mut Running, variable: u32, term: &[u8]) -> u32 {
        byte_calls::step(state, variable, term)
    }

    fn equal(first: &[u8], second: &[u8], answer: &mut u32) -> u32 {
        answer_with(equal(first, second), answer)
    }

    fn independent(table: &[u8], first: u32, second: u32, answer: &mut u32) -> u32 {
        answer_with(independent(table, first, second), answer)
    }

    fn ground(table: &[u8], variable: u32, answer: &mut u32) -> u32 {
        byte_calls::ground(Side::Positive.number(), table, variable, answer)
    }

    fn reason(table: &[u8], variable: u32, term: &[u8], group: u32, answer: &mut [u32; 3]) -> u32 {
        let [verdict, x_entry, t_entry] = answer;
        byte_calls::reason(table, variable, term, group, verdict, x_entry, t_entry)
    }

    fn entries(state: &Running) -> usize {
        state.table.entries.len()
    }

    fn numbers(state: &Running) -> Vec<u64> {
        let table = &state.table;
        let mut numbers = vec![state.code, state.side, state.applied, table.l];
        numbers.push(table.entries.len() as u32);
        let words: [fn(&Entry) -> u32; 2] = [|entry| entry.care, |entry| entry.value];
        for word in words {
            let past = ENTRIES - table.entries.len();
            numbers.extend(table.entries.iter().map(word));
            numbers.extend(std::iter::repeat_n(0, past));
        }
        numbers.into_iter().map(u64::from).collect()
    }
}

/// Whether two tables of one side stand for the same groups.
fn equal(first: &[u8], second: &[u8]) -> Result<bool, Refusal> {
    let (first, second) = (read_table(first)?, read_table(second)?);
    if first.l != second.l {
        return Err(Refusal::Unlike);
    }
    match first.l {
        ..=WIDE => Ok(enumeration::equal(first.l, &first.entries, &second.entries)),
        _ => questions::equal(&first, &second),
    }
}

/// Whether two sets of variables are independent in a negative table.
fn independent(table: &[u8], first: u32, second: u32) -> Result<bool, Refusal> {
    let table = read_table(table)?;
    if (first | second) & !low_bits(table.l) != 0 {
        return Err(Refusal::Name);
    }
    let (l, entries) = (table.l, &table.entries);
    match l {
        ..=WIDE => Ok(enumeration::independent_negative(l, entries, first, second)),
        _ => questions::independent(Side::Negative, &table, first, second),
    }
}

/// Writes an accepted answer, 1 for yes and 0 for no.
fn answer_with(outcome: Result<bool, Refusal>, answer: &mut u32) -> u32 {
    if let Ok(yes) = outcome {
        *answer = u32::from(yes);
    }
    number_of(&outcome)
}
