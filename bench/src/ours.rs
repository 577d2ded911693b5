//! The verified side: the exported calls of libanalyser.a, wrapped in safe functions.

use reference::Side;
use support::library::*;

use crate::calls::Calls;

/// The verified side.
pub struct Ours;

// SAFETY of each call below: a pointer and a length are those of one slice; the borrows say that
// nothing overlaps what is written; any numbers make a state.
impl Calls for Ours {
    type State = State;

    fn read(table: &[u8], out: &mut [u8]) -> u32 {
        unsafe { sharing_read(table.as_ptr(), table.len(), out.as_mut_ptr(), out.len()) }
    }

    fn pack(table: &[u8], out: &mut [u8]) -> u32 {
        unsafe { sharing_pack(table.as_ptr(), table.len(), out.as_mut_ptr(), out.len()) }
    }

    fn unpack(packed: &[u8], out: &mut [u8]) -> u32 {
        unsafe { sharing_unpack(packed.as_ptr(), packed.len(), out.as_mut_ptr(), out.len()) }
    }

    fn convert(l: u32, groups: &[u32], out: &mut [u8]) -> u32 {
        let (groups, len) = (groups.as_ptr(), groups.len());
        unsafe { sharing_convert(l, groups, len, out.as_mut_ptr(), out.len()) }
    }

    fn change_side(side: u32, table: &[u8], out: &mut [u8]) -> u32 {
        let (table, len) = (table.as_ptr(), table.len());
        unsafe { sharing_change_side(side, table, len, out.as_mut_ptr(), out.len()) }
    }

    fn unify(side: u32, table: &[u8], left: &[u8], right: &[u8], out: &mut [u8]) -> u32 {
        let (table, len) = (table.as_ptr(), table.len());
        let (left, left_len) = (left.as_ptr(), left.len());
        let (right, right_len) = (right.as_ptr(), right.len());
        let (out, out_len) = (out.as_mut_ptr(), out.len());
        unsafe {
            sharing_unify(
                side, table, len, left, left_len, right, right_len, out, out_len,
            )
        }
    }

    fn start(side: u32, table: &[u8]) -> State {
        unsafe { sharing_start(side, table.as_ptr(), table.len()) }
    }

    fn step(state: &mut State, variable: u32, term: &[u8]) -> u32 {
        unsafe { sharing_step(state, variable, term.as_ptr(), term.len()) }
    }

    fn equal(first: &[u8], second: &[u8], answer: &mut u32) -> u32 {
        let (second, second_len) = (second.as_ptr(), second.len());
        unsafe { sharing_equal(first.as_ptr(), first.len(), second, second_len, answer) }
    }

    fn independent(table: &[u8], first: u32, second: u32, answer: &mut u32) -> u32 {
        let (side, table, len) = (Side::Negative.number(), table.as_ptr(), table.len());
        unsafe { sharing_independent(side, table, len, first, second, answer) }
    }

    fn ground(table: &[u8], variable: u32, answer: &mut u32) -> u32 {
        let (side, table, len) = (Side::Positive.number(), table.as_ptr(), table.len());
        unsafe { sharing_ground(side, table, len, variable, answer) }
    }

    fn reason(table: &[u8], variable: u32, term: &[u8], group: u32, answer: &mut [u32; 3]) -> u32 {
        let (table, len) = (table.as_ptr(), table.len());
        let (term, term_len) = (term.as_ptr(), term.len());
        let [verdict, x, t] = answer;
        unsafe { sharing_reason(table, len, variable, term, term_len, group, verdict, x, t) }
    }

    fn entries(state: &State) -> usize {
        state.table.n
    }

    fn numbers(state: &State) -> Vec<u64> {
        let table = &state.table;
        let mut numbers = [state.code, state.side, state.applied, table.l]
            .map(u64::from)
            .to_vec();
        numbers.push(table.n as u64);
        let words = table.care.iter().chain(&table.value);
        numbers.extend(words.map(|&word| u64::from(word)));
        numbers
    }
}
