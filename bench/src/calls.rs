//! The calls that the rows time, on byte forms, as users make them. Both sides have them.

/// The calls of one side, as include/sharing.h has them. Each returns 0 where it is accepted, else
/// the number of the refusal, and then writes nothing.
pub trait Calls {
    /// A running analysis. The number of its start stands in it.
    type State;

    fn read(table: &[u8], out: &mut [u8]) -> u32;
    fn pack(table: &[u8], out: &mut [u8]) -> u32;
    fn unpack(packed: &[u8], out: &mut [u8]) -> u32;
    fn convert(l: u32, groups: &[u32], out: &mut [u8]) -> u32;
    fn change_side(side: u32, table: &[u8], out: &mut [u8]) -> u32;
    fn unify(side: u32, table: &[u8], left: &[u8], right: &[u8], out: &mut [u8]) -> u32;
    fn start(side: u32, table: &[u8]) -> Self::State;
    fn step(state: &mut Self::State, variable: u32, term: &[u8]) -> u32;
    fn equal(first: &[u8], second: &[u8], answer: &mut u32) -> u32;

    /// Of a negative table: the side that is harder to answer for.
    fn independent(table: &[u8], first: u32, second: u32, answer: &mut u32) -> u32;

    /// Of a positive table.
    fn ground(table: &[u8], variable: u32, answer: &mut u32) -> u32;

    /// The answer is the verdict, then the two entries.
    fn reason(table: &[u8], variable: u32, term: &[u8], group: u32, answer: &mut [u32; 3]) -> u32;

    /// The entries of the table of a state.
    fn entries(state: &Self::State) -> usize;

    /// All numbers of a state, to compare: code, side, applied, l and n, then 256 care words and
    /// 256 value words.
    fn numbers(state: &Self::State) -> Vec<u64>;
}
