//! The C interface, as include/sharing.h has it, and the running state of the plain side in its
//! layout.

use reference::{Entry, Refusal, Running, Table, ENTRIES};

/// `sharing_table`: entry k is `care[k]` and `value[k]`.
#[repr(C)]
#[derive(Clone, Copy, PartialEq, Eq)]
pub struct RawTable {
    pub l: u32,
    pub n: usize,
    pub care: [u32; ENTRIES],
    pub value: [u32; ENTRIES],
}

/// `sharing_running`.
#[repr(C)]
#[derive(Clone, Copy, PartialEq, Eq)]
pub struct State {
    pub code: u32,
    pub side: u32,
    pub applied: u32,
    pub table: RawTable,
}

/// `sharing_part`.
#[repr(C)]
#[derive(Clone, Copy)]
pub struct RawPart {
    pub ptr: *const u8,
    pub len: usize,
}

/// Bytes that a call reads.
pub type In = *const u8;
/// Bytes that a call writes.
pub type Out = *mut u8;

extern "C" {
    pub fn sharing_read(table: In, len: usize, out: Out, out_len: usize) -> u32;
    pub fn sharing_pack(table: In, len: usize, out: Out, out_len: usize) -> u32;
    pub fn sharing_unpack(packed: In, len: usize, out: Out, out_len: usize) -> u32;
    pub fn sharing_convert(l: u32, groups: *const u32, len: usize, out: Out, out_len: usize)
        -> u32;
    pub fn sharing_change_side(side: u32, table: In, len: usize, out: Out, out_len: usize) -> u32;
    pub fn sharing_equation(
        side: u32,
        table: In,
        len: usize,
        variable: u32,
        term: In,
        term_len: usize,
        out: Out,
        out_len: usize,
    ) -> u32;
    pub fn sharing_unify(
        side: u32,
        table: In,
        len: usize,
        left: In,
        left_len: usize,
        right: In,
        right_len: usize,
        out: Out,
        out_len: usize,
    ) -> u32;
    pub fn sharing_join(
        side: u32,
        first: In,
        first_len: usize,
        second: In,
        second_len: usize,
        out: Out,
        out_len: usize,
    ) -> u32;
    pub fn sharing_project(
        side: u32,
        table: In,
        len: usize,
        keep: u32,
        out: Out,
        out_len: usize,
    ) -> u32;
    pub fn sharing_equal(
        first: In,
        first_len: usize,
        second: In,
        second_len: usize,
        answer: *mut u32,
    ) -> u32;
    pub fn sharing_ground(side: u32, table: In, len: usize, variable: u32, answer: *mut u32)
        -> u32;
    pub fn sharing_independent(
        side: u32,
        table: In,
        len: usize,
        first: u32,
        second: u32,
        answer: *mut u32,
    ) -> u32;
    pub fn sharing_reason(
        table: In,
        len: usize,
        variable: u32,
        term: In,
        term_len: usize,
        group: u32,
        verdict: *mut u32,
        x_entry: *mut u32,
        t_entry: *mut u32,
    ) -> u32;
    pub fn sharing_smaller(
        positive: In,
        positive_len: usize,
        negative: In,
        negative_len: usize,
        part: *mut RawPart,
    );
    pub fn sharing_run(
        side: u32,
        table: In,
        len: usize,
        equations: In,
        equations_len: usize,
    ) -> State;
    pub fn sharing_unify_run(
        side: u32,
        table: In,
        len: usize,
        equations: In,
        equations_len: usize,
    ) -> State;
    pub fn sharing_start(side: u32, table: In, len: usize) -> State;
    pub fn sharing_step(state: *mut State, variable: u32, term: In, term_len: usize) -> u32;
    pub fn sharing_unify_step(
        state: *mut State,
        left: In,
        left_len: usize,
        right: In,
        right_len: usize,
    ) -> u32;
    pub fn sharing_write(state: *const State, out: Out, out_len: usize) -> u32;
}

impl RawTable {
    /// The arrays of a table of at most 256 entries, zero past the count.
    pub fn of(table: &Table) -> RawTable {
        let mut raw = RawTable {
            l: table.l,
            n: table.entries.len(),
            care: [0; ENTRIES],
            value: [0; ENTRIES],
        };
        for (k, &Entry { care, value }) in table.entries.iter().enumerate() {
            raw.care[k] = care;
            raw.value[k] = value;
        }
        raw
    }
}

impl State {
    /// The state of the plain side in the layout of the C interface.
    pub fn of(running: &Running) -> State {
        State {
            code: running.code,
            side: running.side,
            applied: running.applied,
            table: RawTable::of(&running.table),
        }
    }

    /// The state as the plain side has it, or what its table value meets: 2, 3, 4.
    pub fn running(&self) -> Result<Running, Refusal> {
        let RawTable { l, n, care, value } = &self.table;
        Ok(Running {
            code: self.code,
            side: self.side,
            applied: self.applied,
            table: Table::from_arrays(*l, *n, care, value)?,
        })
    }

    /// The bytes of all fields, without padding.
    pub fn bytes(&self) -> Vec<u8> {
        let words = [self.code, self.side, self.applied, self.table.l];
        let mut bytes: Vec<u8> = words.into_iter().flat_map(u32::to_le_bytes).collect();
        bytes.extend((self.table.n as u64).to_le_bytes());
        let rows = self.table.care.into_iter().chain(self.table.value);
        bytes.extend(rows.flat_map(u32::to_le_bytes));
        bytes
    }
}
