//! One call with all that it is given, and what comes of it.

use reference::forms::table_length;
use reference::packed::packed_length;
use support::library::State;
use support::tables::{form_entries, form_width};

/// The exported calls.
#[derive(Clone, Copy, Debug, PartialEq, Eq, PartialOrd, Ord)]
pub enum Call {
    Read,
    Pack,
    Unpack,
    Convert,
    ChangeSide,
    Equation,
    Unify,
    Join,
    Project,
    Equal,
    Ground,
    Independent,
    Reason,
    Smaller,
    Run,
    UnifyRun,
    Start,
    Step,
    UnifyStep,
    Write,
}

impl Call {
    /// All calls, in the order of the C header.
    pub const ALL: [Call; 20] = [
        Call::Read,
        Call::Pack,
        Call::Unpack,
        Call::Convert,
        Call::ChangeSide,
        Call::Equation,
        Call::Unify,
        Call::Join,
        Call::Project,
        Call::Equal,
        Call::Ground,
        Call::Independent,
        Call::Reason,
        Call::Smaller,
        Call::Run,
        Call::UnifyRun,
        Call::Start,
        Call::Step,
        Call::UnifyStep,
        Call::Write,
    ];

    /// The C name.
    pub fn name(self) -> &'static str {
        match self {
            Call::Read => "sharing_read",
            Call::Pack => "sharing_pack",
            Call::Unpack => "sharing_unpack",
            Call::Convert => "sharing_convert",
            Call::ChangeSide => "sharing_change_side",
            Call::Equation => "sharing_equation",
            Call::Unify => "sharing_unify",
            Call::Join => "sharing_join",
            Call::Project => "sharing_project",
            Call::Equal => "sharing_equal",
            Call::Ground => "sharing_ground",
            Call::Independent => "sharing_independent",
            Call::Reason => "sharing_reason",
            Call::Smaller => "sharing_smaller",
            Call::Run => "sharing_run",
            Call::UnifyRun => "sharing_unify_run",
            Call::Start => "sharing_start",
            Call::Step => "sharing_step",
            Call::UnifyStep => "sharing_unify_step",
            Call::Write => "sharing_write",
        }
    }

    /// Whether the call writes the form of a table, plain or packed, into a lent output.
    pub fn writes_form(self) -> bool {
        use Call::*;
        matches!(
            self,
            Read | Pack | Unpack | Convert | ChangeSide | Equation | Unify | Join | Project | Write
        )
    }

    /// The length of the form that the call wrote to the front of an output.
    pub fn written(self, out: &[u8]) -> usize {
        match self {
            Call::Pack => packed_length(form_width(out), form_entries(out)),
            _ => table_length(form_width(out), form_entries(out)),
        }
    }

    /// Whether the call answers yes or no.
    pub fn asks(self) -> bool {
        matches!(self, Call::Equal | Call::Ground | Call::Independent)
    }

    /// Whether the call sets two terms equal that it is given as bytes.
    pub fn takes_two_terms(self) -> bool {
        matches!(self, Call::Unify | Call::UnifyStep)
    }

    /// Whether the call is given equations.
    pub fn takes_equations(self) -> bool {
        self.takes_two_terms()
            || matches!(
                self,
                Call::Equation | Call::Reason | Call::Step | Call::Run | Call::UnifyRun
            )
    }

    /// Whether the call is given a state.
    pub fn takes_state(self) -> bool {
        matches!(self, Call::Step | Call::UnifyStep | Call::Write)
    }

    /// Whether what the call does goes by a side.
    pub fn has_side(self) -> bool {
        use Call::*;
        !matches!(
            self,
            Read | Pack | Unpack | Convert | Equal | Reason | Smaller | Write
        )
    }
}

/// A call and all that it is given; what the call does not take stays empty.
#[derive(Clone)]
pub struct Case {
    pub call: Call,
    /// The side; of a step the state has it.
    pub side: u32,
    /// The l of a conversion, the variable, the kept set or the first set.
    pub word: u32,
    /// The second set, or the group.
    pub other: u32,
    /// The table, in the form that the call reads, or the words of a conversion.
    pub first: Vec<u8>,
    /// The second table, the term, the left one of two terms or the equations.
    pub second: Vec<u8>,
    /// The right one of two terms.
    pub third: Vec<u8>,
    /// What the output or the words for the answer hold before the call.
    pub out: Vec<u8>,
    /// The state of a running analysis.
    pub state: Option<Box<State>>,
}

impl Case {
    /// A call that is given nothing yet.
    pub fn new(call: Call) -> Case {
        Case {
            call,
            side: 0,
            word: 0,
            other: 0,
            first: Vec::new(),
            second: Vec::new(),
            third: Vec::new(),
            out: Vec::new(),
            state: None,
        }
    }

    /// Whether the side is the negative one.
    pub fn is_negative(&self) -> bool {
        let side = self.state.as_ref().map_or(self.side, |state| state.side);
        self.call.has_side() && side != 0
    }

    /// The l of the table that the call is given, as long as that is undamaged.
    pub fn l(&self) -> u32 {
        match &self.state {
            Some(state) => state.table.l,
            None if self.call == Call::Convert => self.word,
            None => form_width(&self.first),
        }
    }

    /// The length of output that the call needs, by its outcome: any form has its sizes.
    pub fn needed(&self, outcome: &Outcome) -> usize {
        match outcome.number {
            0 => self.call.written(&outcome.out),
            _ => 4,
        }
    }
}

/// The part that the two-buffer call hands back.
#[derive(Clone, Copy, Debug, PartialEq, Eq)]
pub enum Part {
    /// The call hands back no part.
    None,
    /// An empty part: its place is not promised.
    Empty,
    /// So many bytes from a place of the first buffer on.
    First(usize, usize),
    /// The same of the second buffer.
    Second(usize, usize),
    /// A part that lies in neither buffer.
    Elsewhere(usize),
}

/// What comes of a call.
#[derive(Clone, PartialEq, Eq)]
pub struct Outcome {
    /// The number returned, or the code of a state returned.
    pub number: u32,
    /// The whole output or the words for the answer after the call.
    pub out: Vec<u8>,
    pub part: Part,
    /// The state returned, or the lent one after the call.
    pub state: Option<Box<State>>,
}
