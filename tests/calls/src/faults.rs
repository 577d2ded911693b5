//! Ways to damage a call, each with the number that it is refused by where it stands alone.

use crate::base::{base_to_damage, give_terms};
use crate::case::{Call, Case};
use crate::expected::expected;
use crate::full::Full;
use crate::{form_faults, packed_faults, term_faults, word_faults};
use reference::VARIABLES;
use support::tables::form;
use support::Random;

/// One of the two tables of a call.
#[derive(Clone, Copy, Debug, PartialEq, Eq, PartialOrd, Ord)]
pub enum Which {
    First,
    Second,
}

/// The faults, in the order in which they are put into a call: those that choose what the call
/// is given stand first, those that cut what others write stand last.
#[derive(Clone, Copy, Debug, PartialEq, Eq, PartialOrd, Ord)]
pub enum Fault {
    /// The call needs entry 257.
    Full,
    /// The second table has another l.
    Unlike,
    /// The output is shorter than the undamaged call needs.
    Narrow,
    Variable,
    Set,
    Keep,
    /// The group has a bit above l.
    GroupStray,
    /// The group has no variable.
    GroupNone,
    ConvertWidth,
    ConvertStray,
    StateCount,
    StateStray,
    StateTail,
    TermLong,
    TermToken,
    /// The tokens end within the term.
    TermPart,
    /// Tokens follow the term.
    TermRest,
    TermNone,
    TermOdd,
    /// The same in the right one of two terms; those above are in the left one, or in both.
    RightToken,
    RightPart,
    RightRest,
    RightNone,
    RightOdd,
    ManyEquations,
    EquationLeft,
    EquationToken,
    EquationPart,
    EquationRest,
    EquationNone,
    ManyTokens,
    EquationSum,
    EquationsShort,
    EquationsLong,
    EquationsSizes,
    Count(Which),
    StrayBit(Which),
    StrayValue(Which),
    /// A packed byte of 243 or more.
    PackedByte,
    /// An unused digit that is not 0.
    UnusedDigit,
    Width(Which),
    Short(Which),
    Long(Which),
    Sizes(Which),
    StateWidth,
}

use Fault::*;

impl Fault {
    /// The number of the refusal.
    pub fn number(self) -> u32 {
        match self {
            Short(_) | Long(_) | Sizes(_) | TermOdd | RightOdd => 1,
            EquationsShort | EquationsLong | EquationsSizes => 1,
            Width(_) | ConvertWidth | StateWidth => 2,
            Count(_) | StateCount => 3,
            StrayBit(_) | StrayValue(_) | ConvertStray | StateStray | StateTail | GroupStray => 4,
            Variable | Set | TermToken | RightToken | EquationLeft | EquationToken => 5,
            TermPart | TermRest | TermNone | RightPart | RightRest | RightNone => 6,
            EquationPart | EquationRest | EquationNone | EquationSum => 6,
            TermLong | ManyEquations | ManyTokens => 7,
            Full => 8,
            Narrow => 9,
            Unlike => 10,
            Keep | GroupNone => 11,
            PackedByte | UnusedDigit => 12,
        }
    }

    /// Whether two faults can stand in one call at the same time; the first is before the second.
    pub fn goes_with(self, later: Fault) -> bool {
        match (self, later) {
            (Full, Unlike) => false,
            (StateCount, StateTail) | (GroupStray, GroupNone) => false,
            (TermLong | TermToken | TermPart | TermRest, TermNone) => false,
            (TermLong | RightToken | RightPart | RightRest, RightNone) => false,
            // The rest could be the argument that is missing.
            (TermPart, TermRest) | (RightPart, RightRest) => false,
            (EquationPart, EquationRest) => false,
            (EquationsShort, EquationsLong) => false,
            (earlier, EquationsSizes) => !earlier.is_of_equations(),
            (Short(a), Long(b)) => a != b,
            (earlier, Sizes(which)) => earlier.table() != Some(which),
            _ => true,
        }
    }

    fn is_of_equations(self) -> bool {
        (ManyEquations..EquationsSizes).contains(&self)
    }

    /// The table whose form the fault is in.
    fn table(self) -> Option<Which> {
        match self {
            Count(which) | StrayBit(which) | StrayValue(which) | Width(which) | Short(which)
            | Long(which) | Sizes(which) => Some(which),
            PackedByte | UnusedDigit => Some(Which::First),
            _ => None,
        }
    }
}

/// The faults that a call can be damaged by, in order.
pub fn faults_of(call: Call, negative: bool) -> Vec<Fault> {
    let mut faults = own_faults(call, negative);
    let both = matches!(call, Call::Join | Call::Equal | Call::Smaller);
    if call != Call::Convert && !call.takes_state() {
        faults.extend(table_faults(call, Which::First));
    }
    if both {
        faults.extend(table_faults(call, Which::Second));
    }
    faults.sort();
    faults
}

/// The faults of a table's form. More may follow it in the two-buffer call.
fn table_faults(call: Call, which: Which) -> Vec<Fault> {
    let mut faults = [Count, Width, Short, Sizes].map(|f| f(which)).to_vec();
    match call {
        Call::Unpack => faults.extend([PackedByte, UnusedDigit]),
        _ => faults.extend([StrayBit(which), StrayValue(which)]),
    }
    if call != Call::Smaller {
        faults.push(Long(which));
    }
    faults
}

/// The faults of a call that are in no table's form.
fn own_faults(call: Call, negative: bool) -> Vec<Fault> {
    let term = [TermLong, TermToken, TermPart, TermRest, TermNone, TermOdd];
    let right = [RightToken, RightPart, RightRest, RightNone, RightOdd];
    let state = [StateCount, StateStray, StateTail, StateWidth];
    match call {
        Call::Read | Call::Pack | Call::Unpack => vec![Narrow],
        Call::Convert => vec![Full, Narrow, ConvertWidth, ConvertStray],
        Call::ChangeSide => vec![Full, Narrow],
        Call::Equation => [&[Full, Narrow, Variable], &term[..]].concat(),
        Call::Unify => [&[Full, Narrow], &term[..], &right[..]].concat(),
        Call::Join => vec![Full, Narrow, Unlike],
        Call::Project if negative => vec![Full, Narrow, Keep],
        Call::Project => vec![Narrow, Keep],
        Call::Equal | Call::Smaller => vec![Unlike],
        Call::Ground => vec![Variable],
        Call::Independent => vec![Set],
        Call::Reason => [&[Variable, GroupStray, GroupNone], &term[..]].concat(),
        Call::Run => [&[EquationLeft], &equation_faults()[..]].concat(),
        Call::UnifyRun => equation_faults(),
        Call::Start => vec![],
        Call::Step => [&[Full, Variable], &term[..], &state[..]].concat(),
        Call::UnifyStep => [&[Full], &term[..], &right[..], &state[..]].concat(),
        Call::Write => [&[Narrow], &state[..]].concat(),
    }
}

/// The faults of a form of equations. Where these have two terms, a fault is in either.
fn equation_faults() -> Vec<Fault> {
    vec![
        Full,
        ManyEquations,
        ManyTokens,
        EquationToken,
        EquationPart,
        EquationRest,
        EquationNone,
        EquationSum,
        EquationsShort,
        EquationsLong,
        EquationsSizes,
    ]
}

/// A call with the given faults, which are in order.
pub fn damaged(
    (call, negative): (Call, bool),
    faults: &[Fault],
    full: &Full,
    random: &mut Random,
) -> Case {
    let mut case = match faults.first() {
        Some(Full) => full.case(call, negative, random),
        _ => base_to_damage(call, negative, random),
    };
    let l = case.l();
    for &fault in faults {
        put(fault, l, &mut case, random);
    }
    case
}

/// Puts one fault into a call whose table had l variables before any fault.
pub fn put(fault: Fault, l: u32, case: &mut Case, random: &mut Random) {
    match fault {
        Full => {}
        Unlike => make_unlike(l, case, random),
        Narrow => make_narrow(case, random),
        Variable | Set | Keep | GroupStray | GroupNone | ConvertWidth | ConvertStray => {
            word_faults::put(fault, l, case, random);
        }
        StateCount | StateStray | StateTail | StateWidth => {
            let state = case.state.as_mut().expect("the call is given a state");
            word_faults::put_in_table(fault, l, &mut state.table, random);
        }
        Count(_) | PackedByte | UnusedDigit if case.call == Call::Unpack => {
            packed_faults::put(fault, l, &mut case.first, random);
        }
        Count(which) | StrayBit(which) | StrayValue(which) | Width(which) | Short(which)
        | Long(which) | Sizes(which) => {
            let bytes = match which {
                Which::First => &mut case.first,
                Which::Second => &mut case.second,
            };
            form_faults::put(fault, bytes, random);
        }
        TermLong if case.call.takes_two_terms() => {
            give_terms(case, &term_faults::long_terms(l, random));
        }
        TermLong | TermToken | TermPart | TermRest | TermNone | TermOdd => {
            term_faults::put(fault, l, &mut case.second, random);
        }
        RightToken | RightPart | RightRest | RightNone | RightOdd => {
            term_faults::put(fault, l, &mut case.third, random);
        }
        _ if case.call == Call::UnifyRun => {
            term_faults::put_in_term_equations(fault, l, &mut case.second, random);
        }
        _ => term_faults::put_in_equations(fault, l, &mut case.second, random),
    }
}

/// Gives the call a second table of another l.
fn make_unlike(l: u32, case: &mut Case, random: &mut Random) {
    // With room for a bit above l.
    let others = (1..VARIABLES).filter(|&other| other != l && other != 16);
    let other = random.pick(&others.collect::<Vec<_>>());
    let n = random.within(1, 6);
    case.second = form(&random.table(other, n));
}

/// Cuts the output to less than the form that the call would write.
fn make_narrow(case: &mut Case, random: &mut Random) {
    let needed = case.needed(&expected(case));
    let nearly = needed - 1;
    let any = random.below(needed);
    case.out.truncate(random.pick(&[0, nearly, any]));
}
