//! One input on both sides: that they give the same, and how long they take.

use std::hint::black_box;
use std::time::Duration;

use reference::{byte_calls, Side};
use support::tables::{form_entries, LONGEST};

use crate::calls::Calls;
use crate::input::{Chain, Input};
use crate::ours::Ours;
use crate::plain::Plain;
use crate::timing::{least, Times};

/// What outputs and answers hold before a call, so that a byte too many is seen.
const UNTOUCHED: u8 = 0xa5;

/// What a call returned and left.
pub struct Outcome {
    /// 0 where the call was accepted, else the number of the refusal.
    pub number: u32,
    /// The entries of the table that it left; None for an answer and for an output that a refused
    /// call did not write.
    pub entries: Option<usize>,
    /// The whole of its output, state or answer.
    left: Vec<u64>,
}

/// What a call leaves: the output that was lent to it, a state or the words of an answer.
enum Left<'a, C: Calls> {
    Output(&'a [u8]),
    State(&'a C::State),
    Answer(&'a [u32]),
}

impl<C: Calls> Left<'_, C> {
    fn outcome(&self, number: u32) -> Outcome {
        let (entries, left) = match self {
            Left::Output(out) => (
                (number == 0).then(|| form_entries(out)),
                out.iter().map(|&byte| byte.into()).collect(),
            ),
            Left::State(state) => (Some(C::entries(state)), C::numbers(state)),
            Left::Answer(answer) => (None, answer.iter().map(|&word| word.into()).collect()),
        };
        Outcome {
            number,
            entries,
            left,
        }
    }
}

/// Makes the calls of an input in order, and shows what each returns and leaves: the calls that are
/// compared are the calls that are timed.
fn perform<C: Calls>(input: &Input, out: &mut [u8], mut see: impl FnMut(u32, Left<C>)) {
    match input {
        Input::Read { table } => {
            let number = C::read(table, out);
            see(number, Left::Output(out));
        }
        Input::Pack { table } => {
            let number = C::pack(table, out);
            see(number, Left::Output(out));
        }
        Input::Unpack { packed } => {
            let number = C::unpack(packed, out);
            see(number, Left::Output(out));
        }
        Input::Convert { l, groups } => {
            let number = C::convert(*l, groups, out);
            see(number, Left::Output(out));
        }
        Input::ChangeSide { table } => {
            let number = C::change_side(Side::Positive.number(), table, out);
            see(number, Left::Output(out));
        }
        Input::Unify { table, left, right } => {
            let number = C::unify(Side::Positive.number(), table, left, right, out);
            see(number, Left::Output(out));
        }
        Input::Chain(chain) => perform_chain(chain, see),
        Input::Equal { first, second } => {
            let mut answer = UNTOUCHED.into();
            let number = C::equal(first, second, &mut answer);
            see(number, Left::Answer(&[answer]));
        }
        Input::Independent { table, a, b } => {
            let mut answer = UNTOUCHED.into();
            let number = C::independent(table, *a, *b, &mut answer);
            see(number, Left::Answer(&[answer]));
        }
        Input::Ground { table, variable } => {
            let mut answer = UNTOUCHED.into();
            let number = C::ground(table, *variable, &mut answer);
            see(number, Left::Answer(&[answer]));
        }
        Input::Reason { table, step, group } => {
            let mut answer = [UNTOUCHED.into(); 3];
            let number = C::reason(table, step.variable, &step.term, *group, &mut answer);
            see(number, Left::Answer(&answer));
        }
    }
}

/// The same for a chain. A refused equation leaves the state as it was, and the next one goes on
/// from there.
fn perform_chain<C: Calls>(chain: &Chain, mut see: impl FnMut(u32, Left<C>)) {
    let mut state = C::start(chain.side.number(), &chain.table);
    see(0, Left::State(&state));
    for step in &chain.steps {
        let number = C::step(&mut state, step.variable, &step.term);
        see(number, Left::State(&state));
    }
}

/// What each call of an input gives, once both sides are seen to give the same; else how they
/// differ.
pub fn outcomes(input: &Input) -> Result<Vec<Outcome>, String> {
    let ours = side_outcomes::<Ours>(input);
    let plain = side_outcomes::<Plain>(input);
    for (i, (ours, plain)) in ours.iter().zip(&plain).enumerate() {
        if let Some(difference) = difference(ours, plain) {
            return Err(format!("call {}: {difference}", i + 1));
        }
    }
    match reference_answer(input) {
        Some(answer) if plain[0].left != [u64::from(answer)] => Err("the reference differs".into()),
        _ => Ok(ours),
    }
}

fn side_outcomes<C: Calls>(input: &Input) -> Vec<Outcome> {
    let mut outcomes = Vec::new();
    let mut out = [UNTOUCHED; LONGEST];
    perform::<C>(input, &mut out, |number, left| {
        outcomes.push(left.outcome(number));
    });
    outcomes
}

/// How two outcomes of a call differ, also in what a refused call left.
fn difference(ours: &Outcome, plain: &Outcome) -> Option<String> {
    if ours.number != plain.number {
        let (ours, plain) = (ours.number, plain.number);
        return Some(format!("ours returns {ours}, plain {plain}"));
    }
    let both = ours.left.iter().zip(&plain.left);
    let (k, (ours, plain)) = both.enumerate().find(|(_, (ours, plain))| ours != plain)?;
    Some(format!(
        "number {k} of what is left is {ours:#x} in ours, {plain:#x} in plain"
    ))
}

/// The answer of the reference to a question: up to 16 variables it is found in a third way.
fn reference_answer(input: &Input) -> Option<u32> {
    let mut answer = UNTOUCHED.into();
    match input {
        Input::Equal { first, second } => {
            byte_calls::equal(first, second, &mut answer);
        }
        Input::Independent { table, a, b } => {
            byte_calls::independent(Side::Negative.number(), table, *a, *b, &mut answer);
        }
        _ => return None,
    }
    Some(answer)
}

/// The time that each side takes for one pass over some inputs, in a round of about this length.
/// The other side is plain Rust, or ours on other inputs where they are given.
pub fn times(inputs: &[Input], beside: Option<&[Input]>, long: Duration) -> Times {
    let [mut out, mut other_out] = [[0; LONGEST]; 2];
    let ours = || turn::<Ours>(inputs, &mut out);
    match beside {
        None => least(long, ours, || turn::<Plain>(inputs, &mut other_out)),
        Some(beside) => least(long, ours, || turn::<Ours>(beside, &mut other_out)),
    }
}

/// One pass over some inputs, with one output for all of them.
fn turn<C: Calls>(inputs: &[Input], out: &mut [u8]) {
    for input in inputs {
        perform::<C>(black_box(input), out, |number, left| {
            black_box((number, left));
        });
    }
}
