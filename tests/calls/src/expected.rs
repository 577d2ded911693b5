//! The outcome of each call by the plain implementation.

use crate::case::{Call, Case, Outcome, Part};
use reference::byte_calls;
use reference::running::Running;
use support::library::State;

/// What the call should give.
pub fn expected(case: &Case) -> Outcome {
    match case.call {
        Call::Smaller => smaller(case),
        Call::Run => returned(&byte_calls::run(case.side, &case.first, &case.second)),
        Call::UnifyRun => returned(&byte_calls::unify_run(case.side, &case.first, &case.second)),
        Call::Start => returned(&byte_calls::start(case.side, &case.first)),
        Call::Step | Call::UnifyStep => step(case),
        Call::Reason => reason(case),
        call if call.asks() => question(case),
        _ => writer(case),
    }
}

/// A call that writes a form.
fn writer(case: &Case) -> Outcome {
    let Case {
        side, word, first, ..
    } = case;
    let mut out = case.out.clone();
    let number = match case.call {
        Call::Read => byte_calls::read(first, &mut out),
        Call::Pack => byte_calls::pack(first, &mut out),
        Call::Unpack => byte_calls::unpack(first, &mut out),
        Call::Convert => byte_calls::convert(*word, &words(first), &mut out),
        Call::ChangeSide => byte_calls::change_side(*side, first, &mut out),
        Call::Equation => byte_calls::equation(*side, first, *word, &case.second, &mut out),
        Call::Unify => byte_calls::unify(*side, first, &case.second, &case.third, &mut out),
        Call::Join => byte_calls::join(*side, first, &case.second, &mut out),
        Call::Project => byte_calls::project(*side, first, *word, &mut out),
        _ => match state_of(case).running() {
            Ok(running) => byte_calls::write(&running, &mut out),
            Err(refusal) => refusal.number(),
        },
    };
    Outcome {
        number,
        out,
        part: Part::None,
        state: case.state.clone(),
    }
}

/// A question: the word for the answer is the output.
fn question(case: &Case) -> Outcome {
    let mut answer = words(&case.out)[0];
    let number = match case.call {
        Call::Equal => byte_calls::equal(&case.first, &case.second, &mut answer),
        Call::Ground => byte_calls::ground(case.side, &case.first, case.word, &mut answer),
        _ => byte_calls::independent(case.side, &case.first, case.word, case.other, &mut answer),
    };
    of_words(number, &[answer])
}

/// The reason behind a group: its three words are the output.
fn reason(case: &Case) -> Outcome {
    let mut answer = words(&case.out);
    let [verdict, x_entry, t_entry] = &mut answer[..] else {
        panic!("the call is given three words");
    };
    let number = byte_calls::reason(
        &case.first,
        case.word,
        &case.second,
        case.other,
        verdict,
        x_entry,
        t_entry,
    );
    of_words(number, &answer)
}

fn of_words(number: u32, answer: &[u32]) -> Outcome {
    Outcome {
        number,
        out: answer.iter().flat_map(|word| word.to_le_bytes()).collect(),
        part: Part::None,
        state: None,
    }
}

/// The two-buffer call; the plain one returns a part of one of the same two buffers.
fn smaller(case: &Case) -> Outcome {
    let part = byte_calls::smaller(&case.first, &case.second);
    let part = match part.len() {
        0 => Part::Empty,
        len if part.as_ptr() == case.first.as_ptr() => Part::First(0, len),
        len => Part::Second(0, len),
    };
    Outcome {
        number: 0,
        out: Vec::new(),
        part,
        state: None,
    }
}

/// One step of a running analysis: a table that was damaged from outside is refused, and after
/// any refusal the whole state is as it was.
fn step(case: &Case) -> Outcome {
    let given = *state_of(case);
    match given.running() {
        Ok(mut running) => {
            let number = match case.call {
                Call::Step => byte_calls::step(&mut running, case.word, &case.second),
                _ => byte_calls::unify_step(&mut running, &case.second, &case.third),
            };
            of_state(number, State::of(&running))
        }
        Err(refusal) => of_state(refusal.number(), given),
    }
}

/// A state that a call returns; its number is the state's code.
fn returned(running: &Running) -> Outcome {
    of_state(running.code, State::of(running))
}

fn of_state(number: u32, state: State) -> Outcome {
    Outcome {
        number,
        out: Vec::new(),
        part: Part::None,
        state: Some(Box::new(state)),
    }
}

/// The state that a call on one is given.
pub fn state_of(case: &Case) -> &State {
    case.state.as_ref().expect("the call is given a state")
}

/// The 32-bit words of a row of bytes.
pub fn words(bytes: &[u8]) -> Vec<u32> {
    bytes
        .chunks_exact(4)
        .map(|four| u32::from_le_bytes([four[0], four[1], four[2], four[3]]))
        .collect()
}
