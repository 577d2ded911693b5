//! The calls of libanalyser.a, made with guarded copies of all that a case lends.

use crate::case::{Call, Case, Outcome, Part};
use crate::expected::state_of;
use crate::guard::{Framed, Guarded};
use support::library::*;
use support::Random;

/// Makes the call. An error says which lent memory the call changed and must not.
pub fn perform(case: &Case, random: &mut Random) -> Result<Outcome, String> {
    match case.call {
        Call::Smaller => smaller(case, random),
        Call::Run | Call::UnifyRun | Call::Start => returner(case, random),
        call if call.takes_state() => on_state(case, random),
        Call::Reason => reason(case, random),
        call if call.asks() => question(case, random),
        _ => writer(case, random),
    }
}

/// A call on byte buffers that writes a form.
fn writer(case: &Case, random: &mut Random) -> Result<Outcome, String> {
    let mut first = match case.call {
        Call::Convert => Guarded::aligned(&case.first, random),
        _ => Guarded::new(&case.first, random),
    };
    let mut second = Guarded::new(&case.second, random);
    let mut third = Guarded::new(&case.third, random);
    let mut lent = Guarded::new(&case.out, random);
    let (a, n, b, m) = (first.ptr(), first.len(), second.ptr(), second.len());
    let (c, k) = (third.ptr(), third.len());
    let (out, out_len) = (lent.ptr(), lent.len());
    let (side, word) = (case.side, case.word);
    // SAFETY: each pointer and length are those of one buffer, no two buffers overlap, and the
    // words of a conversion are aligned.
    let number = unsafe {
        match case.call {
            Call::Read => sharing_read(a, n, out, out_len),
            Call::Pack => sharing_pack(a, n, out, out_len),
            Call::Unpack => sharing_unpack(a, n, out, out_len),
            Call::Convert => sharing_convert(word, a.cast(), n / 4, out, out_len),
            Call::ChangeSide => sharing_change_side(side, a, n, out, out_len),
            Call::Equation => sharing_equation(side, a, n, word, b, m, out, out_len),
            Call::Unify => sharing_unify(side, a, n, b, m, c, k, out, out_len),
            Call::Join => sharing_join(side, a, n, b, m, out, out_len),
            _ => sharing_project(side, a, n, word, out, out_len),
        }
    };
    inputs_kept(&[&first, &second, &third])?;
    outcome(number, &[lent], None)
}

/// A question: its answer is one word.
fn question(case: &Case, random: &mut Random) -> Result<Outcome, String> {
    let mut first = Guarded::new(&case.first, random);
    let mut second = Guarded::new(&case.second, random);
    let mut lent = Guarded::aligned(&case.out, random);
    let (a, n, b, m) = (first.ptr(), first.len(), second.ptr(), second.len());
    let (side, word, answer) = (case.side, case.word, lent.ptr().cast());
    // SAFETY: as above; the answer is one aligned word.
    let number = unsafe {
        match case.call {
            Call::Equal => sharing_equal(a, n, b, m, answer),
            Call::Ground => sharing_ground(side, a, n, word, answer),
            _ => sharing_independent(side, a, n, word, case.other, answer),
        }
    };
    inputs_kept(&[&first, &second])?;
    outcome(number, &[lent], None)
}

/// The reason behind a group: three words, each lent by itself.
fn reason(case: &Case, random: &mut Random) -> Result<Outcome, String> {
    let mut first = Guarded::new(&case.first, random);
    let mut second = Guarded::new(&case.second, random);
    let words = case.out.chunks_exact(4);
    let mut lent: Vec<Guarded> = words.map(|word| Guarded::aligned(word, random)).collect();
    let words: Vec<*mut u32> = lent.iter_mut().map(|word| word.ptr().cast()).collect();
    let (a, n, b, m) = (first.ptr(), first.len(), second.ptr(), second.len());
    let (variable, group) = (case.word, case.other);
    // SAFETY: as above; the three words are aligned.
    let number =
        unsafe { sharing_reason(a, n, variable, b, m, group, words[0], words[1], words[2]) };
    inputs_kept(&[&first, &second])?;
    outcome(number, &lent, None)
}

/// A call that returns a state by value.
fn returner(case: &Case, random: &mut Random) -> Result<Outcome, String> {
    let mut first = Guarded::new(&case.first, random);
    let mut second = Guarded::new(&case.second, random);
    let (a, n, b, m) = (first.ptr(), first.len(), second.ptr(), second.len());
    // SAFETY: each pointer and length are those of one buffer.
    let state = unsafe {
        match case.call {
            Call::Run => sharing_run(case.side, a, n, b, m),
            Call::UnifyRun => sharing_unify_run(case.side, a, n, b, m),
            _ => sharing_start(case.side, a, n),
        }
    };
    inputs_kept(&[&first, &second])?;
    outcome(state.code, &[], Some(Box::new(state)))
}

/// A call on a lent state.
fn on_state(case: &Case, random: &mut Random) -> Result<Outcome, String> {
    let mut state = Box::new(Framed::new(*state_of(case)));
    let mut second = Guarded::new(&case.second, random);
    let mut third = Guarded::new(&case.third, random);
    let mut lent = Guarded::new(&case.out, random);
    let (b, m, c, k) = (second.ptr(), second.len(), third.ptr(), third.len());
    let (out, out_len) = (lent.ptr(), lent.len());
    // SAFETY: as above; the state is whole, and any words make one.
    let number = unsafe {
        match case.call {
            Call::Step => sharing_step(&mut state.inner, case.word, b, m),
            Call::UnifyStep => sharing_unify_step(&mut state.inner, b, m, c, k),
            _ => sharing_write(&raw mut state.inner, out, out_len),
        }
    };
    inputs_kept(&[&second, &third])?;
    if !state.has_guards() {
        return Err("memory around the state was changed".into());
    }
    outcome(number, &[lent], Some(Box::new(state.inner)))
}

/// The two-buffer call. The part is a valid one before the call, of neither buffer.
fn smaller(case: &Case, random: &mut Random) -> Result<Outcome, String> {
    let mut first = Guarded::new(&case.first, random);
    let mut second = Guarded::new(&case.second, random);
    let mut nothing = Guarded::new(&[1, 2, 3], random);
    let mut part = Framed::new(RawPart {
        ptr: nothing.ptr(),
        len: random.below(4),
    });
    let (a, n, b, m) = (first.ptr(), first.len(), second.ptr(), second.len());
    // SAFETY: as above; the part is a whole struct.
    unsafe { sharing_smaller(a, n, b, m, &mut part.inner) };
    inputs_kept(&[&first, &second, &nothing])?;
    if !part.has_guards() {
        return Err("memory around the part was changed".into());
    }
    Ok(Outcome {
        number: 0,
        out: Vec::new(),
        part: placed(part.inner, (a, n), (b, m)),
        state: None,
    })
}

/// Says in which buffer a part lies, and where.
fn placed(part: RawPart, first: (Out, usize), second: (Out, usize)) -> Part {
    let within = |(ptr, len): (Out, usize)| {
        let start = (part.ptr as usize).wrapping_sub(ptr as usize);
        (start <= len && part.len <= len - start).then_some(start)
    };
    if part.len == 0 {
        return Part::Empty;
    }
    match (within(first), within(second)) {
        (Some(start), _) => Part::First(start, part.len),
        (_, Some(start)) => Part::Second(start, part.len),
        _ => Part::Elsewhere(part.len),
    }
}

/// Sees that buffers lent for reading are as they were.
fn inputs_kept(inputs: &[&Guarded]) -> Result<(), String> {
    if inputs.iter().all(|input| input.is_unchanged()) {
        Ok(())
    } else {
        Err("an input, or memory around it, was changed".into())
    }
}

/// Sees that the memory around each output is as it was, and takes what they hold.
fn outcome(number: u32, lent: &[Guarded], state: Option<Box<State>>) -> Result<Outcome, String> {
    if !lent.iter().all(Guarded::has_guards) {
        return Err("memory around the output was changed".into());
    }
    Ok(Outcome {
        number,
        out: lent.iter().flat_map(Guarded::content).copied().collect(),
        part: Part::None,
        state,
    })
}
