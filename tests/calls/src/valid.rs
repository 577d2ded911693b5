//! Accepted calls on tables of all widths and counts, and outputs of every length around the
//! one that is needed.

use crate::base::base;
use crate::case::{Call, Case};
use crate::ledger::rows;
use crate::tester::Tester;
use support::tables::{Size, LONGEST};
use support::{Checked, Random};

/// How many calls of each kind on tables of each size: those that take long are fewer.
fn times(call: Call, negative: bool, size: Size) -> usize {
    let long = matches!(call, Call::Equation | Call::Step | Call::Run)
        || matches!(call, Call::Unify | Call::UnifyStep | Call::UnifyRun);
    let list = long || matches!(call, Call::ChangeSide | Call::Project);
    match size {
        Size::Light => 6000,
        Size::Wide if long => 300,
        Size::Wide if list && negative => 300,
        Size::Wide => 1000,
        Size::Any if long => 60,
        Size::Any if list || call.asks() || call == Call::Reason => 150,
        Size::Any => 1500,
    }
}

/// Calls as they are.
pub fn check(tester: &mut Tester) -> Checked<()> {
    let mut random = Random::new(2);
    for (call, negative) in rows() {
        for size in [Size::Light, Size::Wide, Size::Any] {
            for _ in 0..times(call, negative, size) {
                let case = base(call, negative, size, &mut random);
                tester.check(&case)?;
            }
        }
    }
    Ok(())
}

/// Calls with outputs of other lengths.
pub fn check_lengths(tester: &mut Tester) -> Checked<()> {
    let mut random = Random::new(4);
    for (call, negative) in rows().filter(|(call, _)| call.writes_form()) {
        for k in 0..100 {
            let size = if k % 10 == 0 { Size::Wide } else { Size::Light };
            let case = base(call, negative, size, &mut random);
            outputs(tester, case, &mut random)?;
        }
    }
    for call in [
        Call::Read,
        Call::Pack,
        Call::Unpack,
        Call::Write,
        Call::Convert,
    ] {
        for _ in 0..60 {
            let case = base(call, false, Size::Any, &mut random);
            outputs(tester, case, &mut random)?;
        }
    }
    Ok(())
}

/// One call with outputs of no bytes, of a few, of about as many as it needs, and of as many as
/// the longest form needs.
fn outputs(tester: &mut Tester, mut case: Case, random: &mut Random) -> Checked<()> {
    let outcome = tester.check(&case)?;
    let needed = case.needed(&outcome);
    let near = needed.saturating_sub(6)..needed + 7;
    for len in (0..6).chain(near).chain(LONGEST - 1..LONGEST + 2) {
        case.out = random.bytes(len);
        tester.check(&case)?;
    }
    Ok(())
}
