//! Each fault of each call alone, and every two that can stand together.

use crate::case::{Call, Outcome, Part};
use crate::faults::{damaged, faults_of, Fault};
use crate::full::Full;
use crate::ledger::rows;
use crate::tester::Tester;
use support::{Checked, Random};

/// How often each fault stands alone, and each two together.
const ALONE: usize = 200;
const TOGETHER: usize = 60;

/// All faults and pairs of faults.
pub fn check(tester: &mut Tester, full: &Full) -> Checked<()> {
    let mut random = Random::new(3);
    for row in rows() {
        let faults = faults_of(row.0, row.1);
        for (k, &fault) in faults.iter().enumerate() {
            for _ in 0..ALONE {
                check_faults(tester, row, &[fault], full, &mut random)?;
            }
            let later = faults[k + 1..].iter();
            for &other in later.filter(|&&other| fault.goes_with(other)) {
                for _ in 0..TOGETHER {
                    let answered = check_faults(tester, row, &[fault, other], full, &mut random)?;
                    tester.ledger.enter_pair(row, (fault, other), answered);
                }
            }
        }
    }
    Ok(())
}

/// Makes a call with some faults: it must be refused by the number of one of them.
fn check_faults(
    tester: &mut Tester,
    row: (Call, bool),
    faults: &[Fault],
    full: &Full,
    random: &mut Random,
) -> Checked<u32> {
    let case = damaged(row, faults, full, random);
    let Outcome { number, part, .. } = tester.check(&case)?;
    let numbers = || faults.iter().map(|fault| fault.number());
    match row.0 {
        Call::Smaller if part == Part::Empty => Ok(number),
        Call::Smaller => Err(format!("{faults:?} in {row:?} gave a part")),
        _ if numbers().any(|one| one == number) => Ok(number),
        _ => Err(format!("{faults:?} in {row:?} gave {number}")),
    }
}
