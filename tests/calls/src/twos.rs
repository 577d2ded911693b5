//! The two-buffer call: which part of which buffer it hands back.

use crate::case::{Call, Case};
use crate::tester::Tester;
use support::tables::form;
use support::{Checked, Random};

/// Forms with tails, in both orders: fewer, equal and more entries, one l and two.
pub fn check(tester: &mut Tester) -> Checked<()> {
    let mut random = Random::new(7);
    for _ in 0..12_000 {
        let mut case = Case::new(Call::Smaller);
        let l = random.width();
        let other = if random.percent(90) {
            l
        } else {
            random.width()
        };
        let n = count(&mut random);
        let m = if random.percent(30) {
            n
        } else {
            count(&mut random)
        };
        case.first = form(&random.table(l, n));
        case.second = form(&random.table(other, m));
        add_tail(&mut case.first, &mut random);
        add_tail(&mut case.second, &mut random);
        if random.percent(15) {
            cut(&mut case, &mut random);
        }
        tester.check(&case)?;
        std::mem::swap(&mut case.first, &mut case.second);
        tester.check(&case)?;
    }
    Ok(())
}

/// A count, mostly a small one, so that equal ones and neighbours meet often.
fn count(random: &mut Random) -> usize {
    let (few, any) = (random.below(5), random.below(257));
    random.pick(&[few, few, few, few, any, 256])
}

/// Bytes after a form; some of them would be further entries.
fn add_tail(bytes: &mut Vec<u8>, random: &mut Random) {
    let more = random.below(12);
    let tail = random.bytes(more);
    if random.percent(60) {
        bytes.extend(tail);
    }
}

/// Cuts one buffer short, somewhere in its form or its tail.
fn cut(case: &mut Case, random: &mut Random) {
    let row = match random.below(2) {
        0 => &mut case.first,
        _ => &mut case.second,
    };
    row.truncate(random.below(row.len() + 1));
}
