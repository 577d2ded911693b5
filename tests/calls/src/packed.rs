//! Packed forms: every byte in every place, every length of form and output, and the way there
//! and back.

use crate::base::base_on;
use crate::case::{Call, Case, Outcome};
use crate::tester::Tester;
use reference::packed::row_length;
use reference::{Table, VARIABLES};
use support::tables::{form, packed, Size, LONGEST};
use support::{Checked, Random};

/// How many tables of each size go there and back.
const TIMES: usize = 800;

/// All tests of packed forms.
pub fn check(tester: &mut Tester) -> Checked<()> {
    let mut random = Random::new(10);
    for l in 1..=VARIABLES {
        each_byte(tester, l, &mut random)?;
        for n in [0, 1, 2, 7] {
            for call in [Call::Pack, Call::Unpack] {
                let table = random.table(l, n);
                let case = base_on(call, false, Size::Light, &table, &mut random);
                each_length(tester, case.clone(), &mut random)?;
                each_output(tester, case, &mut random)?;
            }
        }
    }
    for size in [Size::Light, Size::Wide, Size::Any] {
        for _ in 0..TIMES {
            let (l, n) = random.shape(size);
            there_and_back(tester, &random.table(l, n), &mut random)?;
        }
    }
    Ok(())
}

/// Every byte in every place of a first, a middle and a last row. Those are good that the
/// positions of the place can make: with fewer than five, any other has an unused digit.
fn each_byte(tester: &mut Tester, l: u32, random: &mut Random) -> Checked<()> {
    for place in 0..3 * row_length(l) {
        let before = 5 * (place % row_length(l)) as u32;
        let positions = (l - before).min(5);
        for byte in 0..=u8::MAX {
            let table = random.table(l, 3);
            let mut case = base_on(Call::Unpack, false, Size::Light, &table, random);
            case.first[4 + place] = byte;
            let good = u32::from(byte) < 3u32.pow(positions);
            tester.answered(&case, if good { 0 } else { 12 })?;
        }
    }
    Ok(())
}

/// A form that is cut at every length, and one that is followed by more.
fn each_length(tester: &mut Tester, mut case: Case, random: &mut Random) -> Checked<()> {
    let length = case.first.len();
    let longer = [case.first, random.bytes(9)].concat();
    for len in 0..=longer.len() {
        case.first = longer[..len].to_vec();
        tester.answered(&case, u32::from(len != length))?;
    }
    Ok(())
}

/// Outputs of every length up to some bytes more than are needed.
fn each_output(tester: &mut Tester, mut case: Case, random: &mut Random) -> Checked<()> {
    let outcome = tester.answered(&case, 0)?;
    let needed = case.needed(&outcome);
    for len in 0..needed + 9 {
        case.out = random.bytes(len);
        tester.answered(&case, if len < needed { 9 } else { 0 })?;
    }
    Ok(())
}

/// Packed and unpacked, a table gives what reading it writes, and reads as the same table;
/// unpacked and packed, it gives the packed form of what was read.
fn there_and_back(tester: &mut Tester, table: &Table, random: &mut Random) -> Checked<()> {
    let plain = form(table);
    let read = written(tester, Call::Read, plain.clone(), random)?;
    let there = written(tester, Call::Pack, plain.clone(), random)?;
    let back = written(tester, Call::Unpack, there.clone(), random)?;
    let unpacked = written(tester, Call::Unpack, packed(table), random)?;
    let again = written(tester, Call::Pack, unpacked.clone(), random)?;
    let given = start(tester, plain)?;
    let returned = start(tester, back.clone())?;
    if back == read && unpacked == read && again == there && returned == given {
        Ok(())
    } else {
        Err(format!("{table:?} packed and unpacked is another table"))
    }
}

/// What an accepted call on one form writes.
pub fn written(
    tester: &mut Tester,
    call: Call,
    bytes: Vec<u8>,
    random: &mut Random,
) -> Checked<Vec<u8>> {
    let mut case = Case::new(call);
    case.first = bytes;
    case.out = random.bytes(LONGEST);
    let mut out = tester.answered(&case, 0)?.out;
    out.truncate(call.written(&out));
    Ok(out)
}

/// The running analysis that starts from a form.
fn start(tester: &mut Tester, bytes: Vec<u8>) -> Checked<Outcome> {
    let mut case = Case::new(Call::Start);
    case.first = bytes;
    tester.answered(&case, 0)
}
