//! Calls on bytes of any value, and valid calls with a few bytes or bits changed.

use crate::base::{base, base_to_damage};
use crate::case::{Call, Case};
use crate::ledger::rows;
use crate::tester::Tester;
use reference::forms::{table_length, word_length};
use reference::packed::packed_length;
use support::tables::Size;
use support::{Checked, Random};

/// How many calls of each kind, for each kind of noise.
const TIMES: usize = 3000;

/// All calls on noise.
pub fn check(tester: &mut Tester) -> Checked<()> {
    let mut random = Random::new(6);
    for (call, negative) in rows() {
        for _ in 0..TIMES {
            let mut case = base(call, negative, Size::Light, &mut random);
            make_noise(&mut case, &mut random);
            tester.check(&case)?;
            let mut case = base_to_damage(call, negative, &mut random);
            for _ in 0..random.within(1, 3) {
                change(&mut case, &mut random);
            }
            tester.check(&case)?;
        }
    }
    Ok(())
}

/// Replaces all that the call is given by noise.
fn make_noise(case: &mut Case, random: &mut Random) {
    case.word = small_or_any(random);
    case.other = small_or_any(random);
    match case.call {
        Call::Convert => {}
        Call::Unpack => case.first = packed_noise(random),
        _ => case.first = noise(random),
    }
    case.second = noise(random);
    case.third = noise(random);
    if case.call.writes_form() {
        let len = random.below(80);
        case.out = random.bytes(len);
    }
    if let Some(state) = &mut case.state {
        state.table.l = small_or_any(random);
        state.table.n = random.below(12);
        for k in 0..random.below(12) {
            state.table.care[k] = small_or_any(random);
            state.table.value[k] = state.table.care[k] & random.word();
        }
    }
}

/// A number that is often a valid one.
fn small_or_any(random: &mut Random) -> u32 {
    let any = random.word();
    let small = random.below(34) as u32;
    random.pick(&[small, small, small, any])
}

/// Bytes of any value, often with small sizes in front that may fit the length.
fn noise(random: &mut Random) -> Vec<u8> {
    let (l, n) = (random.below(34), random.below(6));
    let any = random.below(60);
    let len = random.pick(&[table_length(l as u32, n), 4 + 4 * n, 2 * n, any]);
    let mut bytes = random.bytes(len);
    if len >= 4 && random.percent(80) {
        bytes[..4].copy_from_slice(&[l as u8, 0, n as u8, 0]);
    }
    if random.percent(50) {
        // Small numbers in the high bytes, so that fewer words have a bit above l.
        let (high, word) = (random.pick(&[0, 0, 0x80]), word_length(l as u32));
        let tops = bytes.iter_mut().skip(3 + word).step_by(word);
        tops.for_each(|byte| *byte &= high);
    }
    bytes
}

/// The same for a packed form, often of bytes that few digits make.
fn packed_noise(random: &mut Random) -> Vec<u8> {
    let (l, n) = (random.below(34), random.below(6));
    let fitting = packed_length(l as u32, n);
    let any = random.below(30);
    let len = random.pick(&[fitting, fitting, fitting, any]);
    let limit = random.pick(&[3, 9, 81, 243, 256]);
    let mut bytes: Vec<u8> = (0..len).map(|_| random.below(limit) as u8).collect();
    if len >= 4 && random.percent(80) {
        bytes[..4].copy_from_slice(&[l as u8, 0, n as u8, 0]);
    }
    bytes
}

/// Changes one bit or byte of an input, its length, or one number.
fn change(case: &mut Case, random: &mut Random) {
    let row = match random.below(2) {
        0 if case.call != Call::Convert => &mut case.first,
        1 if case.call.takes_two_terms() && random.percent(50) => &mut case.third,
        _ => &mut case.second,
    };
    let place = random.below(row.len().max(1));
    match random.below(7) {
        0 | 1 if !row.is_empty() => row[place] ^= 1 << random.below(8),
        2 if !row.is_empty() => row[place] = random.word() as u8,
        3 if !row.is_empty() => drop(row.remove(place)),
        4 => row.insert(place, random.word() as u8),
        5 => case.word ^= 1 << random.below(32),
        _ => change_state(case, random),
    }
}

/// Changes one bit of a state's table, or of the second set where there is no state.
fn change_state(case: &mut Case, random: &mut Random) {
    let (k, bit) = (random.below(8), random.below(32));
    match &mut case.state {
        None => case.other ^= 1 << bit,
        Some(state) => match random.below(4) {
            0 => state.table.l ^= 1 << bit,
            1 => state.table.n ^= 1 << (2 * bit),
            2 => state.table.care[k] ^= 1 << bit,
            _ => state.table.value[k] ^= 1 << bit,
        },
    }
}
