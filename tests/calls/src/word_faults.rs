//! Faults in the numbers that a call is given, and in the table of a state.

use crate::case::Case;
use crate::faults::Fault;
use reference::entry::low_bits;
use reference::{ENTRIES, VARIABLES};
use support::library::RawTable;
use support::Random;

/// A variable that is not one of X1 to Xl. Some of them are one of those in their low 15 or 16 bits.
fn no_variable(l: u32, random: &mut Random) -> u32 {
    let some = random.within(1, l as usize) as u32;
    let above = l + 1 + random.below(1000) as u32;
    random.pick(&[0, l + 1, above, 0x8000 | some, 0x10000 | some, u32::MAX])
}

/// A word with bits above l, which is less than 32.
fn bits_above(l: u32, random: &mut Random) -> u32 {
    let any = random.word();
    let bits = random.pick(&[1 << l, 1 << 16, 1 << 31, any, u32::MAX]) & !low_bits(l);
    bits.max(1 << l)
}

/// A width outside 1 to 32.
fn no_width(l: u32, random: &mut Random) -> u32 {
    random.pick(&[0, 0, 33, 33, 64, 0x100 + l, 0x10000 + l, u32::MAX])
}

/// Puts a fault into the numbers of a call on tables of l variables.
pub fn put(fault: Fault, l: u32, case: &mut Case, random: &mut Random) {
    match fault {
        Fault::Variable => case.word = no_variable(l, random),
        Fault::Set => {
            let (above, set) = (bits_above(l, random) | random.set(l), random.set(l));
            (case.word, case.other) = random.pick(&[(above, set), (set, above), (above, above)]);
        }
        Fault::Keep => {
            let above = bits_above(l, random) | random.set(l);
            case.word = random.pick(&[0, above]);
        }
        Fault::GroupStray => case.other = bits_above(l, random) | random.set(l),
        Fault::GroupNone => case.other = 0,
        Fault::ConvertWidth => case.word = no_width(l, random),
        _ => {
            let (set, above) = (random.set(l), bits_above(l, random));
            let word = (set | above).to_le_bytes();
            let place = 4 * random.below(case.first.len() / 4 + 1);
            case.first.splice(place..place, word);
        }
    }
}

/// Puts a fault into the table of a state.
pub fn put_in_table(fault: Fault, l: u32, table: &mut RawTable, random: &mut Random) {
    let n = table.n;
    match fault {
        Fault::StateWidth => table.l = no_width(l, random),
        Fault::StateCount => {
            let wrapped = [1 << 16 | n, 1 << 32 | n, 1 << 63 | n, usize::MAX];
            table.n = random.pick(&[&[ENTRIES + 1; 3], &wrapped[..]].concat());
        }
        Fault::StateStray => {
            let k = random.below(n.min(ENTRIES));
            let bit = 1 << random.below(l as usize);
            match random.below(3) {
                0 if l < VARIABLES => table.care[k] |= bits_above(l, random),
                1 if l < VARIABLES => table.value[k] |= bits_above(l, random),
                _ => (table.care[k], table.value[k]) = (table.care[k] & !bit, bit),
            }
        }
        _ => {
            let any = random.within(n, ENTRIES - 1);
            let k = random.pick(&[n, any, ENTRIES - 1]);
            let bit = 1 << random.below(l as usize);
            match random.below(3) {
                0 => table.care[k] = bit,
                1 => table.value[k] = bit,
                _ => (table.care[k], table.value[k]) = (bit, bit),
            }
        }
    }
}
