//! Faults in the form of a table.

use crate::faults::Fault;
use reference::forms::{form_of, word_length};
use reference::{Entry, Table, ENTRIES};
use support::tables::table_of;
use support::Random;

/// Puts a fault into a form that has its sizes and the length that they give, or is longer.
pub fn put(fault: Fault, bytes: &mut Vec<u8>, random: &mut Random) {
    match fault {
        Fault::Count(_) => *bytes = overfull(bytes, random),
        Fault::StrayBit(_) | Fault::StrayValue(_) => {
            let mut table = table_of(bytes);
            make_stray(matches!(fault, Fault::StrayBit(_)), &mut table, random);
            *bytes = form_of(&table);
        }
        Fault::Width(_) => {
            let l = u16::from(bytes[0]);
            let width = random.pick(&[0, 0, 33, 33, 64, 0x100 | l, 0x8000 | l, u16::MAX]);
            bytes[..2].copy_from_slice(&width.to_le_bytes());
        }
        Fault::Short(_) => {
            let any = random.within(4, bytes.len() - 1);
            let least = bytes.len() - 1;
            bytes.truncate(random.pick(&[least, least - 1, any]).max(4));
        }
        Fault::Long(_) => {
            let any = random.within(1, 40);
            let more = random.pick(&[1, 2, 4, any]);
            bytes.extend(random.bytes(more));
        }
        _ => bytes.truncate(random.below(4)),
    }
}

/// A form of more than 256 entries that has the length its sizes give: the entries of the given
/// form again and again.
fn overfull(bytes: &[u8], random: &mut Random) -> Vec<u8> {
    let Table { l, entries } = table_of(bytes);
    let n = too_many(entries.len(), random);
    let entries = entries.into_iter().cycle().take(n).collect();
    form_of(&Table { l, entries })
}

/// A count above 256 in place of a good one.
pub fn too_many(good: usize, random: &mut Random) -> usize {
    let any = ENTRIES + random.within(2, 40);
    match random.below(400) {
        0 => usize::from(u16::MAX),
        1..=99 => any,
        // The low byte is the good count.
        100..=119 => 2 * ENTRIES + good,
        _ => ENTRIES + 1,
    }
}

/// A bit above l in one entry, or a value without care.
fn make_stray(above: bool, table: &mut Table, random: &mut Random) {
    let (l, n) = (table.l as usize, table.entries.len());
    let any = random.below(n);
    let Entry { care, value } = &mut table.entries[random.pick(&[0, n - 1, any])];
    if above {
        let bit = 1 << random.within(l, 8 * word_length(table.l) - 1);
        *care |= bit;
        *value |= random.pick(&[0, bit]);
    } else {
        let bit = 1 << random.below(l);
        *care &= !bit;
        *value |= bit;
    }
}
