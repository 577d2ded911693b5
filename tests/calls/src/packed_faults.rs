//! Faults in the packed form of a table.

use crate::faults::Fault;
use crate::form_faults::too_many;
use reference::packed::row_length;
use support::Random;

/// Puts a fault into a packed form of l variables that has an entry, unused digits and the length
/// that its sizes give.
pub fn put(fault: Fault, l: u32, bytes: &mut Vec<u8>, random: &mut Random) {
    let (sizes, rows) = bytes.split_at_mut(4);
    let length = row_length(l);
    let n = rows.len() / length;
    match fault {
        Fault::PackedByte => {
            let any = random.within(243, 255) as u8;
            rows[random.below(n * length)] = random.pick(&[243, 255, any]);
        }
        Fault::UnusedDigit => {
            let last = length * random.within(1, n) - 1;
            let positions = l - 5 * (length as u32 - 1);
            rows[last] = random.within(3usize.pow(positions), 242) as u8;
        }
        _ => {
            let many = too_many(n, random);
            let again = rows.iter().copied().cycle().take(many * length);
            let count = (many as u16).to_le_bytes();
            *bytes = sizes[..2]
                .iter()
                .copied()
                .chain(count)
                .chain(again)
                .collect();
        }
    }
}
