//! The packed form of tables (02, "Five positions to a byte"): the sizes, then a row of bytes for
//! each entry. Rows are packed and unpacked for any l up to 32.

use crate::entry::Entry;
use crate::forms::{bytes_of, put, read_table_sizes};
use crate::growth::grown;
use crate::refusal::Refusal;
use crate::table::Table;

/// What the digits of a byte count, lowest position first.
const POWERS: [u8; 5] = [1, 3, 9, 27, 81];

/// The least byte that five digits do not make.
const NONE: u8 = 243;

/// The bytes that an entry of l positions takes.
pub fn row_length(l: u32) -> usize {
    (l as usize).div_ceil(POWERS.len())
}

/// The length in bytes of the packed form of a table with l variables and n entries.
pub fn packed_length(l: u32, n: usize) -> usize {
    4 + n * row_length(l)
}

/// The row of an entry: each byte is the sum of its digits times what they count.
pub fn pack_row(l: u32, entry: Entry) -> impl Iterator<Item = u8> {
    (0..l).step_by(POWERS.len()).map(move |first| {
        let digits = (first..l).map(|i| entry.digit(1 << i));
        digits.zip(POWERS).map(|(digit, power)| digit * power).sum()
    })
}

/// The entry of a row; 12 where a byte is 243 or more, or a digit past the l positions is not 0.
pub fn unpack_row(l: u32, row: &[u8]) -> Result<Entry, Refusal> {
    let mut entry = Entry::ALL_STAR;
    for (first, &byte) in (0..).step_by(POWERS.len()).zip(row) {
        for (i, digit) in (first..).zip(digits(byte)?) {
            if i < l {
                entry = entry.with_digit(1 << i, digit);
            } else if digit != 0 {
                return Err(Refusal::Digit);
            }
        }
    }
    Ok(entry)
}

/// The digits of a byte, lowest position first.
fn digits(byte: u8) -> Result<[u8; 5], Refusal> {
    if byte >= NONE {
        return Err(Refusal::Digit);
    }
    Ok(POWERS.map(|power| byte / power % 3))
}

/// Reads a packed form that has exactly its length: sizes present (1), 2, 3, length (1), 12 by
/// entry, then the entries are grown in order.
pub fn read_packed(bytes: &[u8]) -> Result<Table, Refusal> {
    let (l, n) = read_table_sizes(bytes)?;
    if bytes.len() != packed_length(l, n) {
        return Err(Refusal::Torn);
    }
    let rows = bytes[4..].chunks_exact(row_length(l));
    let entries: Vec<Entry> = rows
        .map(|row| unpack_row(l, row))
        .collect::<Result<_, _>>()?;
    Ok(Table {
        l,
        entries: grown(l, &[], entries)?,
    })
}

/// Writes a table's entries as they are and gives the length of the packed form. A table value
/// meets 2, 3 and 4, then 9 where the output is too short; a refusal writes nothing.
pub fn write_packed(table: &Table, out: &mut [u8]) -> Result<usize, Refusal> {
    table.check()?;
    let mut form = bytes_of([table.l as u16, table.entries.len() as u16]);
    let rows = table.entries.iter().map(|&entry| pack_row(table.l, entry));
    form.extend(rows.flatten());
    put(&form, out)
}
