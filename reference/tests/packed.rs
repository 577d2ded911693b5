//! Rows of five positions to a byte, and the packed form with its refusals in order.

mod common;

use common::{entry, some_table, table};
use reference::entry::low_bits;
use reference::forms::read_table;
use reference::packed::{pack_row, packed_length, read_packed, row_length};
use reference::packed::{unpack_row, write_packed};
use reference::{Entry, Refusal, Table, VARIABLES};
use support::tables::{form, packed};
use support::Random;

/// The row of an entry.
fn row(l: u32, entry: Entry) -> Vec<u8> {
    pack_row(l, entry).collect()
}

/// All strings of l positions.
fn strings(l: u32) -> Vec<Entry> {
    let digits = |mut number: u32| {
        let mut string = Entry::ALL_STAR;
        for i in 0..l {
            string = string.with_digit(1 << i, (number % 3) as u8);
            number /= 3;
        }
        string
    };
    (0..3u32.pow(l)).map(digits).collect()
}

#[test]
fn rows_by_hand() {
    assert_eq!(row(1, entry("0")), [0]);
    assert_eq!(row(1, entry("1")), [1]);
    assert_eq!(row(1, entry("*")), [2]);
    assert_eq!(row(3, entry("01*")), [3 + 2 * 9]);
    assert_eq!(row(5, entry("10*01")), [1 + 2 * 9 + 81]);
    assert_eq!(row(5, entry("*****")), [242]);
    assert_eq!(row(6, entry("00000*")), [0, 2]);
    assert_eq!(row(11, entry("*****111111")), [242, 121, 1]);
    assert_eq!(row(16, entry("0000100001000011")), [81, 81, 81, 1]);
    assert_eq!(row(32, Entry::ALL_STAR), [242, 242, 242, 242, 242, 242, 8]);
}

#[test]
fn row_lengths() {
    for (l, length) in [(1, 1), (5, 1), (6, 2), (10, 2), (11, 3), (16, 4), (17, 4)] {
        assert_eq!(row_length(l), length);
    }
    assert_eq!((row_length(30), row_length(31), row_length(32)), (6, 7, 7));
    assert_eq!((packed_length(16, 256), packed_length(3, 0)), (1028, 4));
    assert_eq!(
        (packed_length(17, 256), packed_length(32, 256)),
        (1028, 1796)
    );
}

/// An entry packed and unpacked is the same: all of up to 8 positions, some of more.
#[test]
fn unpacking_a_packed_entry() {
    for l in 1..=8 {
        for string in strings(l) {
            assert_eq!(unpack_row(l, &row(l, string)), Ok(string));
        }
    }
    let mut random = Random::new(31);
    for l in 1..=VARIABLES {
        for stars in [0, 20, 50, 80, 100] {
            let string = random.string(l, stars);
            assert_eq!(row(l, string).len(), row_length(l));
            assert_eq!(unpack_row(l, &row(l, string)), Ok(string));
        }
        for string in [Entry::zeros_at(low_bits(l)), Entry::ones_at(low_bits(l))] {
            assert_eq!(unpack_row(l, &row(l, string)), Ok(string));
        }
    }
}

/// A good row unpacked and packed is the same, and there are as many good rows as entries: all
/// rows of one and two bytes.
#[test]
fn packing_an_unpacked_row() {
    for l in 1..=10 {
        let mut good = 0;
        for number in 0..256u32.pow(row_length(l) as u32) {
            let bytes = &number.to_le_bytes()[..row_length(l)];
            if let Ok(string) = unpack_row(l, bytes) {
                assert!(!string.is_stray(l));
                assert_eq!(row(l, string), bytes);
                good += 1;
            }
        }
        assert_eq!(good, 3u32.pow(l));
    }
}

/// Of each byte of a row exactly the values are good that its positions can make.
#[test]
fn each_byte_of_a_row() {
    let mut random = Random::new(32);
    for l in 1..=VARIABLES {
        for place in 0..row_length(l) {
            let positions = (l - 5 * place as u32).min(5);
            for byte in 0..=u8::MAX {
                let mut bytes = row(l, random.string(l, 30));
                bytes[place] = byte;
                let unpacked = unpack_row(l, &bytes);
                if u32::from(byte) < 3u32.pow(positions) {
                    assert_eq!(unpacked.map(|string| row(l, string)), Ok(bytes));
                } else {
                    assert_eq!(unpacked, Err(Refusal::Digit));
                }
            }
        }
    }
}

#[test]
fn packed_forms_are_refused_in_order() {
    assert_eq!(read_packed(&[]), Err(Refusal::Torn));
    assert_eq!(read_packed(&[33, 0, 1]), Err(Refusal::Torn));
    assert_eq!(read_packed(&[0, 0, 1, 1, 255]), Err(Refusal::Width));
    assert_eq!(read_packed(&[33, 0, 1, 1, 255]), Err(Refusal::Width));
    assert_eq!(read_packed(&[1, 1, 1, 1, 255]), Err(Refusal::Width));
    assert_eq!(read_packed(&[32, 0, 1, 1, 255]), Err(Refusal::Entries));
    assert_eq!(read_packed(&[5, 0, 2, 0, 255]), Err(Refusal::Torn));
    assert_eq!(read_packed(&[5, 0, 0, 0, 255]), Err(Refusal::Torn));
    assert_eq!(read_packed(&[6, 0, 1, 0, 255]), Err(Refusal::Torn));
    assert_eq!(read_packed(&[5, 0, 2, 0, 0, 243]), Err(Refusal::Digit));
    assert_eq!(read_packed(&[4, 0, 2, 0, 81, 0]), Err(Refusal::Digit));
    assert_eq!(read_packed(&[6, 0, 1, 0, 0, 3]), Err(Refusal::Digit));
    assert_eq!(
        read_packed(&[32, 0, 1, 0, 0, 0, 0, 0, 0, 0, 9]),
        Err(Refusal::Digit)
    );
    assert_eq!(
        read_packed(&[32, 0, 1, 0, 0, 0, 0, 0, 0, 0]),
        Err(Refusal::Torn)
    );
    assert_eq!(
        read_packed(&[32, 0, 1, 0, 0, 0, 0, 0, 0, 0, 3]).map(|table| table.entries),
        Ok(vec![Entry::of_group(32, 1 << 31)])
    );
    assert_eq!(read_packed(&[1, 0, 0, 0]), Ok(Table::empty(1)));
    assert_eq!(read_packed(&[5, 0, 1, 0, 242]), Ok(Table::all_star(5)));
}

#[test]
fn reading_grows_the_entries() {
    let read = read_packed(&packed(&table(3, "100 000 01* 10* 011")));
    assert_eq!(read, Ok(table(3, "01* 10*")));
}

#[test]
fn writing_keeps_the_rest_of_the_output() {
    let mut out = [0xa5; 8];
    assert_eq!(write_packed(&table(6, "01****"), &mut out), Ok(6));
    let written = [6, 0, 1, 0, 3 + 2 * (9 + 27 + 81), 2, 0xa5, 0xa5];
    assert_eq!(out, written);
    let longer = write_packed(&table(6, "000001 000010 000011"), &mut out);
    assert_eq!(longer, Err(Refusal::Narrow));
    assert_eq!(
        write_packed(&Table::empty(33), &mut out),
        Err(Refusal::Width)
    );
    assert_eq!(out, written);
}

/// A packed form reads as the plain form of the same entries does, and is shorter.
#[test]
fn packed_and_plain_read_alike() {
    for seed in 0..2000 {
        let mut random = Random::new(seed + 33);
        let l = random.width();
        let given = some_table(&mut random, l, 40);
        let read = read_packed(&packed(&given));
        assert_eq!(read, read_table(&form(&given)));
        let read = read.expect("reads");
        assert_eq!(read_packed(&packed(&read)), Ok(read));
        assert!(packed(&given).len() <= form(&given).len());
    }
}
