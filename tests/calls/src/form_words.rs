//! The forms of tables on both sides of the width from which care and value words have 32 bits: cut
//! at every length, with wrong sizes, with words of the other width, and with each bit of a word.

use crate::base::short_base;
use crate::case::{Call, Case, Part};
use crate::faults::Which;
use crate::ledger::rows;
use crate::tester::Tester;
use reference::entry::low_bits;
use reference::forms::{add_words, bytes_of, form_of, table_words, word_length};
use reference::{Entry, ENTRIES, VARIABLES};
use support::tables::{form_entries, form_width, table_of, EDGES};
use support::{Checked, Random};

/// All of them, in every call that is given a table.
pub fn check(tester: &mut Tester) -> Checked<()> {
    let mut random = Random::new(13);
    for (call, negative) in rows() {
        for which in forms_of(call) {
            for l in EDGES {
                let case = short_base(call, negative, l, &mut random);
                each_length(tester, &case, which, &mut random)?;
                wrong_sizes(tester, &case, which)?;
                other_words(tester, &case, which)?;
            }
        }
        for l in [1, 15, 16, 17, 24, 31, 32] {
            for bit in 0..VARIABLES {
                let case = short_base(call, negative, l, &mut random);
                each_bit(tester, &case, bit, &mut random)?;
            }
        }
    }
    Ok(())
}

/// Which of the buffers of a call hold a plain form.
fn forms_of(call: Call) -> Vec<Which> {
    match call {
        Call::Convert | Call::Unpack | Call::Step | Call::UnifyStep | Call::Write => vec![],
        Call::Join | Call::Equal | Call::Smaller => vec![Which::First, Which::Second],
        _ => vec![Which::First],
    }
}

/// One of the forms of a call.
fn form_in(case: &Case, which: Which) -> &[u8] {
    match which {
        Which::First => &case.first,
        Which::Second => &case.second,
    }
}

/// The call with other bytes in place of it.
fn with_form(case: &Case, which: Which, bytes: &[u8]) -> Case {
    let mut case = case.clone();
    match which {
        Which::First => case.first = bytes.to_vec(),
        Which::Second => case.second = bytes.to_vec(),
    }
    case
}

/// Makes a call with one of its buffers replaced, which must answer the given number: of the
/// two-buffer call a part stands for 0, and none for any other.
fn answered(
    tester: &mut Tester,
    case: &Case,
    which: Which,
    bytes: &[u8],
    number: u32,
) -> Checked<()> {
    let case = with_form(case, which, bytes);
    if case.call != Call::Smaller {
        return tester.answered(&case, number).map(drop);
    }
    let empty = tester.check(&case)?.part == Part::Empty;
    match empty == (number != 0) {
        true => Ok(()),
        false => Err(format!("the two-buffer call, where {number} is due")),
    }
}

/// A form that is cut at every length, and one that is followed by more.
fn each_length(tester: &mut Tester, case: &Case, which: Which, random: &mut Random) -> Checked<()> {
    let form = form_in(case, which);
    let longer = [form, &random.bytes(9)].concat();
    for len in 0..=longer.len() {
        let whole = match case.call {
            Call::Smaller => len >= form.len(),
            _ => len == form.len(),
        };
        answered(tester, case, which, &longer[..len], u32::from(!whole))?;
    }
    Ok(())
}

/// Each size by itself. The two-buffer call may find a whole form in what follows the sizes.
fn wrong_sizes(tester: &mut Tester, case: &Case, which: Which) -> Checked<()> {
    let form = form_in(case, which);
    let (l, n) = (form_width(form) as u16, form_entries(form) as u16);
    let other = if l <= 16 { 17 } else { 16 };
    let (most, more) = (ENTRIES as u16, ENTRIES as u16 + 1);
    for (l, n, number) in [
        (0, n, 2),
        (33, n, 2),
        (64, n, 2),
        (0x100 | l, n, 2),
        (u16::MAX, n, 2),
        (0, more, 2),
        (33, more, 2),
        (l, more, 3),
        (l, 0x100 | n, 3),
        (l, u16::MAX, 3),
        (l, most, 1),
        (l, n + 1, 1),
        (l, n - 1, 1),
        (l, 2 * n, 1),
        (other, n, 1),
    ] {
        let bytes = [&bytes_of([l, n]), &form[4..]].concat();
        if case.call == Call::Smaller && number == 1 {
            tester.check(&with_form(case, which, &bytes))?;
        } else {
            answered(tester, case, which, &bytes, number)?;
        }
    }
    Ok(())
}

/// The same words with 32 bits where 16 are due, and with 16 where 32 are. In the two-buffer call
/// the longer one has a whole form in front.
fn other_words(tester: &mut Tester, case: &Case, which: Which) -> Checked<()> {
    let form = form_in(case, which);
    let l = form_width(form);
    let other = if l <= 16 { 17 } else { 16 };
    let mut bytes = form[..4].to_vec();
    add_words(&mut bytes, other, table_words(l, &form[4..]).into_iter());
    if case.call == Call::Smaller && other == 17 {
        return tester.check(&with_form(case, which, &bytes)).map(drop);
    }
    answered(tester, case, which, &bytes, 1)
}

/// One bit in both words of an entry, in its care word, and in its value word alone: above l it is
/// stray, and a value without care is.
fn each_bit(tester: &mut Tester, case: &Case, bit: u32, random: &mut Random) -> Checked<()> {
    let (l, bit) = (case.l(), 1 << bit);
    let inside = bit & low_bits(l) != 0;
    let edits: [fn(Entry, u32) -> Entry; 3] = [
        |entry, bit| entry.star(bit).with_digit(bit, 1),
        |entry, bit| entry.star(bit).with_digit(bit, 0),
        |entry, bit| Entry {
            value: entry.value | bit,
            ..entry.star(bit)
        },
    ];
    for (k, edit) in edits.into_iter().enumerate() {
        let number = if inside && k < 2 { 0 } else { 4 };
        let edit = |entry| edit(entry, bit);
        for which in forms_of(case.call) {
            let fits = bit & low_bits(8 * word_length(l) as u32);
            if fits != 0 {
                let form = with_entry(form_in(case, which), edit, random);
                answered(tester, case, which, &form, number)?;
            }
        }
        in_state(tester, case, edit, number, random)?;
    }
    Ok(())
}

/// A form with one of its entries changed.
fn with_entry(form: &[u8], edit: impl Fn(Entry) -> Entry, random: &mut Random) -> Vec<u8> {
    let mut table = table_of(form);
    let k = random.below(table.entries.len());
    table.entries[k] = edit(table.entries[k]);
    form_of(&table)
}

/// The same in the table of a state, where the call is given one.
fn in_state(
    tester: &mut Tester,
    case: &Case,
    edit: impl Fn(Entry) -> Entry,
    number: u32,
    random: &mut Random,
) -> Checked<()> {
    let mut case = case.clone();
    let Some(state) = &mut case.state else {
        return Ok(());
    };
    let table = &mut state.table;
    let k = random.below(table.n);
    let (care, value) = (table.care[k], table.value[k]);
    let edited = edit(Entry { care, value });
    (table.care[k], table.value[k]) = (edited.care, edited.value);
    tester.answered(&case, number).map(drop)
}
