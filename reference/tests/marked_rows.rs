//! The rows marked for proof in 01, a to j; row f as 02, "A variable set equal to itself", has it.

mod common;

use common::{entry, group_words, table, text};
use reference::growth::grow;
use reference::operations::{change_side, convert, equation, projection};
use reference::questions::{equal, ground};
use reference::terms::head;
use reference::{Side, Table, VARIABLES};

/// The positive table of an equation, as text.
fn after(given: &Table, variable: u32, term: &[u16]) -> Table {
    equation(Side::Positive, given, variable, term).expect("accepted")
}

/// The table of row c.
fn row_c_table() -> Table {
    convert(3, &group_words("100 010 011 001")).expect("accepted")
}

/// The table of row d: c, then X1 = f(X2).
fn row_d_table() -> Table {
    after(&row_c_table(), 1, &[head(1, 1), 2])
}

/// The table of row e: d, then X3 = a.
fn row_e_table() -> Table {
    after(&row_d_table(), 3, &[head(2, 0)])
}

#[test]
fn row_a_or() {
    assert_eq!(entry("0").or(entry("*")), entry("*"));
    assert_eq!(entry("*").or(entry("0")), entry("*"));
    assert_eq!(entry("1").or(entry("*")), entry("1"));
    assert_eq!(entry("*").or(entry("1")), entry("1"));
}

#[test]
fn row_b_grow_subsumed() {
    let mut list = vec![entry("10*")];
    assert_eq!(grow(3, &mut list, entry("100")), Ok(()));
    assert_eq!(list, [entry("10*")]);
}

#[test]
fn row_c_convert() {
    assert_eq!(text(&row_c_table()), "100 01* 0*1");
}

#[test]
fn row_d_equation() {
    assert_eq!(text(&row_d_table()), "001 11*");
}

#[test]
fn row_e_ground_term() {
    assert_eq!(text(&row_e_table()), "110");
    assert_eq!(ground(Side::Positive, &row_e_table(), 3), Ok(true));
    assert_eq!(ground(Side::Positive, &row_e_table(), 1), Ok(false));
}

#[test]
fn row_f_variable_with_itself() {
    assert_eq!(text(&after(&table(3, "110 101"), 1, &[1])), "110 101");
}

#[test]
fn row_g_change_of_side() {
    assert_eq!(
        text(&change_side(&row_c_table()).expect("accepted")),
        "11* 1*1"
    );
}

#[test]
fn row_h_projection() {
    let projected = projection(Side::Positive, &row_d_table(), 0b011).expect("accepted");
    assert_eq!(projected, table(2, "11"));
}

#[test]
fn row_i_equal_in_groups() {
    assert_eq!(equal(&table(2, "0* 1*"), &table(2, "**")), Ok(true));
    assert_eq!(equal(&table(2, "0* 11"), &table(2, "**")), Ok(false));
}

#[test]
fn row_j_empty_positive() {
    for l in 1..=VARIABLES {
        let empty = Table::empty(l);
        let last = l as u16;
        for term in [
            vec![1],
            vec![last],
            vec![head(7, 0)],
            vec![head(7, 2), 1, last],
        ] {
            assert_eq!(after(&empty, 1, &term), empty);
            assert_eq!(after(&empty, l, &term), empty);
        }
    }
}
