//! Reading and writing the forms, with refusals in the order of 01.

mod common;

use common::{equations_form, some_equation, table, text};
use reference::forms::{bytes_of, read_equations, read_front, read_table, read_tokens};
use reference::forms::{write_equations, write_table};
use reference::terms::head;
use reference::{Entry, Equation, Refusal, Table, ENTRIES};
use support::tables::form;
use support::Random;

/// Reads a row of words as the exact form of a table.
fn read_words(words: &[u16]) -> Result<Table, Refusal> {
    read_table(&bytes_of(words.iter().copied()))
}

/// Reads a row of words as equations about 3 variables.
fn read_equation_words(words: &[u16]) -> Result<Vec<Equation>, Refusal> {
    read_equations(3, &bytes_of(words.iter().copied()))
}

#[test]
fn tables_are_refused_in_order() {
    assert_eq!(read_table(&[]), Err(Refusal::Torn));
    assert_eq!(read_table(&[33, 0, 0]), Err(Refusal::Torn));
    assert_eq!(read_words(&[0, 257]), Err(Refusal::Width));
    assert_eq!(read_words(&[33, 257]), Err(Refusal::Width));
    assert_eq!(read_words(&[32, 257]), Err(Refusal::Entries));
    assert_eq!(read_words(&[2, 1, 4]), Err(Refusal::Torn));
    assert_eq!(read_words(&[2, 1, 4, 0, 0]), Err(Refusal::Torn));
    assert_eq!(read_words(&[2, 1, 4, 0]), Err(Refusal::Stray));
    assert_eq!(read_words(&[2, 1, 0, 4]), Err(Refusal::Stray));
    assert_eq!(read_words(&[2, 1, 1, 2]), Err(Refusal::Stray));
    assert_eq!(
        read_words(&[16, 1, 0xffff, 0x8000]).map(|t| text(&t)),
        Ok("0000000000000001".into())
    );
    assert_eq!(read_words(&[1, 0]), Ok(Table::empty(1)));
}

#[test]
fn reading_grows_the_entries() {
    let read = read_table(&form(&table(3, "100 000 01* 10* 011 ")));
    assert_eq!(read, Ok(table(3, "01* 10*")));
}

#[test]
fn more_may_follow_a_prefix() {
    let bytes = [form(&table(2, "01 1*")), vec![5, 6, 7]].concat();
    assert_eq!(read_front(&bytes), Ok((table(2, "01 1*"), &[5, 6, 7][..])));
    assert_eq!(read_front(&bytes[..11]), Err(Refusal::Torn));
    assert_eq!(read_table(&bytes), Err(Refusal::Torn));
}

#[test]
fn table_of_256_entries_is_taken() {
    let words = common::even_strings(256);
    let full = Table {
        l: 10,
        entries: words
            .iter()
            .map(|&word| Entry::of_group(10, word))
            .collect(),
    };
    assert_eq!(read_table(&form(&full)), Ok(full.clone()));
    let mut more = full;
    more.entries.push(Entry::of_group(10, 1));
    assert_eq!(more.check(), Err(Refusal::Entries));
}

#[test]
fn table_values_are_checked() {
    let (care, value) = ([0; ENTRIES], [0; ENTRIES]);
    assert_eq!(
        Table::from_arrays(32, 0, &care, &value),
        Ok(Table::empty(32))
    );
    assert_eq!(
        Table::from_arrays(33, 0, &care, &value),
        Err(Refusal::Width)
    );
    assert_eq!(
        Table::from_arrays(0, 300, &care, &value),
        Err(Refusal::Width)
    );
    assert_eq!(
        Table::from_arrays(2, 257, &care, &value),
        Err(Refusal::Entries)
    );
    let mut past = care;
    past[3] = 1;
    assert_eq!(Table::from_arrays(2, 3, &past, &value), Err(Refusal::Stray));
    assert!(Table::from_arrays(2, 4, &past, &value).is_ok());
    assert_eq!(Table::from_arrays(2, 4, &care, &past), Err(Refusal::Stray));
    assert_eq!(
        Table {
            l: 2,
            entries: vec![Entry { care: 4, value: 0 }]
        }
        .check(),
        Err(Refusal::Stray)
    );
}

#[test]
fn writing_keeps_the_rest_of_the_output() {
    let mut out = [0xa5; 10];
    assert_eq!(write_table(&table(2, "0*"), &mut out), Ok(8));
    assert_eq!(out, [2, 0, 1, 0, 1, 0, 0, 0, 0xa5, 0xa5]);
    assert_eq!(
        write_table(&table(2, "0* 11"), &mut out),
        Err(Refusal::Narrow)
    );
    assert_eq!(
        write_table(&table(33, "0* 11"), &mut out),
        Err(Refusal::Width)
    );
    assert_eq!(out, [2, 0, 1, 0, 1, 0, 0, 0, 0xa5, 0xa5]);
}

#[test]
fn equations_are_refused_in_order() {
    assert_eq!(read_equations(3, &[65, 0, 0]), Err(Refusal::Torn));
    assert_eq!(read_equation_words(&[65, 0]), Err(Refusal::Long));
    assert_eq!(read_equation_words(&[0, 1025]), Err(Refusal::Long));
    assert_eq!(read_equation_words(&[64, 1024]), Err(Refusal::Torn));
    assert_eq!(read_equation_words(&[0, 0, 0]), Err(Refusal::Torn));
    assert_eq!(read_equation_words(&[0, 0]), Ok(vec![]));
    assert_eq!(read_equation_words(&[0, 1, 1]), Err(Refusal::Term));
    assert_eq!(read_equation_words(&[1, 2, 9, 1, 9, 9]), Err(Refusal::Term));
    assert_eq!(read_equation_words(&[1, 1, 4, 1, 1]), Err(Refusal::Name));
    assert_eq!(
        read_equation_words(&[1, 1, 0x8001, 1, 1]),
        Err(Refusal::Name)
    );
    assert_eq!(read_equation_words(&[1, 1, 1, 1, 0]), Err(Refusal::Name));
    assert_eq!(read_equation_words(&[1, 2, 1, 2, 1, 4]), Err(Refusal::Name));
    assert_eq!(read_equation_words(&[1, 2, 1, 2, 1, 3]), Err(Refusal::Term));
    assert_eq!(
        read_equation_words(&[1, 1, 1, 1, head(0, 1)]),
        Err(Refusal::Term)
    );
    assert_eq!(read_equation_words(&[1, 0, 1, 0]), Err(Refusal::Term));
    assert_eq!(
        read_equation_words(&[2, 1, 1, 9, 0, 1, 4]),
        Err(Refusal::Term)
    );
}

#[test]
fn counts_are_summed_truly() {
    let words = [3, 1, 1, 1, 1, 0xffff, 1, 1, 1];
    assert_eq!(read_equation_words(&words), Err(Refusal::Term));
}

#[test]
fn terms_of_1024_tokens_are_taken() {
    let mut deep = vec![head(3, 1); 1023];
    deep.push(2);
    let equations = vec![Equation {
        left: 1,
        term: deep.clone(),
    }];
    assert_eq!(
        read_equations(3, &equations_form(&equations)),
        Ok(equations)
    );
    assert_eq!(read_tokens(&bytes_of(deep.clone())), Ok(deep.clone()));
    deep.push(2);
    assert_eq!(read_tokens(&bytes_of(deep.clone())), Err(Refusal::Long));
    let longer = [Equation {
        left: 1,
        term: deep,
    }];
    assert_eq!(
        read_equations(3, &equations_form(&longer)),
        Err(Refusal::Long)
    );
}

#[test]
fn written_equations_read_back() {
    for seed in 0..2000 {
        let mut random = Random::new(seed + 5);
        let l = random.width();
        let count = random.below(10);
        let equations: Vec<Equation> = (0..count).map(|_| some_equation(&mut random, l)).collect();
        let expected = equations_form(&equations);
        let mut out = vec![0; 4096];
        let length = write_equations(&equations, &mut out).expect("within the limits");
        assert_eq!(out[..length], expected);
        assert_eq!(
            write_equations(&equations, &mut out[..length - 1]),
            Err(Refusal::Narrow)
        );
        assert_eq!(read_equations(l, &expected), Ok(equations));
    }
}
