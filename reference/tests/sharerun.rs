//! The program's text, the run and the running analysis.

mod common;

use common::{equations_form, pairs_table, some_equation, some_table, table, JOINED, SIDES};
use reference::byte_calls::{run, start, step, write};
use reference::forms::{bytes_of, read_table};
use reference::terms::head;
use reference::{operations, report, Equation, Table};
use support::tables::form;
use support::Random;

/// The input words of the example in 01.
const EXAMPLE: [u16; 17] = [3, 3, 7, 3, 5, 1, 2, 4, 2, 3, 1, 3, 2, 1, 32785, 2, 32800];

/// The output of the example in 01.
const OUTPUT: &str = "\
vars 3 entries 3
100
01*
0*1
eq 1 entries 2
001
11*
eq 2 entries 1
110
";

/// A table on which X1 = X2 is full.
fn full_table() -> Table {
    pairs_table(257 - JOINED)
}

/// The equation X1 = X2.
fn pair_equation() -> Equation {
    Equation {
        left: 1,
        term: vec![2],
    }
}

/// The text of the program for an input of a table and equations.
fn text(table: &Table, equations: &[Equation]) -> String {
    report(&[form(table), equations_form(equations)].concat()).text
}

#[test]
fn example_byte_for_byte() {
    let report = report(&bytes_of(EXAMPLE));
    assert_eq!(report.text.as_bytes(), OUTPUT.as_bytes());
    assert_eq!((report.outcome.code, report.outcome.applied), (0, 2));
    assert_eq!(report.outcome.table, table(3, "110"));
}

#[test]
fn refused_inputs_print_the_number_alone() {
    let bytes = bytes_of(EXAMPLE);
    let text = |input: &[u8]| report(input).text;
    assert_eq!(text(&[]), "refused 1\n");
    assert_eq!(text(&bytes[..33]), "refused 1\n");
    assert_eq!(text(&[bytes.clone(), vec![0]].concat()), "refused 1\n");
    assert_eq!(text(&bytes_of([33, 0])), "refused 2\n");
    assert_eq!(text(&vec![33; 8192]), "refused 2\n");
    assert_eq!(text(&vec![33; 8193]), "refused 1\n");
    assert_eq!(text(&bytes_of([3, 257])), "refused 3\n");
    assert_eq!(text(&bytes_of([3, 1, 8, 0])), "refused 4\n");
    assert_eq!(text(&bytes_of([3, 0, 1, 1, 4, 1, 1])), "refused 5\n");
    assert_eq!(text(&bytes_of([3, 0, 1, 0, 1, 0])), "refused 6\n");
    assert_eq!(text(&bytes_of([3, 0, 65, 0])), "refused 7\n");
    assert_eq!(report(&bytes_of([33, 0])).outcome.table, Table::zero());
}

#[test]
fn no_equation_prints_the_table_read() {
    assert_eq!(
        text(&table(3, "000 1** 110"), &[]),
        "vars 3 entries 1\n1**\n"
    );
    assert_eq!(text(&Table::empty(16), &[]), "vars 16 entries 0\n");
    assert_eq!(text(&Table::empty(32), &[]), "vars 32 entries 0\n");
}

#[test]
fn full_equation_ends_the_run() {
    let given = full_table();
    let ground = Equation {
        left: 16,
        term: vec![head(0, 0)],
    };
    let equations = [ground.clone(), pair_equation(), ground];
    let text = text(&given, &equations);
    let entries: String = given
        .entries
        .iter()
        .map(|entry| entry.text(16) + "\n")
        .collect();
    let n = given.entries.len();
    assert_eq!(
        text,
        format!("vars 16 entries {n}\n{entries}eq 1 entries {n}\n{entries}eq 2 refused 8\n")
    );
    let state = run(0, &form(&given), &equations_form(&equations));
    assert_eq!((state.code, state.applied), (8, 1));
    assert_eq!(state.table, given);
}

#[test]
fn lists_below_257_are_not_full() {
    let state = run(
        0,
        &form(&pairs_table(256 - JOINED)),
        &equations_form(&[pair_equation()]),
    );
    assert_eq!(
        (state.code, state.applied, state.table.entries.len()),
        (0, 1, 256)
    );
    let full = common::even_strings(257);
    assert_eq!(
        operations::convert(10, &full[..256]).map(|t| t.entries.len()),
        Ok(256)
    );
    assert_eq!(
        operations::convert(10, &full).map_err(|refusal| refusal.number()),
        Err(8)
    );
}

#[test]
fn run_checks_the_whole_input_first() {
    let bad = Equation {
        left: 1,
        term: vec![17],
    };
    let state = run(
        0,
        &form(&full_table()),
        &equations_form(&[pair_equation(), bad]),
    );
    assert_eq!((state.code, state.applied), (5, 0));
    assert_eq!(state.table, Table::zero());
}

/// The run, the running analysis and the equation on values agree on both sides.
#[test]
fn run_and_running_analysis_agree() {
    for seed in 0..1000 {
        let mut random = Random::new(seed + 99);
        let l = random.within(1, 5) as u32;
        let bytes = form(&some_table(&mut random, l, 8));
        let equations: Vec<Equation> = (0..random.below(5))
            .map(|_| some_equation(&mut random, l))
            .collect();
        for side in SIDES {
            let mut state = start(side.number(), &bytes);
            let mut expected = read_table(&bytes).expect("reads");
            for equation in &equations {
                let left = u32::from(equation.left);
                assert_eq!(step(&mut state, left, &bytes_of(equation.term.clone())), 0);
                expected =
                    operations::equation(side, &expected, left, &equation.term).expect("accepted");
            }
            assert_eq!(
                state,
                run(side.number(), &bytes, &equations_form(&equations))
            );
            assert_eq!((state.code, state.applied as usize), (0, equations.len()));
            assert_eq!(state.table, expected);
            let mut out = vec![0; form(&expected).len()];
            assert_eq!(write(&state, &mut out), 0);
            assert_eq!(out, form(&expected));
        }
    }
}

#[test]
fn refused_step_changes_nothing() {
    let given = full_table();
    let mut state = start(0, &form(&given));
    for (variable, term, number) in [
        (1, bytes_of([2]), 8),
        (17, bytes_of([2]), 5),
        (1, bytes_of([17]), 5),
        (1, bytes_of([2, 2]), 6),
        (0, vec![0; 2050], 7),
        (0, vec![0; 3], 1),
    ] {
        assert_eq!(step(&mut state, variable, &term), number);
        assert_eq!((state.code, state.applied), (0, 0));
        assert_eq!(state.table, given);
    }
    state.code = 8;
    state.applied = u32::MAX;
    assert_eq!(step(&mut state, 17, &bytes_of([2])), 5);
    assert_eq!((state.code, state.applied), (8, u32::MAX));
    assert_eq!(step(&mut state, 3, &bytes_of([head(0, 0)])), 0);
    assert_eq!((state.code, state.applied), (0, u32::MAX));
}

#[test]
fn refused_start_holds_no_table() {
    let mut state = start(5, &bytes_of([33, 0]));
    assert_eq!((state.code, state.side, state.applied), (2, 5, 0));
    assert_eq!(state.table, Table::zero());
    assert_eq!(step(&mut state, 1, &bytes_of([1])), 2);
    assert_eq!(write(&state, &mut [0; 64]), 2);
}
