//! The calls on byte buffers: what they write, and what they leave.

mod common;

use common::{some_equation, some_table, table, SIDES};
use reference::forms::{bytes_of, read_table};
use reference::{byte_calls, operations, questions, Equation, Refusal, Table};
use support::tables::{form, packed};
use support::Random;

/// A call writes the form of the value call's table and no byte more.
#[test]
fn byte_calls_agree_with_value_calls() {
    for seed in 0..2000 {
        let mut random = Random::new(seed + 77);
        let l = random.within(1, 6) as u32;
        let Equation { left, term } = some_equation(&mut random, l);
        let x = u32::from(left);
        let keep = random.set(l).max(1);
        let given = some_table(&mut random, l, 12);
        let [a, b] = [form(&given), form(&some_table(&mut random, l, 12))];
        let (first, second) = (
            read_table(&a).expect("reads"),
            read_table(&b).expect("reads"),
        );
        let tokens = bytes_of(term.iter().copied());
        compare(Ok(first.clone()), |out| byte_calls::read(&a, out));
        compare_bytes(&packed(&first), |out| byte_calls::pack(&a, out));
        compare(Ok(first.clone()), |out| {
            byte_calls::unpack(&packed(&given), out)
        });
        for side in SIDES {
            let number = side.number();
            let equation = operations::equation(side, &first, x, &term);
            compare(equation, |out| {
                byte_calls::equation(number, &a, x, &tokens, out)
            });
            let join = operations::join(side, &first, &second);
            compare(join, |out| byte_calls::join(number, &a, &b, out));
            let projection = operations::projection(side, &first, keep);
            compare(projection, |out| byte_calls::project(number, &a, keep, out));
            let changed = operations::change_side(&first);
            compare(changed, |out| byte_calls::change_side(number, &a, out));
        }
    }
}

/// Compares the bytes of a call with the form of an accepted table.
fn compare(table: Result<Table, Refusal>, call: impl Fn(&mut [u8]) -> u32) {
    compare_bytes(&form(&table.expect("accepted")), call);
}

/// Compares the bytes of a call with those that it should write, on outputs of three sizes.
fn compare_bytes(expected: &[u8], call: impl Fn(&mut [u8]) -> u32) {
    let mut long = vec![0xa5; expected.len() + 3];
    assert_eq!(call(&mut long), 0);
    assert_eq!(long, [expected, &[0xa5; 3]].concat());
    let mut exact = vec![0xa5; expected.len()];
    assert_eq!(call(&mut exact), 0);
    assert_eq!(exact, expected);
    let mut short = vec![0xa5; expected.len() - 1];
    assert_eq!(call(&mut short), 9);
    assert!(short.iter().all(|&byte| byte == 0xa5));
}

/// Answers are 1 or 0, as the questions on values say.
#[test]
fn byte_questions_agree_with_value_questions() {
    for seed in 0..2000 {
        let mut random = Random::new(seed + 78);
        let l = random.within(1, 6) as u32;
        let [first, second] = [(); 2].map(|()| some_table(&mut random, l, 5));
        let (a, b) = (form(&first), form(&second));
        let x = u32::from(random.variable(l));
        let (some, others) = (random.set(l), random.set(l));
        let equal = questions::equal(&first, &second);
        compare_answer(equal, |answer| byte_calls::equal(&a, &b, answer));
        for side in SIDES {
            let n = side.number();
            let ground = questions::ground(side, &first, x);
            compare_answer(ground, |answer| byte_calls::ground(n, &a, x, answer));
            let independent = questions::independent(side, &first, some, others);
            compare_answer(independent, |answer| {
                byte_calls::independent(n, &a, some, others, answer)
            });
        }
    }
}

/// Compares the number that a question writes with the answer on values.
fn compare_answer(expected: Result<bool, Refusal>, call: impl Fn(&mut u32) -> u32) {
    let mut answer = 7;
    assert_eq!(call(&mut answer), 0);
    assert_eq!(answer, u32::from(expected.expect("accepted")));
}

/// A refused call writes nothing, and of two tables the first is checked first.
#[test]
fn refused_calls_write_nothing() {
    let good = form(&table(2, "01 1*"));
    let (wide, torn) = (bytes_of([33, 0]), bytes_of([2]));
    let narrow = form(&table(1, "1"));
    let variable = bytes_of([1]);
    let mut out = [0xa5; 64];
    assert_eq!(byte_calls::read(&torn, &mut out), 1);
    assert_eq!(byte_calls::pack(&bytes_of([2, 1, 1, 2]), &mut out[..4]), 4);
    assert_eq!(byte_calls::pack(&good, &mut out[..5]), 9);
    assert_eq!(byte_calls::unpack(&[2, 0, 1, 0, 9], &mut out[..4]), 12);
    assert_eq!(byte_calls::unpack(&[2, 0, 1, 0, 8], &mut out[..7]), 9);
    assert_eq!(byte_calls::change_side(0, &wide, &mut out), 2);
    assert_eq!(byte_calls::convert(0, &[4], &mut out), 2);
    assert_eq!(byte_calls::convert(2, &[1, 4], &mut out), 4);
    assert_eq!(byte_calls::join(0, &wide, &torn, &mut out), 2);
    assert_eq!(byte_calls::join(0, &good, &torn, &mut out), 1);
    assert_eq!(byte_calls::join(1, &good, &narrow, &mut out), 10);
    assert_eq!(byte_calls::project(0, &good, 0, &mut out), 11);
    assert_eq!(byte_calls::project(1, &good, 0b101, &mut out), 11);
    assert_eq!(byte_calls::equation(0, &wide, 9, &[0; 3], &mut out), 2);
    assert_eq!(byte_calls::equation(0, &good, 9, &[0; 2050], &mut out), 7);
    assert_eq!(byte_calls::equation(0, &good, 9, &[0; 2049], &mut out), 1);
    assert_eq!(byte_calls::equation(0, &good, 3, &variable, &mut out), 5);
    assert_eq!(byte_calls::equation(0, &good, 0, &variable, &mut out), 5);
    assert_eq!(
        byte_calls::equation(0, &good, 1, &bytes_of([1, 3]), &mut out),
        5
    );
    assert_eq!(
        byte_calls::equation(0, &good, 1, &bytes_of([1, 2]), &mut out),
        6
    );
    assert_eq!(byte_calls::equation(0, &good, 1, &[], &mut out), 6);
    assert_eq!(
        byte_calls::equation(0, &good, 1, &variable, &mut out[..3]),
        9
    );
    assert_eq!(out, [0xa5; 64]);
    let mut answer = 7;
    assert_eq!(byte_calls::equal(&good, &narrow, &mut answer), 10);
    assert_eq!(byte_calls::ground(0, &good, 0, &mut answer), 5);
    assert_eq!(byte_calls::ground(1, &good, 3, &mut answer), 5);
    assert_eq!(byte_calls::independent(0, &good, 0, 4, &mut answer), 5);
    assert_eq!(byte_calls::independent(1, &good, 4, 0, &mut answer), 5);
    assert_eq!(answer, 7);
}

/// The two-buffer call: fewer entries as written, equal ones give the positive, tails cut.
#[test]
fn smaller_gives_a_part_of_a_buffer() {
    let one = [form(&table(2, "01")), vec![9, 9]].concat();
    let doubled = [form(&table(2, "01 01")), vec![7]].concat();
    assert_eq!(byte_calls::smaller(&one, &doubled), &one[..8]);
    assert_eq!(byte_calls::smaller(&doubled, &one), &one[..8]);
    let other = form(&table(2, "1*"));
    assert_eq!(byte_calls::smaller(&one, &other), &one[..8]);
    assert_eq!(byte_calls::smaller(&other, &one), &other[..]);
    assert!(byte_calls::smaller(&one, &form(&table(3, ""))).is_empty());
    assert!(byte_calls::smaller(&one[..7], &other).is_empty());
    assert!(byte_calls::smaller(&one, &other[..3]).is_empty());
    assert!(byte_calls::smaller(&one, &bytes_of([2, 1, 1, 2])).is_empty());
}
