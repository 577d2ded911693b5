//! Tables of up to 32 variables (02, "Thirty-two variables"): both widths of words in the written
//! form, bit 31 in every word, and the operations on positions that lie far apart.

mod common;

use common::{some_equation, some_table, table, SIDES};
use reference::entry::{low_bits, rising_bits};
use reference::forms::{
    add_words, bytes_of, form_of, read_front, read_table, table_length, word_length,
};
use reference::packed::read_packed;
use reference::terms::{head, is_head, kind};
use reference::{byte_calls, operations, questions, reasons, report};
use reference::{Entry, Equation, Reason, Refusal, Side, Table};
use support::tables::{form, packed, EDGES, LONGEST};
use support::{Equations, Random};

/// The form of one entry of l variables.
fn one_entry(l: u32, care: u32, value: u32) -> Vec<u8> {
    form_of(&Table {
        l,
        entries: vec![Entry { care, value }],
    })
}

/// The numbers that all calls on one table's bytes answer.
fn answers(bytes: &[u8]) -> [u32; 7] {
    let term = bytes_of([head(1, 0)]);
    let mut out = [0; LONGEST];
    let (mut answer, [mut x_entry, mut t_entry]) = (0, [0; 2]);
    [
        byte_calls::read(bytes, &mut out),
        byte_calls::pack(bytes, &mut out),
        byte_calls::equation(0, bytes, 1, &term, &mut out),
        byte_calls::ground(1, bytes, 1, &mut answer),
        byte_calls::reason(bytes, 1, &term, 1, &mut answer, &mut x_entry, &mut t_entry),
        byte_calls::start(0, bytes).code,
        byte_calls::run(1, bytes, &bytes_of([0, 0])).code,
    ]
}

#[test]
fn lengths_of_forms() {
    let lengths = [1, 16, 17, 32].map(|l| (word_length(l), table_length(l, 0)));
    assert_eq!(lengths, [(2, 4), (2, 4), (4, 4), (4, 4)]);
    assert_eq!((table_length(16, 3), table_length(17, 3)), (16, 28));
    assert_eq!((table_length(16, 256), table_length(32, 256)), (1028, 2052));
    assert_eq!(table_length(32, 256), LONGEST);
}

/// Forms by hand: low byte first, all care words before all value words.
#[test]
fn forms_by_hand() {
    let strings = ["1", "01"].map(|front| format!("{front:*<17}")).join(" ");
    let bytes = [17, 0, 2, 0, 1, 0, 0, 0, 3, 0, 0, 0, 1, 0, 0, 0, 2, 0, 0, 0];
    assert_eq!(form(&table(17, &strings)), bytes);
    let last = format!("{:*>32}", "01");
    let bytes = [32, 0, 1, 0, 0, 0, 0, 0xc0, 0, 0, 0, 0x80];
    assert_eq!(form(&table(32, &last)), bytes);
    assert_eq!(read_table(&bytes), Ok(table(32, &last)));
    let last = format!("{:*>16}", "01");
    assert_eq!(form(&table(16, &last)), [16, 0, 1, 0, 0, 0xc0, 0, 0x80]);
}

#[test]
fn l_32_is_taken_and_33_refused() {
    for l in [1, 15, 16, 17, 31, 32] {
        let given = Table::all_star(l);
        assert_eq!(read_table(&form(&given)), Ok(given.clone()));
        assert_eq!(read_packed(&packed(&given)), Ok(given.clone()));
        assert_eq!(answers(&form(&given)), [0; 7]);
        let group = 1 << (l - 1);
        let one = operations::convert(l, &[group]).expect("accepted");
        assert_eq!(one.entries, [Entry::of_group(l, group)]);
    }
    for l in [0, 33, 48, 64, 0x120, u16::MAX] {
        for length in [4, 8, 12] {
            let bytes = [bytes_of([l, 1]), vec![0; length - 4]].concat();
            assert_eq!(answers(&bytes), [2; 7]);
            assert_eq!(read_packed(&bytes), Err(Refusal::Width));
        }
        let l = u32::from(l);
        assert_eq!(operations::convert(l, &[]), Err(Refusal::Width));
        for side in SIDES {
            let wrong = Table::empty(l);
            let width = Err(Refusal::Width);
            assert_eq!(operations::equation(side, &wrong, 1, &[1]), width);
            assert_eq!(operations::projection(side, &wrong, 1), width);
            assert_eq!(operations::join(side, &Table::empty(32), &wrong), width);
        }
    }
}

/// A form that is cut anywhere or followed by more is torn.
#[test]
fn forms_have_their_length() {
    for l in EDGES {
        for n in 0..4 {
            let given = form(&Random::new(u64::from(l)).table(l, n));
            let longer = [&given[..], &[0; 9]].concat();
            for length in 0..=longer.len() {
                let read = read_table(&longer[..length]);
                let front = read_front(&longer[..length]);
                assert_eq!(read.is_ok(), length == given.len());
                assert_eq!(front.is_ok(), length >= given.len());
                assert!(read.is_ok() || read == Err(Refusal::Torn));
                assert!(front.is_ok() || front == Err(Refusal::Torn));
            }
        }
    }
}

/// Up to 16 variables words of 32 bits are too long, and from 17 on words of 16 bits too short.
#[test]
fn words_of_the_other_width_are_torn() {
    for (l, other) in [(16, 17), (1, 32), (17, 16), (32, 1)] {
        for n in 1..4 {
            let [right, wrong] = [l, other].map(|width| {
                let mut form = bytes_of([l as u16, n as u16]);
                add_words(&mut form, width, std::iter::repeat_n(1, 2 * n));
                form
            });
            assert!(read_table(&right).is_ok());
            assert_eq!(answers(&wrong), [1; 7]);
        }
    }
}

/// Of each bit of both words: above l it is stray, and so is a value without care.
#[test]
fn every_bit_of_a_word() {
    for l in 1..=32 {
        for bit in rising_bits(low_bits(8 * word_length(l) as u32)) {
            let inside = bit & low_bits(l) != 0;
            for (care, value, good) in [
                (bit, 0, inside),
                (bit, bit, inside),
                (0, bit, false),
                (low_bits(l) & !bit, bit, false),
                (low_bits(l) | bit, bit, inside),
            ] {
                let entry = Entry { care, value };
                let number = if good { 0 } else { 4 };
                assert_eq!(answers(&one_entry(l, care, value)), [number; 7]);
                let entries = vec![entry];
                assert_eq!(Table { l, entries }.check().is_ok(), good);
                if good && !entry.is_zero(l) {
                    let read = read_table(&one_entry(l, care, value)).expect("reads");
                    assert_eq!(read.entries, [entry]);
                }
            }
        }
    }
}

/// Bit 31 of groups, kept sets, asked sets, variables and tokens is X32.
#[test]
fn x32_in_every_word() {
    let top = 1 << 31;
    let given = operations::convert(32, &[top, 1, top | 2]).expect("accepted");
    let last = Entry::of_group(32, top).star(2);
    assert_eq!(given.entries, [Entry::of_group(32, 1), last]);
    let kept = operations::projection(Side::Positive, &given, top | 2);
    assert_eq!(kept, Ok(table(2, "*1")));
    for (first, second, answer) in [(top, 2, false), (top, 1, true), (top, top, false)] {
        let asked = questions::independent(Side::Positive, &given, first, second);
        assert_eq!(asked, Ok(answer));
    }
    assert_eq!(questions::ground(Side::Positive, &given, 32), Ok(false));
    for (x, y, group, due) in [
        (1, 32, top | 1, [1, 0, 1]),
        (32, 1, top | 3, [1, 1, 0]),
        (32, 1, top, [3, 0, 0]),
        (2, 3, top, [0, 0, 0]),
        (2, 3, top | 1, [5, 0, 0]),
        (1, 32, top | 5, [4, 0, 0]),
    ] {
        let told = reasons::reason(&given, x, &[y], group);
        assert_eq!(told.map(Reason::numbers), Ok(due));
    }
    let after = operations::equation(Side::Positive, &given, 1, &[head(1, 1), 32]);
    assert_eq!(
        after.map(|table| table.entries),
        Ok(vec![Entry::of_group(32, top | 1).star(2)])
    );
    for name in [0, 33] {
        let equation = operations::equation(Side::Negative, &given, u32::from(name), &[1]);
        assert_eq!(equation, Err(Refusal::Name));
        let equation = operations::equation(Side::Negative, &given, 32, &[name]);
        assert_eq!(equation, Err(Refusal::Name));
    }
    let narrow = operations::convert(31, &[1]).expect("accepted");
    let kept = operations::projection(Side::Positive, &narrow, top | 1);
    assert_eq!(kept, Err(Refusal::Keep));
    assert_eq!(operations::convert(31, &[1, top]), Err(Refusal::Stray));
    let asked = questions::independent(Side::Positive, &narrow, top, 1);
    assert_eq!(asked, Err(Refusal::Name));
    let told = reasons::reason(&narrow, 1, &[2], top | 1);
    assert_eq!(told, Err(Refusal::Stray));
}

/// A few of 32 variables, X32 among them.
struct Few(u32);

impl Few {
    fn draw(random: &mut Random) -> Few {
        let mut set = 1u32 << 31;
        for _ in 0..random.within(1, 5) {
            set |= 1 << random.below(32);
        }
        Few(set)
    }

    /// How many there are.
    fn count(&self) -> u32 {
        self.0.count_ones()
    }

    /// The string with its positions at these variables, and 0 at the others.
    fn spread(&self, entry: Entry) -> Entry {
        let places = rising_bits(self.0).enumerate();
        places.fold(Entry::zeros_at(!self.0), |wide, (i, bit)| {
            wide.with_digit(bit, entry.digit(1 << i))
        })
    }

    fn table(&self, few: &Table) -> Table {
        let entries = few.entries.iter().map(|&entry| self.spread(entry));
        Table {
            l: 32,
            entries: entries.collect(),
        }
    }

    fn set(&self, few: u32) -> u32 {
        self.spread(Entry::ones_at(few)).value
    }

    fn variable(&self, few: u16) -> u16 {
        self.set(1 << (few - 1)).trailing_zeros() as u16 + 1
    }

    fn term(&self, few: &[u16]) -> Vec<u16> {
        let token = |&token: &u16| match is_head(token) {
            true => token,
            false => self.variable(token),
        };
        few.iter().map(token).collect()
    }

    /// A table of the few variables and one of all 32 have the same groups.
    fn compare(&self, few: Result<Table, Refusal>, all: Result<Table, Refusal>) {
        let (few, all) = (few.expect("accepted"), all.expect("accepted"));
        let same = questions::equal(&self.table(&few), &all);
        assert_eq!(same, Ok(true), "{few:?} {all:?}");
    }
}

/// What is known of a few variables is known of them wherever they stand among 32, the others being
/// ground: positive operations give the same groups, and the reason behind a group is the same.
#[test]
fn few_of_32_variables() {
    use operations::{equation, join, projection};
    use reasons::{by_groups, reason};
    for seed in 0..2000 {
        let mut random = Random::new(seed + 83);
        let few = Few::draw(&mut random);
        let l = few.count();
        let [first, second] = [(); 2].map(|()| some_table(&mut random, l, 12));
        let Equation { left: x, term } = some_equation(&mut random, l);
        let keep = random.set(l).max(1);
        let wide = [&first, &second].map(|given| few.table(given));
        let (wide_x, wide_term) = (few.variable(x), few.term(&term));
        let side = Side::Positive;
        few.compare(
            equation(side, &first, x.into(), &term),
            equation(side, &wide[0], wide_x.into(), &wide_term),
        );
        few.compare(join(side, &first, &second), join(side, &wide[0], &wide[1]));
        let kept = [
            projection(side, &first, keep).expect("accepted"),
            projection(side, &wide[0], few.set(keep)).expect("accepted"),
        ];
        assert_eq!(questions::equal(&kept[0], &kept[1]), Ok(true));
        assert_eq!(
            questions::equal(&first, &second),
            questions::equal(&wide[0], &wide[1])
        );
        let group = random.set(l).max(1);
        let told = by_groups(&first, x.into(), kind(x.into(), &term), group);
        let wide_told = reason(&wide[0], wide_x.into(), &wide_term, few.set(group));
        assert_eq!(wide_told, Ok(told));
    }
}

/// From a table of either side of l variables to the other and back: the same groups.
#[test]
fn changed_tables_of_32_variables() {
    for seed in 0..500 {
        let mut random = Random::new(seed + 89);
        let (l, n) = (random.pick(&EDGES), random.below(4));
        let entries = (0..n).map(|_| random.string(l, 85)).collect();
        let given = Table { l, entries };
        let changed = operations::change_side(&given).expect("accepted");
        let back = operations::change_side(&changed).expect("accepted");
        assert_eq!(questions::equal(&given, &back), Ok(true));
        for entry in &given.entries {
            assert!(!changed.entries.iter().any(|other| other.matches(*entry)));
        }
    }
}

/// The text of 17 and more variables: the entries have as many characters, and 8192 bytes are read.
#[test]
fn sharerun_on_32_variables() {
    let last = format!("{:0>32}", "1");
    let mut equations = Equations::default();
    equations.push(32, &[1]);
    let input = [form(&table(32, &last)), equations.bytes()].concat();
    assert_eq!(
        report(&input).text,
        format!("vars 32 entries 1\n{last}\neq 1 entries 0\n")
    );
    let longer = |length: usize| [&input[..], &vec![0; length - input.len()]].concat();
    assert_eq!(report(&longer(8192)).text, "refused 1\n");
    let stray = one_entry(31, 1 << 31, 0);
    let filled = |length: usize| [&stray[..], &vec![0; length - stray.len()]].concat();
    assert_eq!(report(&filled(8192)).text, "refused 4\n");
    assert_eq!(report(&filled(8193)).text, "refused 1\n");
}
