//! Calls whose lists come to exactly 256 entries, and the same calls with one entry more.

use crate::case::{Call, Case};
use crate::full::{alternate, convert, join, negative_join, run_of, step_of, Full};
use crate::full::{unify_run_of, unify_step_of};
use crate::tester::Tester;
use crate::{base, expected};
use reference::entry::low_bits;
use reference::forms::bytes_of;
use reference::terms::head;
use reference::{equations, Entry, Refusal, Table, TwoTerms, ENTRIES};
use support::tables::{form, form_entries, table_of, Size, LONGEST};
use support::{Checked, Random};

/// All calls at the limit.
pub fn check(tester: &mut Tester, full: &Full) -> Checked<()> {
    let mut random = Random::new(5);
    for _ in 0..12 {
        packings(tester, &mut random)?;
        conversions(tester, &mut random)?;
        long_conversions(tester, &mut random)?;
        joins(tester, &mut random)?;
        negative_joins(tester, &mut random)?;
        changes_of_side(tester, &mut random)?;
        equations(tester, &mut random)?;
        crosses(tester, &mut random)?;
        ground_variable(tester, &mut random)?;
    }
    for case in full.cases() {
        shrink(tester, case, &mut random)?;
    }
    Ok(())
}

/// Makes one call, which must be accepted and leave so many entries: else the test is not at its
/// edge.
fn leaves(tester: &mut Tester, case: &Case, entries: usize) -> Checked<()> {
    let outcome = tester.answered(case, 0)?;
    let left = form_entries(&outcome.out);
    if left != entries {
        let name = case.call.name();
        return Err(format!("{name} leaves {left} entries and not {entries}"));
    }
    Ok(())
}

/// Makes one call, which must leave so many entries, or be refused 8 where they are more than 256.
fn leaves_or_full(tester: &mut Tester, case: &Case, entries: usize) -> Checked<()> {
    if entries > ENTRIES {
        tester.answered(case, 8).map(drop)
    } else {
        leaves(tester, case, entries)
    }
}

/// A list that is made within a call must have so many entries, or be full where they are more than
/// 256: else the test is not at its edge.
fn holds(list: Result<Vec<Entry>, Refusal>, entries: usize) -> Checked<()> {
    let due = match entries {
        ..=ENTRIES => Ok(entries),
        _ => Err(Refusal::Full),
    };
    let made = list.map(|list| list.len());
    if made != due {
        return Err(format!("a list makes {made:?} and not {due:?}"));
    }
    Ok(())
}

/// Packing and unpacking keep all of 256 entries.
fn packings(tester: &mut Tester, random: &mut Random) -> Checked<()> {
    let l = random.width().max(9);
    let groups = alternate(l, ENTRIES, random).into_iter();
    let table = Table {
        l,
        entries: groups.map(|group| Entry::of_group(l, group)).collect(),
    };
    for call in [Call::Pack, Call::Unpack] {
        let case = base::base_on(call, false, Size::Light, &table, random);
        leaves(tester, &case, ENTRIES)?;
    }
    Ok(())
}

fn conversions(tester: &mut Tester, random: &mut Random) -> Checked<()> {
    let l = random.width().max(10);
    for count in [255, 256, 257, 258, 511] {
        leaves_or_full(tester, &convert(l, count, random), count)?;
    }
    // There are 256 such groups of 9 variables.
    leaves(tester, &convert(9, ENTRIES, random), ENTRIES)?;
    // A list of all words leaves fewer entries than it has words.
    let mut all = Case::new(Call::Convert);
    all.word = l;
    let mut words: Vec<u32> = (0..1 << 10).collect();
    random.shuffle(&mut words);
    all.first = words.into_iter().flat_map(u32::to_le_bytes).collect();
    all.out = random.bytes(LONGEST);
    tester.check(&all).map(drop)
}

/// Conversions of more words than the entries of a table and than 16 bits can count: the last
/// word counts as the others do.
fn long_conversions(tester: &mut Tester, random: &mut Random) -> Checked<()> {
    let mut case = Case::new(Call::Convert);
    case.word = random.width().max(5);
    for count in [256, 257, 1025, 0x1_0000, 0x1_0001] {
        let mut words: Vec<u32> = (1..count).map(|_| random.set(3)).collect();
        let last = 1 << (case.word - 1);
        // Of 32 variables no bit is above l.
        let above = 1u32.checked_shl(case.word).map(|above| (above, 4));
        for (word, number) in [(last, 0)].into_iter().chain(above) {
            words.push(word);
            case.first = words.iter().flat_map(|word| word.to_le_bytes()).collect();
            case.out = random.bytes(LONGEST);
            tester.answered(&case, number)?;
            words.pop();
        }
    }
    Ok(())
}

/// Positive joins: 256 entries and none, one or several more; and one more that subsumes some or
/// widens into one that does, which leaves room for itself.
fn joins(tester: &mut Tester, random: &mut Random) -> Checked<()> {
    let l = random.width().max(10);
    let groups = alternate(l, 300, random);
    for (first, end) in [
        (0, 256),
        (1, 256),
        (128, 256),
        (255, 256),
        (256, 256),
        (128, 257),
        (256, 257),
        (256, 300),
    ] {
        let case = join(l, &groups[..first], &groups[first..end], random);
        leaves_or_full(tester, &case, end)?;
    }
    let mut case = join(l, &groups[..256], &groups[..0], random);
    let known = Entry::of_group(l, random.pick(&groups[..256]));
    let bit = 1 << random.below(l as usize);
    let (wider, beside) = (known.star(bit), known.flip(bit));
    let more = Entry::of_group(l, groups[256]);
    for (entries, number) in [
        (vec![known], 0),
        (vec![wider], 0),
        (vec![beside], 0),
        (vec![wider, wider], 0),
        (vec![more, beside], 8),
        (vec![more, wider], 8),
        (vec![wider, more, Entry::of_group(l, groups[257])], 8),
    ] {
        case.second = form(&Table { l, entries });
        tester.answered(&case, number)?;
    }
    Ok(())
}

/// Negative joins: 16 times 16 entries, and one more pair of entries that match.
fn negative_joins(tester: &mut Tester, random: &mut Random) -> Checked<()> {
    let l = random.width().max(12);
    let mut case = negative_join(l, 16, 16, random);
    leaves(tester, &case, ENTRIES)?;
    let mut first = table_of(&case.first);
    let other = |low: &u32| first.entries.iter().all(|entry| entry.value != *low);
    let low = alternate(6, 32, random).into_iter().find(other);
    let high = random.pick(&table_of(&case.second).entries).value;
    let value = low.unwrap_or(0) | high;
    first.entries.push(Entry::of_group(l, value));
    case.first = form(&first);
    tester.answered(&case, 8)?;
    leaves_or_full(tester, &negative_join(l, 17, 16, random), 17 * 16)?;
    leaves_or_full(tester, &negative_join(l, 17, 15, random), 17 * 15)
}

/// Changes of side: entries that are fixed at so many positions each, none at one of another's,
/// leave the product of these numbers. A projection of the negative table goes by way of them.
fn changes_of_side(tester: &mut Tester, random: &mut Random) -> Checked<()> {
    for wide in [&[2; 8][..], &[4; 4], &[2, 3, 3, 3, 5], &[3, 3, 3, 3, 4]] {
        let l = random.width().max(16);
        let mut places: Vec<u32> = (0..l).collect();
        random.shuffle(&mut places);
        let mut entries = Vec::new();
        for &count in wide {
            let care = places.drain(..count).map(|place| 1 << place).sum();
            let ones = random.word() & care;
            // Not all zero: then the all-zero string is left and no entry for it.
            let value = if ones == 0 { care } else { ones };
            entries.push(Entry { care, value });
        }
        let left: usize = wide.iter().product();
        let mut table = Table { l, entries };
        for negative in [false, true] {
            let mut case = base::base_on(Call::ChangeSide, negative, Size::Light, &table, random);
            leaves_or_full(tester, &case, left)?;
            case.call = Call::Project;
            case.word = low_bits(l);
            let full = negative && left > ENTRIES;
            tester.answered(&case, if full { 8 } else { 0 })?;
        }
        table.entries.push(random.string(l, 50));
        for negative in [false, true] {
            let case = base::base_on(Call::ChangeSide, negative, Size::Light, &table, random);
            tester.check(&case)?;
        }
    }
    Ok(())
}

/// Positive equations: so many entries have neither X1 nor X2 that with those joined there are
/// 255, 256 and 257.
fn equations(tester: &mut Tester, random: &mut Random) -> Checked<()> {
    let l = random.width().max(12);
    let (relevant, joined) = relevant_entries(l, random);
    let others = alternate(l - 2, ENTRIES, random);
    for (count, number) in [(255, 0), (256, 0), (257, 8), (258, 8)] {
        // The order of the relevant entries stays, on which the joined ones depend.
        let mut entries = relevant.clone();
        for &g in &others[..count - joined] {
            entries.insert(random.below(entries.len() + 1), Entry::of_group(l, g << 2));
        }
        let case = x1_is_x2(l, entries, random);
        leaves_or_full(tester, &case, count)?;
        tester.answered(&step_of(&case, random), number)?;
        tester.answered(&run_of_one(&case), number)?;
        tester.check(&run_of(&case, random))?;
        pairs(tester, &case, number, random)?;
    }
    Ok(())
}

/// The same equation X1 = X2 as one that a walk finds: a full one refuses the whole call, and a
/// clash, before it or after it, makes the call accepted.
fn pairs(tester: &mut Tester, equation: &Case, number: u32, random: &mut Random) -> Checked<()> {
    let (f, a, b) = (head(1, 2), head(2, 0), head(3, 0));
    let mut case = equation.clone();
    case.call = Call::Unify;
    for (left, right, number) in [
        (vec![1], vec![2], number),
        (vec![head(1, 1), 1], vec![head(1, 1), 2], number),
        (vec![f, a, 1], vec![f, a, 2], number),
        (vec![f, 1, a], vec![f, 2, a], number),
        (vec![f, 1, a], vec![f, 2, b], 0),
        (vec![f, a, 1], vec![f, b, 2], 0),
    ] {
        base::give_terms(&mut case, &TwoTerms { left, right });
        tester.answered(&case, number)?;
        tester.answered(&unify_step_of(&case, random), number)?;
        tester.check(&unify_run_of(&case, random))?;
    }
    Ok(())
}

/// Positive equations whose cross makes the product of the counts of the groups with X1 and with X2:
/// each has an odd number of variables in its own part of X3 to X8 and of the last eight, so that none
/// widens. Closing then makes fewer of the 256 entries.
fn crosses(tester: &mut Tester, random: &mut Random) -> Checked<()> {
    let l = random.width().max(16);
    for (first, second, number) in [(2, 128, 0), (3, 86, 8)] {
        let (low, high) = (alternate(6, first, random), alternate(8, second, random));
        let entry = |g| Entry::of_group(l, g);
        let low: Vec<Entry> = low.into_iter().map(|g| entry(1 | g << 2)).collect();
        let high = high.into_iter().map(|g| entry(2 | g << (l - 8)));
        let high: Vec<Entry> = high.collect();
        holds(equations::cross(l, &low, &high), first * second)?;
        let case = x1_is_x2(l, [low, high].concat(), random);
        tester.answered(&case, number)?;
        tester.answered(&step_of(&case, random), number)?;
    }
    Ok(())
}

/// Positive equations on a table where X1 is ground: nothing is joined, and yet the list of the
/// entries relevant to the term may need entry 257. An entry that has `*` at X2 and X3 makes two of
/// that list, one with 0 at X3 makes one.
fn ground_variable(tester: &mut Tester, random: &mut Random) -> Checked<()> {
    let l = random.width().max(13);
    let groups = alternate(l - 3, 129, random);
    for (open, count, number) in [(127, 128, 0), (128, 128, 0), (128, 129, 8), (129, 129, 8)] {
        let fixed = groups[..count].iter().map(|&g| Entry::of_group(l, g << 3));
        let entry = |(i, entry): (usize, Entry)| match i {
            i if i < open => entry.star(2).star(4),
            _ => entry.star(2),
        };
        let entries: Vec<Entry> = fixed.enumerate().map(entry).collect();
        holds(equations::relevant(l, &entries, 0b110), open + count)?;
        let mut case = x1_is_x2(l, entries, random);
        case.second = bytes_of([head(7, 2), 2, 3]);
        tester.answered(&case, number)?;
        tester.answered(&step_of(&case, random), number)?;
    }
    Ok(())
}

/// Entries with X1 or X2 that make more joined ones than they are themselves, and how many. Each
/// has an odd number of ones, as the others have, so that reading widens none.
fn relevant_entries(l: u32, random: &mut Random) -> (Vec<Entry>, usize) {
    loop {
        let fixed = |low: u32, random: &mut Random| {
            let group = low | (random.word() & random.word() & low_bits(l) & !3);
            let even = u32::from(group.count_ones().is_multiple_of(2));
            Entry::of_group(l, group ^ even << 2)
        };
        let mut entries: Vec<Entry> = (0..4).map(|_| fixed(1, random)).collect();
        entries.extend((0..4).map(|_| fixed(2, random)));
        let case = x1_is_x2(l, entries.clone(), random);
        let outcome = expected::expected(&case);
        let joined = form_entries(&outcome.out);
        if outcome.number == 0 && (12..200).contains(&joined) {
            return (entries, joined);
        }
    }
}

/// The equation X1 = X2 on a positive table.
fn x1_is_x2(l: u32, entries: Vec<Entry>, random: &mut Random) -> Case {
    let mut case = Case::new(Call::Equation);
    case.first = form(&Table { l, entries });
    case.word = 1;
    case.second = bytes_of([2]);
    case.out = random.bytes(LONGEST);
    case
}

/// The run of one equation.
fn run_of_one(equation: &Case) -> Case {
    let mut case = Case::new(Call::Run);
    (case.side, case.first) = (equation.side, equation.first.clone());
    case.second = bytes_of([1, 1, 1, 1, 2]);
    case
}

/// Takes entries from the table of a full call until it is accepted, and makes each call.
fn shrink(tester: &mut Tester, full: &Case, random: &mut Random) -> Checked<()> {
    if matches!(full.call, Call::Convert | Call::Step | Call::UnifyStep) {
        return tester.check(full).map(drop);
    }
    let mut case = full.clone();
    let mut table = table_of(&case.first);
    let mut left = 40;
    while tester.check(&case)?.number != 0 && left > 0 && !table.entries.is_empty() {
        table.entries.remove(random.below(table.entries.len()));
        case.first = form(&table);
        left -= 1;
    }
    Ok(())
}
