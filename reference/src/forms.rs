//! The written forms of tables and equations (01, "Written form"; of two terms 02, "Both sides
//! compound"): 16-bit numbers, low byte first, but for the care and value words of a table of more
//! than 16 variables (02, "Thirty-two variables"). Refusals come in the order of 01, "Refusals".

use crate::entry::Entry;
use crate::growth::grown;
use crate::refusal::Refusal;
use crate::table::{check_width, Table, ENTRIES};
use crate::terms::{check_equation, check_terms, Equation, TwoTerms, TOKENS};

/// The most equations of one form.
pub const EQUATIONS: usize = 64;

/// The bytes of a row of 16-bit numbers.
pub fn bytes_of(words: impl IntoIterator<Item = u16>) -> Vec<u8> {
    words.into_iter().flat_map(u16::to_le_bytes).collect()
}

/// The 16-bit numbers of a row of bytes; an odd last byte is left out.
pub fn words_of(bytes: &[u8]) -> Vec<u16> {
    bytes
        .chunks_exact(2)
        .map(|pair| u16::from_le_bytes([pair[0], pair[1]]))
        .collect()
}

/// The two sizes at the front of a form; 1 where they are not there.
fn read_sizes(bytes: &[u8]) -> Result<(u16, u16), Refusal> {
    match *bytes {
        [a, b, c, d, ..] => Ok((u16::from_le_bytes([a, b]), u16::from_le_bytes([c, d]))),
        _ => Err(Refusal::Torn),
    }
}

/// The bytes of a care or value word in the form of a table of l variables: 16 bits are enough for
/// up to 16 variables, and from 17 on there are 32.
pub fn word_length(l: u32) -> usize {
    if l <= u16::BITS {
        2
    } else {
        4
    }
}

/// Adds a row of care or value words to a form, low byte first.
pub fn add_words(form: &mut Vec<u8>, l: u32, words: impl Iterator<Item = u32>) {
    match word_length(l) {
        2 => form.extend(words.flat_map(|word| (word as u16).to_le_bytes())),
        _ => form.extend(words.flat_map(u32::to_le_bytes)),
    }
}

/// The care or value words of a row of bytes.
pub fn table_words(l: u32, bytes: &[u8]) -> Vec<u32> {
    match word_length(l) {
        2 => bytes
            .chunks_exact(2)
            .map(|two| u32::from(u16::from_le_bytes([two[0], two[1]])))
            .collect(),
        _ => bytes
            .chunks_exact(4)
            .map(|four| u32::from_le_bytes([four[0], four[1], four[2], four[3]]))
            .collect(),
    }
}

/// The length in bytes of the form of a table with l variables and n entries.
pub fn table_length(l: u32, n: usize) -> usize {
    4 + 2 * n * word_length(l)
}

/// The length in bytes of the form of e equations with m tokens.
pub fn equations_length(e: usize, m: usize) -> usize {
    4 + 4 * e + 2 * m
}

/// The sizes of a table: present (1), then 2, then 3.
pub(crate) fn read_table_sizes(bytes: &[u8]) -> Result<(u32, usize), Refusal> {
    let (l, n) = read_sizes(bytes)?;
    check_width(u32::from(l))?;
    if usize::from(n) > ENTRIES {
        return Err(Refusal::Entries);
    }
    Ok((u32::from(l), usize::from(n)))
}

/// The n entries of a form of the right length, as they stand: n care words, then n value words.
pub fn entries_of(l: u32, n: usize, form: &[u8]) -> Vec<Entry> {
    let words = table_words(l, &form[4..]);
    let (care, value) = words.split_at(n);
    care.iter()
        .zip(value)
        .map(|(&care, &value)| Entry { care, value })
        .collect()
}

/// The form of a table as it stands; nothing is checked.
pub fn form_of(table: &Table) -> Vec<u8> {
    let Table { l, entries } = table;
    let mut form = Vec::with_capacity(table_length(*l, entries.len()));
    let sizes = [*l as u16, entries.len() as u16];
    form.extend(sizes.into_iter().flat_map(u16::to_le_bytes));
    add_words(&mut form, *l, entries.iter().map(|entry| entry.care));
    add_words(&mut form, *l, entries.iter().map(|entry| entry.value));
    form
}

/// The table of a form of the right length: 4 by entry, then the entries are grown in order.
fn read_entries(l: u32, n: usize, form: &[u8]) -> Result<Table, Refusal> {
    let entries = entries_of(l, n, form);
    if entries.iter().any(|entry| entry.is_stray(l)) {
        return Err(Refusal::Stray);
    }
    Ok(Table {
        l,
        entries: grown(l, &[], entries)?,
    })
}

/// Reads a form that has exactly its length.
pub fn read_table(bytes: &[u8]) -> Result<Table, Refusal> {
    let (l, n) = read_table_sizes(bytes)?;
    if bytes.len() != table_length(l, n) {
        return Err(Refusal::Torn);
    }
    read_entries(l, n, bytes)
}

/// Reads a form after which more may follow, and gives the bytes after it.
pub fn read_front(bytes: &[u8]) -> Result<(Table, &[u8]), Refusal> {
    let (l, n) = read_table_sizes(bytes)?;
    let (form, rest) = bytes
        .split_at_checked(table_length(l, n))
        .ok_or(Refusal::Torn)?;
    Ok((read_entries(l, n, form)?, rest))
}

/// Writes a table's entries as they are and gives the length of the form. A table value meets
/// 2, 3 and 4, then 9 where the output is too short; a refusal writes nothing.
pub fn write_table(table: &Table, out: &mut [u8]) -> Result<usize, Refusal> {
    table.check()?;
    put(&form_of(table), out)
}

/// The sizes of an equations' form, present (1) and within the limits (7), of the right length (1);
/// and the numbers after them.
fn read_equation_sizes(bytes: &[u8]) -> Result<(usize, usize, Vec<u16>), Refusal> {
    let (e, m) = read_sizes(bytes)?;
    let (e, m) = (usize::from(e), usize::from(m));
    if e > EQUATIONS || m > TOKENS {
        return Err(Refusal::Long);
    }
    if bytes.len() != equations_length(e, m) {
        return Err(Refusal::Torn);
    }
    Ok((e, m, words_of(&bytes[4..])))
}

/// Refusal 6: the counts must sum to m.
fn check_sum(counts: &[u16], m: usize) -> Result<(), Refusal> {
    if counts
        .iter()
        .map(|&count| usize::from(count))
        .sum::<usize>()
        == m
    {
        Ok(())
    } else {
        Err(Refusal::Term)
    }
}

/// Takes so many tokens from the front of a row.
fn take(tokens: &mut &[u16], count: u16) -> Vec<u16> {
    let (term, rest) = tokens.split_at(usize::from(count));
    *tokens = rest;
    term.to_vec()
}

/// Reads equations about l variables: sizes present (1), 7, length (1), sum (6), then equation
/// by equation the left variable, the tokens in order and the whole term.
pub fn read_equations(l: u32, bytes: &[u8]) -> Result<Vec<Equation>, Refusal> {
    let (e, m, words) = read_equation_sizes(bytes)?;
    let (lefts, words) = words.split_at(e);
    let (counts, mut tokens) = words.split_at(e);
    check_sum(counts, m)?;
    let rows = lefts.iter().zip(counts);
    let equations: Vec<Equation> = rows
        .map(|(&left, &count)| Equation {
            left,
            term: take(&mut tokens, count),
        })
        .collect();
    for equation in &equations {
        check_equation(l, u32::from(equation.left), &equation.term)?;
    }
    Ok(equations)
}

/// Reads equations of two terms: the same, with the counts of the left sides in place of the left
/// variables. All counts together sum to m (6); of each equation the left side comes first.
pub fn read_two_terms(l: u32, bytes: &[u8]) -> Result<Vec<TwoTerms>, Refusal> {
    let (e, m, words) = read_equation_sizes(bytes)?;
    let (counts, mut tokens) = words.split_at(2 * e);
    check_sum(counts, m)?;
    let (lefts, rights) = counts.split_at(e);
    let rows = lefts.iter().zip(rights);
    let equations: Vec<TwoTerms> = rows
        .map(|(&left, &right)| TwoTerms {
            left: take(&mut tokens, left),
            right: take(&mut tokens, right),
        })
        .collect();
    for TwoTerms { left, right } in &equations {
        check_terms(l, left, right)?;
    }
    Ok(equations)
}

/// Writes equations and gives the length of the form: 7 where there are too many equations or
/// tokens, 9 where the output is too short; a refusal writes nothing.
pub fn write_equations(equations: &[Equation], out: &mut [u8]) -> Result<usize, Refusal> {
    let lefts = equations.iter().map(|equation| equation.left);
    let counts = equations.iter().map(|equation| equation.term.len() as u16);
    let tokens = equations.iter().map(|equation| &equation.term[..]);
    put_equations(lefts, counts, tokens, out)
}

/// The same for equations of two terms.
pub fn write_two_terms(equations: &[TwoTerms], out: &mut [u8]) -> Result<usize, Refusal> {
    let lefts = equations.iter().map(|terms| terms.left.len() as u16);
    let rights = equations.iter().map(|terms| terms.right.len() as u16);
    let tokens = equations
        .iter()
        .flat_map(|terms| [&terms.left[..], &terms.right]);
    put_equations(lefts, rights, tokens, out)
}

/// Writes the sizes, the two arrays and the tokens of an equations' form.
fn put_equations<'a>(
    first: impl ExactSizeIterator<Item = u16>,
    second: impl Iterator<Item = u16>,
    tokens: impl Iterator<Item = &'a [u16]>,
    out: &mut [u8],
) -> Result<usize, Refusal> {
    let e = first.len();
    let tokens: Vec<u16> = tokens.flatten().copied().collect();
    if e > EQUATIONS || tokens.len() > TOKENS {
        return Err(Refusal::Long);
    }
    let sizes = [e as u16, tokens.len() as u16];
    let words = sizes.into_iter().chain(first).chain(second).chain(tokens);
    put(&bytes_of(words), out)
}

/// Reads the tokens of a term handed over by itself: 7 where half the length, rounded down, is
/// above 1024, then 1 where the length is odd.
pub fn read_tokens(bytes: &[u8]) -> Result<Vec<u16>, Refusal> {
    if bytes.len() / 2 > TOKENS {
        return Err(Refusal::Long);
    }
    if !bytes.len().is_multiple_of(2) {
        return Err(Refusal::Torn);
    }
    Ok(words_of(bytes))
}

/// Reads the tokens of two terms handed over by themselves: 7 where half of each length, rounded
/// down, is together above 1024, then 1 where the left length is odd, then the right.
pub fn read_two_tokens(left: &[u8], right: &[u8]) -> Result<(Vec<u16>, Vec<u16>), Refusal> {
    if left.len() / 2 + right.len() / 2 > TOKENS {
        return Err(Refusal::Long);
    }
    Ok((read_tokens(left)?, read_tokens(right)?))
}

/// Puts a form at the front of an output, whose later bytes keep what they held; 9 where the
/// output is too short.
pub(crate) fn put(form: &[u8], out: &mut [u8]) -> Result<usize, Refusal> {
    let place = out.get_mut(..form.len()).ok_or(Refusal::Narrow)?;
    place.copy_from_slice(form);
    Ok(form.len())
}
