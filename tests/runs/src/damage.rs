//! Ways to damage an input.

use crate::inputs::Input;
use support::Random;

/// The largest l, n, e and m.
const LIMITS: [u16; 4] = [32, 256, 64, 1024];

/// Damages an input in one way; now and then what is put in is what was there.
pub fn damage(input: &mut Input, random: &mut Random) {
    let bytes = &mut input.bytes;
    let place = random.below(bytes.len().max(1));
    match random.below(11) {
        0 if !bytes.is_empty() => bytes[place] = random.word() as u8,
        1 if !bytes.is_empty() => bytes[place] ^= 1 << random.below(8),
        2 if !bytes.is_empty() => drop(bytes.remove(place)),
        3 => bytes.insert(place, random.word() as u8),
        4 => cut(bytes, random),
        5 => lengthen(bytes, random),
        6..=8 => change_size(input, random),
        _ => change_word(input, random),
    }
}

/// Cuts the input by a byte or two, or anywhere.
fn cut(bytes: &mut Vec<u8>, random: &mut Random) {
    let any = random.below(bytes.len() + 1);
    let length = bytes.len();
    bytes.truncate(random.pick(&[length.saturating_sub(1), length.saturating_sub(2), any]));
}

/// Adds a few bytes, or as many as make the input about as long as it may be, or too long.
fn lengthen(bytes: &mut Vec<u8>, random: &mut Random) {
    let more = random.pick(&[1, 2, 4, 30]);
    let length = bytes.len() + more;
    let length = random.pick(&[length, length, length, 4097, 8191, 8192, 8193, 8194, 20_000]);
    let more = random.bytes(length.saturating_sub(bytes.len()));
    bytes.extend(more);
}

/// Changes one of the four sizes, where it is still there.
fn change_size(input: &mut Input, random: &mut Random) {
    let which = random.below(4);
    let place = [0, 2, input.rest, input.rest + 2][which];
    let Some(size) = input.bytes.get_mut(place..place + 2) else {
        return;
    };
    let old = u16::from_le_bytes([size[0], size[1]]);
    let (above, limit) = (old.wrapping_add(1), LIMITS[which]);
    // Next to 16 the words of a table have another width.
    let other = if which == 0 {
        16 + u16::from(old <= 16)
    } else {
        above
    };
    let near = [above, old.wrapping_sub(1), 0, limit, limit + 1, other];
    let far = [old ^ 0x100, old ^ 0x8000, u16::MAX];
    let new = random.pick(&[&near[..], &near[..], &far[..]].concat());
    size.copy_from_slice(&new.to_le_bytes());
}

/// Puts another number into one of the words, mostly one after the table: a small one, a head or any.
fn change_word(input: &mut Input, random: &mut Random) {
    let start = random.pick(&[0, input.rest, input.rest]);
    let words = input.bytes.len().saturating_sub(start) / 2;
    if words == 0 {
        return;
    }
    let place = start + 2 * random.below(words);
    let (small, any) = (random.below(34) as u16, random.word() as u16);
    let new = random.pick(&[small, small, 0x8000 | small, any]);
    input.bytes[place..place + 2].copy_from_slice(&new.to_le_bytes());
}
