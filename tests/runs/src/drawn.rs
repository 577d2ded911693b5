//! Drawn inputs, the same ones in each run: the program and the plain implementation print the same
//! text.

use crate::damage::damage;
use crate::inputs::{crowded_input, input, long_input, small_input, Input};
use crate::tally::Tally;
use crate::tester::Tester;
use reference::report;
use support::tables::Size;
use support::{Checked, Random};

/// How many inputs are drawn.
const INPUTS: usize = 4000;

/// Compares all of them, and prints how often each number was answered. Gives how many there were.
pub fn check(tester: &mut Tester) -> Checked<usize> {
    let mut random = Random::new(31);
    let mut tally = Tally::default();
    for number in 1..=INPUTS {
        let input = draw(&mut random).bytes;
        let plain = report(&input);
        tester.check(&format!("drawn input {number}"), &input, &plain.text)?;
        tally.enter(&input, &plain);
    }
    tally.print();
    match tally.complaints() {
        complaints if complaints.is_empty() => Ok(INPUTS),
        complaints => Err(complaints.join("\n")),
    }
}

/// One input: some are whole, most are damaged once or twice.
pub fn draw(random: &mut Random) -> Input {
    match random.below(100) {
        0..=19 => input(Size::Light, random),
        20..=27 => input(Size::Wide, random),
        28..=31 => input(Size::Any, random),
        32..=41 => crowded_input(random),
        42..=46 => long_input(random),
        _ => damaged(random),
    }
}

/// An input that was damaged at least once. Most are small, so that the damage is seldom where it
/// changes nothing.
fn damaged(random: &mut Random) -> Input {
    let mut input = match random.below(20) {
        0 => input(Size::Any, random),
        1 => long_input(random),
        2..=4 => input(Size::Wide, random),
        _ => small_input(random),
    };
    for _ in 0..random.pick(&[1, 1, 1, 2, 2, 3]) {
        damage(&mut input, random);
    }
    input
}
