//! Strings of 0, 1 and `*` (01, "Strings and groups"), each as two words.

/// A string of up to 32 positions: bit i-1 stands for Xi, `care` is 1 where the position is
/// fixed, and `value` is 0 where `care` is 0.
#[derive(Clone, Copy, Debug, PartialEq, Eq, Hash)]
pub struct Entry {
    /// The fixed positions.
    pub care: u32,
    /// The positions fixed to 1.
    pub value: u32,
}

/// The characters of the digits 0, 1 and 2.
const CHARACTERS: [char; 3] = ['0', '1', '*'];

/// The word with ones at positions 1 to l, for l from 0 to 32.
pub fn low_bits(l: u32) -> u32 {
    u32::MAX.checked_shr(32 - l).unwrap_or(0)
}

/// The word that names one variable, numbered from 1.
pub fn variable_bit(variable: u32) -> u32 {
    1 << (variable - 1)
}

/// The single bits of a word, in rising order of position.
pub fn rising_bits(mut word: u32) -> impl Iterator<Item = u32> {
    std::iter::from_fn(move || {
        let lowest = word & word.wrapping_neg();
        word ^= lowest;
        (lowest != 0).then_some(lowest)
    })
}

impl Entry {
    /// The string with `*` at each position.
    pub const ALL_STAR: Entry = Entry { care: 0, value: 0 };

    /// The string with 1 at the named positions and `*` elsewhere.
    pub fn ones_at(positions: u32) -> Entry {
        Entry {
            care: positions,
            value: positions,
        }
    }

    /// The string with 0 at the named positions and `*` elsewhere.
    pub fn zeros_at(positions: u32) -> Entry {
        Entry {
            care: positions,
            value: 0,
        }
    }

    /// The string of 0 and 1 that stands for one group of l positions.
    pub fn of_group(l: u32, group: u32) -> Entry {
        Entry {
            care: low_bits(l),
            value: group,
        }
    }

    /// Whether the string has 0 at each of its l positions.
    pub fn is_zero(self, l: u32) -> bool {
        self.care == low_bits(l) && self.value == 0
    }

    /// Whether the words have a bit above l, or a value without care (refusal 4).
    pub fn is_stray(self, l: u32) -> bool {
        self.care & !low_bits(l) != 0 || self.value & !self.care != 0
    }

    /// Whether a string of 0 and 1 is among those that this string stands for.
    pub fn covers(self, group: u32) -> bool {
        group & self.care == self.value
    }

    /// Whether this string covers all that the other covers.
    pub fn subsumes(self, other: Entry) -> bool {
        self.care & other.care == self.care && other.value & self.care == self.value
    }

    /// Match: at each position equal, or one is `*`.
    pub fn matches(self, other: Entry) -> bool {
        (self.value ^ other.value) & self.care & other.care == 0
    }

    /// Meet of matching strings: the fixed value, else `*`. None where they do not match.
    pub fn meet(self, other: Entry) -> Option<Entry> {
        self.matches(other).then_some(Entry {
            care: self.care | other.care,
            value: self.value | other.value,
        })
    }

    /// Or: 1 with anything is 1, 0 with 0 is 0, and the rest is `*`.
    pub fn or(self, other: Entry) -> Entry {
        let value = self.value | other.value;
        Entry {
            care: value | (self.care & other.care),
            value,
        }
    }

    /// The string with the value of one fixed position flipped.
    pub fn flip(self, bit: u32) -> Entry {
        Entry {
            care: self.care,
            value: self.value ^ bit,
        }
    }

    /// The string with `*` at one position.
    pub fn star(self, bit: u32) -> Entry {
        Entry {
            care: self.care & !bit,
            value: self.value & !bit,
        }
    }

    /// The kept positions in rising order (projection).
    pub fn cut(self, keep: u32) -> Entry {
        Entry {
            care: cut_word(self.care, keep),
            value: cut_word(self.value, keep),
        }
    }

    /// The digit at one position: 0, 1, or 2 for `*`.
    pub fn digit(self, bit: u32) -> u8 {
        match (self.care & bit != 0, self.value & bit != 0) {
            (false, _) => 2,
            (true, false) => 0,
            (true, true) => 1,
        }
    }

    /// The string with such a digit in place of the `*` at one position.
    pub fn with_digit(self, bit: u32, digit: u8) -> Entry {
        Entry {
            care: self.care | (bit * u32::from(digit != 2)),
            value: self.value | (bit * u32::from(digit == 1)),
        }
    }

    /// The l positions as characters, position 1 first.
    pub fn text(self, l: u32) -> String {
        rising_bits(low_bits(l))
            .map(|bit| CHARACTERS[usize::from(self.digit(bit))])
            .collect()
    }

    /// The string that the characters write, position 1 first; None for any other character
    /// or for more than 32 of them.
    pub fn parse(text: &str) -> Option<Entry> {
        let mut entry = Entry::ALL_STAR;
        for (i, character) in text.chars().enumerate() {
            let bit = 1u32.checked_shl(i as u32)?;
            let digit = CHARACTERS.iter().position(|&one| one == character)?;
            entry = entry.with_digit(bit, digit as u8);
        }
        Some(entry)
    }
}

/// The bits of a word at the kept positions, moved together in rising order.
pub fn cut_word(word: u32, keep: u32) -> u32 {
    rising_bits(keep)
        .enumerate()
        .filter(|(_, bit)| word & bit != 0)
        .map(|(i, _)| 1 << i)
        .sum()
}
