//! The numbered refusals (01, "Refusals", and from 12 on 02).

/// One refusal; its number and its condition are those of 01 and 02.
#[derive(Clone, Copy, Debug, PartialEq, Eq, Hash)]
pub enum Refusal {
    /// The length is not what the sizes give.
    Torn = 1,
    /// l is outside 1 to 32.
    Width = 2,
    /// More than 256 entries.
    Entries = 3,
    /// A bit above l, or a value without care.
    Stray = 4,
    /// A variable that is not 1 to l.
    Name = 5,
    /// The counts do not sum to m, or a count is not one whole term.
    Term = 6,
    /// More than 64 equations or more than 1024 tokens.
    Long = 7,
    /// Entry 257 is needed.
    Full = 8,
    /// The lent output is too short.
    Narrow = 9,
    /// Two tables of different l.
    Unlike = 10,
    /// Projection onto no variable, or onto one above l; a group of no variable.
    Keep = 11,
    /// A packed byte of 243 or more, or an unused digit that is not 0.
    Digit = 12,
}

impl Refusal {
    /// The number of 01 and 02.
    pub fn number(self) -> u32 {
        self as u32
    }
}

/// The number that a call returns: 0 where accepted, else the refusal's number.
pub fn number_of<T>(outcome: &Result<T, Refusal>) -> u32 {
    match outcome {
        Ok(_) => 0,
        Err(refusal) => refusal.number(),
    }
}
