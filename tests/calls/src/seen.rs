//! What has to come of equations whose term is their left variable or holds it deeper, and of reasons.

/// What comes of one; the ledger counts it.
#[derive(Clone, Copy, Debug, PartialEq, Eq, PartialOrd, Ord)]
pub enum Seen {
    /// A value that reading would change, kept as it was.
    UngrownKept,
    /// Bytes that reading changes, written as read.
    ReadKept,
    /// No groups left of a table that had some.
    NoneLeft,
    /// An accepted call where the ordinary rule is full.
    NotFull,
    Refused,
    /// A walk with such equations that leaves the table as given.
    WalkKept,
    /// A walk with a deeper x, and no groups left.
    WalkNoneLeft,
    /// A walk that is full before it comes to a deeper x.
    FullBefore,
    /// A walk in which a deeper x comes before what was full.
    FullAfter,
    /// A walk with such equations that clashes.
    Clashed,
    /// A reason where the equation itself is full.
    ReasonWhereFull,
    /// A reason that names other entries than the table as given has.
    EntriesAsRead,
}

impl Seen {
    /// All of them.
    pub const ALL: [Seen; 12] = [
        Seen::UngrownKept,
        Seen::ReadKept,
        Seen::NoneLeft,
        Seen::NotFull,
        Seen::Refused,
        Seen::WalkKept,
        Seen::WalkNoneLeft,
        Seen::FullBefore,
        Seen::FullAfter,
        Seen::Clashed,
        Seen::ReasonWhereFull,
        Seen::EntriesAsRead,
    ];

    /// What is printed beside the count.
    pub fn name(self) -> &'static str {
        match self {
            Seen::UngrownKept => "x = x on a value that is not grown",
            Seen::ReadKept => "x = x on bytes that reading changes",
            Seen::NoneLeft => "a deeper x leaves no groups",
            Seen::NotFull => "the ordinary rule would be full",
            Seen::Refused => "refused before either",
            Seen::WalkKept => "x = x in a walk",
            Seen::WalkNoneLeft => "a deeper x in a walk",
            Seen::FullBefore => "full, then a deeper x",
            Seen::FullAfter => "a deeper x, then full",
            Seen::Clashed => "a clash beside either",
            Seen::ReasonWhereFull => "a reason where the equation is full",
            Seen::EntriesAsRead => "a reason by entries that reading changes",
        }
    }
}
