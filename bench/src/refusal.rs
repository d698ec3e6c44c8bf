//! Why something is refused, with the numbers of the scope document and the requests.

#[derive(Clone, Copy, Debug, PartialEq, Eq)]
pub enum Refusal {
    /// Not one of the seven forms, or its end is missing.
    Malformed = 1,
    /// A value outside its limits.
    OutOfLimits = 2,
    /// A form out of its place.
    Misplaced = 3,
    /// A number already used, or twice in a call.
    NumberUsed = 4,
    /// The mandatory slots are not feasible.
    HeadInfeasible = 5,
    /// A clock below the present one.
    ClockBack = 6,
    /// A call that is not feasible.
    CallInfeasible = 7,
    /// Something lent is shorter than it has to be.
    TooShort = 8,
    /// The 33rd preset or the 65th job.
    TooMany = 9,
    /// A text above 32,768 bytes.
    TextTooLong = 10,
    /// A table handed over that is not well-formed, or a clock outside its range.
    TableNotWellFormed = 11,
    /// A row that is not three decimal fields with CR LF.
    NoRow = 12,
}

impl Refusal {
    pub fn number(self) -> u8 {
        self as u8
    }
}
