//! "When the box says no."

/// The refusals under their numbers in the paper.
#[derive(Clone, Copy, PartialEq, Eq, Debug)]
pub(crate) enum Refusal {
    /// "The table is not sound."
    NotSound = 1,
    /// "Place ≥ 16."
    NoSuchPlace = 2,
    /// "Place already open."
    AlreadyOpen = 3,
    /// "Place not open."
    NotOpen = 4,
    /// "Bad figures."
    BadFigures = 5,
    /// "A job is live here."
    JobIsLive = 6,
    /// "now < next."
    InsideTheGap = 7,
    /// "now + D, or now + n, is beyond 4,000,000,000."
    BeyondTheClock = 8,
    /// "Would not fit (policy 1 only)."
    WouldNotFit = 9,
    /// "No job is live here."
    NoJobIsLive = 10,
    /// "Start > record length, or fewer than n bytes from the start on."
    RecordTooShort = 11,
    /// "Policy is neither 1 nor 2."
    NoSuchPolicy = 12,
}

impl Refusal {
    /// The number that stands for this refusal in an answer.
    pub(crate) fn number(self) -> u64 {
        self as u64
    }

    /// Refuses when the condition holds; a chain of these keeps the order of the paper's table:
    /// "the first that applies counts".
    pub(crate) fn when(self, applies: bool) -> Result<(), Refusal> {
        if applies {
            Err(self)
        } else {
            Ok(())
        }
    }
}
