//! The exchange types: plain figures that any other implementation can fill in and compare.

/// "Sixteen places, 0 to 15."
pub const PLACES: usize = 16;

/// "The place number, or 255 for idle."
pub const IDLE: u64 = 255;

/// The last tick of the clock: "now ≤ 4,000,000,000".
pub const END_OF_CLOCK: u64 = 4_000_000_000;

/// The largest gap T and the largest D: "T > 1,000,000" and "D > 1,000,000" are bad figures.
pub const LONGEST_SPAN: u64 = 1_000_000;

/// The most slots of one advance: "n > 4,096" is a bad figure.
pub const MOST_SLOTS: u64 = 4_096;

/// The least urgent level: "level 0 to 7", and "level 0 is the most urgent".
pub const LAST_LEVEL: u64 = 7;

/// The figures of one place, as they come: any number may stand in any field.
#[derive(Clone, Copy, PartialEq, Eq, Debug)]
pub struct PlaceFigures {
    /// Open (1) or closed (0); soundness shuts out every other number.
    pub opened: u64,
    /// The level, 0 to 7.
    pub level: u64,
    /// The cap C.
    pub cap: u64,
    /// The gap T.
    pub gap: u64,
    /// "The instant `next` before which no new job may start."
    pub next: u64,
    /// Live (1) or not (0); soundness shuts out every other number.
    pub live: u64,
    /// The budget b of the live job.
    pub budget: u64,
    /// The remaining slots of the live job.
    pub remaining: u64,
    /// The deadline of the live job, an instant.
    pub deadline: u64,
    /// "How the last job ended: 0 none, 1 left, 2 spent, 3 late."
    pub ending: u64,
    /// "The total of slots ever given to this place since set-up; closing does not clear it."
    pub total: u64,
}

impl PlaceFigures {
    /// A closed place that has never had a slot.
    pub const ZEROS: PlaceFigures =
        PlaceFigures { opened: 0, level: 0, cap: 0, gap: 0, next: 0, live: 0, budget: 0, remaining: 0, deadline: 0, ending: 0, total: 0 };
}

/// The figures of a whole table.
#[derive(Clone, Copy, PartialEq, Eq, Debug)]
pub struct Figures {
    /// The policy: "1 earliest deadline, 2 fixed priority".
    pub policy: u64,
    /// The clock.
    pub now: u64,
    /// The count of idle slots.
    pub idle: u64,
    /// The sixteen places.
    pub places: [PlaceFigures; PLACES],
}

impl Figures {
    /// "A refused set-up, where no table is lent, returns a table of zeros, which is not sound."
    pub const ZEROS: Figures = Figures { policy: 0, now: 0, idle: 0, places: [PlaceFigures::ZEROS; PLACES] };
}

/// A call on a table, with its arguments as they come.
#[derive(Clone, Copy, PartialEq, Eq, Debug)]
pub enum Call {
    /// "Open (place, level, C, T)."
    Open {
        /// The place number.
        place: u64,
        /// The level.
        level: u64,
        /// The cap C.
        cap: u64,
        /// The gap T.
        gap: u64,
    },
    /// "Close (place)."
    Close {
        /// The place number.
        place: u64,
    },
    /// "Arrive (place, b, D)."
    Arrive {
        /// The place number.
        place: u64,
        /// The budget b.
        budget: u64,
        /// How far away the deadline is: D.
        away: u64,
    },
    /// "Depart (place)."
    Depart {
        /// The place number.
        place: u64,
    },
    /// Whose slot comes next; asking changes nothing.
    Elect,
    /// One single slot, without a record.
    Slot,
    /// "Advance (n, a lent slot record, a start in it)."
    Advance {
        /// The number of slots n.
        n: u64,
        /// Where the piece to be written begins in the record.
        start: usize,
    },
}

/// What a call hands back.
#[derive(Clone, Copy, PartialEq, Eq, Debug)]
pub struct Outcome {
    /// The answer: 0 done, or the number of the refusal.
    pub number: u64,
    /// The place answered by an election or a slot; [`IDLE`] in every other case.
    pub place: u64,
    /// The table after the call; a refused call hands it back as it was given.
    pub table: Figures,
}

/// A figure in the exact arithmetic, where no sum of a table's figures can wrap.
pub(crate) fn wide(figure: u64) -> u128 {
    u128::from(figure)
}
