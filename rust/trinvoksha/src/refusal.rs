//! When the box says no.

use std::error::Error;
use std::fmt;

/// A refusal, by the paper's number. The first that applies counts, in this order.
#[repr(u64)]
#[derive(Clone, Copy, PartialEq, Eq, PartialOrd, Ord, Hash, Debug)]
pub enum Refusal {
    /// 1: the table is not sound. All calls but set-up.
    NotSound = 1,
    /// 2: place ≥ 16. Open, close, arrive, depart.
    NoPlace = 2,
    /// 3: place already open. Open.
    AlreadyOpen = 3,
    /// 4: place not open. Close, arrive, depart.
    NotOpen = 4,
    /// 5: bad figures: level > 7, cap = 0, cap > gap, gap > 1,000,000; budget = 0, budget > cap, away = 0, away > 1,000,000; n > 4,096.
    /// Open, arrive, advance.
    BadFigures = 5,
    /// 6: a job is live here. Arrive, close.
    JobLive = 6,
    /// 7: now < next, the gap since the last arrival is not over. Arrive, close.
    TooEarly = 7,
    /// 8: now + away, or now + n, is beyond 4,000,000,000. Arrive, slot, advance.
    BeyondClock = 8,
    /// 9: would not fit; no plan of the coming slots serves the new job and every live one. Arrive, under policy 1 only.
    NoFit = 9,
    /// 10: no job is live here. Depart.
    NoJob = 10,
    /// 11: start > record length, or fewer than n bytes from the start on. Advance.
    NoRoom = 11,
    /// 12: policy is neither 1 nor 2. Set-up.
    NoPolicy = 12,
}

/// Every refusal, in the order of the paper.
const REFUSALS: [Refusal; 12] = [
    Refusal::NotSound,
    Refusal::NoPlace,
    Refusal::AlreadyOpen,
    Refusal::NotOpen,
    Refusal::BadFigures,
    Refusal::JobLive,
    Refusal::TooEarly,
    Refusal::BeyondClock,
    Refusal::NoFit,
    Refusal::NoJob,
    Refusal::NoRoom,
    Refusal::NoPolicy,
];

impl Refusal {
    /// The refusal of this number; `None` for 0, which is done, and for a number that no call answers.
    #[must_use]
    pub fn of(number: u64) -> Option<Refusal> {
        REFUSALS.into_iter().find(|refusal| refusal.number() == number)
    }

    /// The paper's number.
    #[must_use]
    pub fn number(self) -> u64 {
        self as u64
    }
}

/// The paper's words.
impl fmt::Display for Refusal {
    fn fmt(&self, f: &mut fmt::Formatter<'_>) -> fmt::Result {
        f.write_str(match self {
            Refusal::NotSound => "the table is not sound",
            Refusal::NoPlace => "place ≥ 16",
            Refusal::AlreadyOpen => "place already open",
            Refusal::NotOpen => "place not open",
            Refusal::BadFigures => "bad figures",
            Refusal::JobLive => "a job is live here",
            Refusal::TooEarly => "now < next",
            Refusal::BeyondClock => "now + away, or now + n, is beyond 4,000,000,000",
            Refusal::NoFit => "would not fit",
            Refusal::NoJob => "no job is live here",
            Refusal::NoRoom => "start > record length, or fewer than n bytes from the start on",
            Refusal::NoPolicy => "policy is neither 1 nor 2",
        })
    }
}

impl Error for Refusal {}

#[cfg(test)]
mod tests {
    use super::*;

    #[test]
    fn numbers_and_refusals_go_both_ways() {
        for number in 1..=12 {
            assert_eq!(Refusal::of(number).map(Refusal::number), Some(number));
        }
        assert_eq!(Refusal::of(0), None);
        assert_eq!(Refusal::of(13), None);
    }

    #[test]
    fn words_are_the_papers() {
        assert_eq!(Refusal::NoFit.to_string(), "would not fit");
    }
}
