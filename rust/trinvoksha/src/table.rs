//! The table, what the calls answer, and the calls.

use crate::raw;
use crate::{Instant, Refusal, Span, DONE, PLACES};
use std::mem::size_of;

/// A place: its reserve, its job, and what it was given. Every pattern of numbers is a place.
#[repr(C)]
#[derive(Clone, Copy, PartialEq, Eq, Hash, Debug, Default)]
pub struct Place {
    /// 1 open, 0 closed.
    pub opened: u64,
    /// 0 is the most urgent.
    pub level: u64,
    /// The most slots that one job may ask for.
    pub cap: Span,
    /// The least span from one arrival to the next.
    pub gap: Span,
    /// Before this instant no new job may start.
    pub next: Instant,
    /// 1 where a job is live, 0 where none is.
    pub live: u64,
    /// The slots that the live job asked for.
    pub budget: Span,
    /// The slots that it still needs.
    pub remaining: Span,
    /// The instant by which it wants them.
    pub deadline: Instant,
    /// How the last job ended: [`NO_ENDING`](crate::NO_ENDING), [`LEFT`](crate::LEFT), [`SPENT`](crate::SPENT) or [`LATE`](crate::LATE).
    pub ending: u64,
    /// The slots ever given to this place since set-up; closing does not clear it.
    pub total: Span,
}

/// The table: all that a call needs to know. Every pattern of numbers is a table; the default is the table of zeros, which is not sound.
#[repr(C)]
#[derive(Clone, Copy, PartialEq, Eq, Hash, Debug, Default)]
pub struct Table {
    /// [`EARLIEST_DEADLINE`](crate::EARLIEST_DEADLINE) or [`FIXED_PRIORITY`](crate::FIXED_PRIORITY).
    pub policy: u64,
    /// The clock.
    pub now: Instant,
    /// The slots in which no job was live.
    pub idle: Span,
    /// The places, 0 to 15.
    pub places: [Place; PLACES],
}

/// What most calls answer.
#[repr(C)]
#[derive(Clone, Copy, PartialEq, Eq, Hash, Debug)]
#[must_use]
pub struct Answer {
    /// 0 where the call is done, and else the number of its [`Refusal`].
    pub number: u64,
    /// The table after the call; where it is refused, as it came.
    pub table: Table,
}

/// What the election answers.
#[repr(C)]
#[derive(Clone, Copy, PartialEq, Eq, Hash, Debug)]
#[must_use]
pub struct Choice {
    /// 0 where the call is done, and else the number of its [`Refusal`].
    pub number: u64,
    /// The place whose slot comes next, or [`NOBODY`](crate::NOBODY).
    pub place: u64,
}

/// What a slot answers.
#[repr(C)]
#[derive(Clone, Copy, PartialEq, Eq, Hash, Debug)]
#[must_use]
pub struct Turn {
    /// 0 where the call is done, and else the number of its [`Refusal`].
    pub number: u64,
    /// The place that was given the slot, or [`NOBODY`](crate::NOBODY).
    pub place: u64,
    /// The table after the slot; where it is refused, as it came.
    pub table: Table,
}

const _: () = assert!(size_of::<Place>() == 88);
const _: () = assert!(size_of::<Table>() == 1432);
const _: () = assert!(size_of::<Answer>() == 1440);
const _: () = assert!(size_of::<Choice>() == 16);
const _: () = assert!(size_of::<Turn>() == 1448);

/// What the number of an answer says.
fn refusal_of(number: u64) -> Option<Refusal> {
    let refusal = Refusal::of(number);
    assert!(number == DONE || refusal.is_some(), "no call answers {number}");
    refusal
}

impl Answer {
    /// Why the call was refused; `None` where it is done.
    ///
    /// # Panics
    /// Where the number was put in by hand, and no call answers it.
    #[must_use]
    pub fn refusal(self) -> Option<Refusal> {
        refusal_of(self.number)
    }

    /// The table where the call is done, and else the refusal.
    pub fn done(self) -> Result<Table, Refusal> {
        self.refusal().map_or(Ok(self.table), Err)
    }
}

impl Choice {
    /// Why the call was refused; `None` where it is done.
    ///
    /// # Panics
    /// Where the number was put in by hand, and no call answers it.
    #[must_use]
    pub fn refusal(self) -> Option<Refusal> {
        refusal_of(self.number)
    }
}

impl Turn {
    /// Why the call was refused; `None` where it is done.
    ///
    /// # Panics
    /// Where the number was put in by hand, and no call answers it.
    #[must_use]
    pub fn refusal(self) -> Option<Refusal> {
        refusal_of(self.number)
    }

    /// The table where the call is done, and else the refusal.
    pub fn done(self) -> Result<Table, Refusal> {
        self.refusal().map_or(Ok(self.table), Err)
    }
}

// SAFETY, of every call below: a table, a span and a number are numbers, passed by value, and any numbers are a table, a span and a
// number. The library keeps nothing between calls. The one that takes a reference says what it needs.
impl Table {
    /// A fresh table under this policy: clock 0, idle 0, all places closed, all totals 0. Refused with
    /// [`NoPolicy`](Refusal::NoPolicy) it hands back the table of zeros, which is not sound.
    pub fn set_up(policy: u64) -> Answer {
        unsafe { raw::trinvoksha_set_up(policy) }
    }

    /// Opens the place as a reserve of this level, cap and gap; next 0, no job, ending 0.
    pub fn open(self, place: u64, level: u64, cap: Span, gap: Span) -> Answer {
        unsafe { raw::trinvoksha_open(self, place, level, cap, gap) }
    }

    /// Closes the place: it returns to zeros, its total kept.
    pub fn close(self, place: u64) -> Answer {
        unsafe { raw::trinvoksha_close(self, place) }
    }

    /// A job arrives at the place: it asks for `budget` slots and wants them before the instant `away` ticks from now. A refused arrival
    /// uses up no gap.
    pub fn arrive(self, place: u64, budget: Span, away: Span) -> Answer {
        unsafe { raw::trinvoksha_arrive(self, place, budget, away) }
    }

    /// The job of the place is withdrawn: gone with ending [`LEFT`](crate::LEFT); next stays.
    pub fn depart(self, place: u64) -> Answer {
        unsafe { raw::trinvoksha_depart(self, place) }
    }

    /// Whose slot comes next. Asking changes nothing.
    pub fn election(self) -> Choice {
        unsafe { raw::trinvoksha_election(self) }
    }

    /// One slot: whose it was, and the table after it.
    pub fn slot(self) -> Turn {
        unsafe { raw::trinvoksha_slot(self) }
    }

    /// The same as n single slots. The place of each, or 255 for nobody, is written into the record from the byte `start` on; no other
    /// byte changes, and none where the call is refused.
    pub fn advance(self, n: Span, slots: &mut [u8], start: usize) -> Answer {
        // SAFETY: besides, the pointer and the length are a slice's that is lent to this call alone.
        unsafe { raw::trinvoksha_advance(self, n, slots.as_mut_ptr(), slots.len(), start) }
    }

    /// Whether the table is sound.
    #[must_use]
    pub fn is_sound(self) -> bool {
        unsafe { raw::trinvoksha_is_sound(self) == 1 }
    }
}
