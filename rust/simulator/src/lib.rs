//! An independent simulator of the sixteen-place job scheduler.
//!
//! It is written from the paper alone and in another style than a scan over a table: the figures
//! of a sound table become jobs as values in a queue, the world of those jobs is stepped, and the
//! figures are read off again. Whether a new job fits is found out by looking for a plan.
//!
//! [`watch`] is a second, separate reader of histories: it keeps books of its own from what a
//! board sees and counts the demands on it.

mod figures;
mod plan;
mod refusal;
mod soundness;
pub mod watch;
mod world;

pub use figures::{Call, Figures, Outcome, PlaceFigures, END_OF_CLOCK, IDLE, LAST_LEVEL, LONGEST_SPAN, MOST_SLOTS, PLACES};
pub use plan::{plan_by_flow, plan_by_trying, Need, Plan, Stretch};
pub use soundness::is_sound;

use refusal::Refusal;
use world::World;

/// "**Set up** (policy). Clock 0, idle 0, all places closed, all totals 0."
///
/// "A refused set-up, where no table is lent, returns a table of zeros, which is not sound."
pub fn set_up(policy: u64) -> Outcome {
    match policy {
        1 | 2 => Outcome { number: 0, place: IDLE, table: Figures { policy, ..Figures::ZEROS } },
        _ => refused(Refusal::NoSuchPolicy, &Figures::ZEROS),
    }
}

/// Makes one call on a table: "every call takes the whole table and hands it back with its
/// answer".
///
/// The record is looked at by [`Call::Advance`] alone. On a refusal "the table comes back as it
/// was given, and the record keeps every byte".
pub fn call(table: &Figures, call: &Call, record: &mut [u8]) -> Outcome {
    if !is_sound(table) {
        return refused(Refusal::NotSound, table);
    }
    let mut world = World::of(table);
    match world.answer(call, record) {
        Ok(place) => Outcome { number: 0, place, table: world.figures() },
        Err(refusal) => refused(refusal, table),
    }
}

/// A refusal, with the table as it was given.
fn refused(refusal: Refusal, table: &Figures) -> Outcome {
    Outcome { number: refusal.number(), place: IDLE, table: *table }
}
