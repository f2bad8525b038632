//! "A table is **sound** when all of these hold", clause by clause, on the raw figures.

use crate::figures::{wide, Figures, PlaceFigures, END_OF_CLOCK, LAST_LEVEL, LONGEST_SPAN};

/// Whether every clause of soundness holds of these figures, whatever numbers they are.
pub fn is_sound(table: &Figures) -> bool {
    matches!(table.policy, 1 | 2)
        && table.now <= END_OF_CLOCK
        && slots_add_up(table)
        && table.places.iter().all(|place| is_place_sound(place, table.now))
        && (table.policy != 1 || remaining_slots_find_room(table))
}

/// "The sixteen totals plus idle equal now."
fn slots_add_up(table: &Figures) -> bool {
    let given: u128 = table.places.iter().map(|place| wide(place.total)).sum();
    given + wide(table.idle) == wide(table.now)
}

/// The clauses that speak of one place; the two flags are held to 0 or 1.
fn is_place_sound(place: &PlaceFigures, now: u64) -> bool {
    match (place.opened, place.live) {
        (0, 0) => is_zero_but_for_its_total(place),
        (1, 0) => is_reserve_sound(place, now) && holds_no_job(place),
        (1, 1) => is_reserve_sound(place, now) && is_job_sound(place, now),
        _ => false,
    }
}

/// "A closed place is zero in everything but its total."
fn is_zero_but_for_its_total(place: &PlaceFigures) -> bool {
    let total = place.total;
    *place == PlaceFigures { total, ..PlaceFigures::ZEROS }
}

/// "An open place has level ≤ 7, 1 ≤ C ≤ T ≤ 1,000,000, next ≤ now + T, ending 0 to 3."
fn is_reserve_sound(place: &PlaceFigures, now: u64) -> bool {
    place.level <= LAST_LEVEL
        && 1 <= place.cap
        && place.cap <= place.gap
        && place.gap <= LONGEST_SPAN
        && wide(place.next) <= wide(now) + wide(place.gap)
        && place.ending <= 3
}

/// "No live job: b, remaining and deadline are 0."
fn holds_no_job(place: &PlaceFigures) -> bool {
    place.budget == 0 && place.remaining == 0 && place.deadline == 0
}

/// "A live job is on an open place, with ending 0, 1 ≤ remaining ≤ b ≤ C, b − remaining ≤ total,
/// now < deadline ≤ 4,000,000,000, deadline ≤ now + 1,000,000."
fn is_job_sound(place: &PlaceFigures, now: u64) -> bool {
    place.ending == 0
        && 1 <= place.remaining
        && place.remaining <= place.budget
        && place.budget <= place.cap
        && wide(place.budget) - wide(place.remaining) <= wide(place.total)
        && now < place.deadline
        && place.deadline <= END_OF_CLOCK
        && wide(place.deadline) <= wide(now) + wide(LONGEST_SPAN)
}

/// "Under policy 1, for each live deadline d: the remaining slots of all live jobs with
/// deadline ≤ d sum to at most d − now."
fn remaining_slots_find_room(table: &Figures) -> bool {
    let live = || table.places.iter().filter(|place| place.live == 1);
    live().map(|place| place.deadline).all(|deadline| {
        let due: u128 = live().filter(|place| place.deadline <= deadline).map(|place| wide(place.remaining)).sum();
        wide(table.now) + due <= wide(deadline)
    })
}
