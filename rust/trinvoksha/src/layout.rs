//! The trial of the layout: a mark of its own for every field that crosses.

use crate::raw;
use crate::Turn;

/// The version of the layout that this package declares.
pub const LAYOUT: u64 = 1;

/// What every mark is above. A turn holds a whole table, and each of its 181 fields has a mark: the number `MARKS + 1`, the place
/// `MARKS + 2`, the policy, the clock and the idle count `MARKS + 3` to `MARKS + 5`, and the fields of place i, in their order,
/// `MARKS + 16 * (i + 1) + 1` to `+ 11`.
pub const MARKS: u64 = 1_000_000_000_000_000_000;

/// The version of the layout that the library has. It has to be [`LAYOUT`].
#[must_use]
pub fn layout_version() -> u64 {
    // SAFETY: the function takes nothing, and answers a number.
    unsafe { raw::trinvoksha_layout_version() }
}

/// A turn with its mark in every field, written by the library.
pub fn layout_write() -> Turn {
    // SAFETY: the function takes nothing, and answers numbers.
    unsafe { raw::trinvoksha_layout_write() }
}

/// Whether the library finds its mark in every field of the turn.
#[must_use]
pub fn layout_read(turn: Turn) -> bool {
    // SAFETY: a turn is numbers, passed by value, and any numbers are a turn.
    unsafe { raw::trinvoksha_layout_read(turn) == 1 }
}
