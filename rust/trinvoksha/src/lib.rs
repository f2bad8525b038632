//! The proved scheduler, for Rust programs.
//!
//! A [`Table`] holds all there is: the policy, the clock and sixteen places. Every call takes the whole table and hands back a table with
//! its answer. A call is done where [`Answer::refusal`] is `None`; a refused call hands back the table as it came.
//!
//! Nothing has to be checked before a call. Every pattern of numbers is a table, and one that is not sound is refused with
//! [`Refusal::NotSound`]. What each call answers is proved for every table and every argument; this package only declares the calls to
//! Rust. Its tests try that the structs are laid out here as in the library.
//!
//! ```
//! use trinvoksha::{Refusal, Span, Table, EARLIEST_DEADLINE};
//!
//! # fn main() -> Result<(), Refusal> {
//! let table = Table::set_up(EARLIEST_DEADLINE).done()?;
//! let table = table.open(0, 0, Span(3), Span(10)).done()?;
//! let table = table.open(1, 0, Span(4), Span(20)).done()?;
//!
//! let table = table.arrive(0, Span(3), Span(4)).done()?;
//! // the two jobs together would need five slots by tick 4
//! let answer = table.arrive(1, Span(2), Span(2));
//! assert_eq!(answer.refusal(), Some(Refusal::NoFit));
//! assert_eq!(answer.table, table);
//! let table = table.arrive(1, Span(1), Span(2)).done()?;
//!
//! let mut record = [0; 5];
//! let table = table.advance(Span(5), &mut record, 0).done()?;
//! assert_eq!(record, [1, 0, 0, 0, 255]);
//! assert_eq!(table.now.0, 5);
//! # Ok(())
//! # }
//! ```
#![warn(missing_docs)]

mod layout;
mod raw;
mod refusal;
mod table;
mod time;

pub use layout::{layout_read, layout_version, layout_write, LAYOUT, MARKS};
pub use refusal::Refusal;
pub use table::{Answer, Choice, Place, Table, Turn};
pub use time::{Instant, Span};

/// The number of places of a table: 0 to 15.
pub const PLACES: usize = 16;
/// The last tick of the clock.
pub const LAST_TICK: u64 = 4_000_000_000;
/// The longest gap, and the farthest that a deadline may lie ahead, in ticks.
pub const LONGEST_SPAN: u64 = 1_000_000;
/// The least urgent level; 0 is the most urgent.
pub const LAST_LEVEL: u64 = 7;
/// The most slots of one advance.
pub const MOST_SLOTS: u64 = 4_096;
/// What stands for nobody where a place is named: the slot is idle.
pub const NOBODY: u64 = 255;

/// The policy under which the live job with the earliest deadline is served, and a job that would not fit is refused.
pub const EARLIEST_DEADLINE: u64 = 1;
/// The policy under which the live job with the smallest level is served, and a job whose deadline passes is dropped.
pub const FIXED_PRIORITY: u64 = 2;

/// The number of an answer that is no refusal.
pub const DONE: u64 = 0;

/// The ending of a place where none has ended, or one is live.
pub const NO_ENDING: u64 = 0;
/// The ending of a job that was withdrawn.
pub const LEFT: u64 = 1;
/// The ending of a job that was given all it asked for.
pub const SPENT: u64 = 2;
/// The ending of a job whose deadline passed; under [`FIXED_PRIORITY`] only.
pub const LATE: u64 = 3;
