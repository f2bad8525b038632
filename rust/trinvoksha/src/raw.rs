//! The functions of the library as it exports them; include/trinvoksha.h declares the same for C.

use crate::{Answer, Choice, Span, Table, Turn};

extern "C" {
    pub fn trinvoksha_set_up(policy: u64) -> Answer;
    pub fn trinvoksha_open(table: Table, place: u64, level: u64, cap: Span, gap: Span) -> Answer;
    pub fn trinvoksha_close(table: Table, place: u64) -> Answer;
    pub fn trinvoksha_arrive(table: Table, place: u64, budget: Span, away: Span) -> Answer;
    pub fn trinvoksha_depart(table: Table, place: u64) -> Answer;
    pub fn trinvoksha_election(table: Table) -> Choice;
    pub fn trinvoksha_slot(table: Table) -> Turn;
    pub fn trinvoksha_advance(table: Table, n: Span, slots: *mut u8, length: usize, start: usize) -> Answer;
    pub fn trinvoksha_is_sound(table: Table) -> u64;
    pub fn trinvoksha_layout_version() -> u64;
    pub fn trinvoksha_layout_write() -> Turn;
    pub fn trinvoksha_layout_read(turn: Turn) -> u64;
}
