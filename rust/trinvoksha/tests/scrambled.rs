//! Any numbers at all are a table: one that is not sound is refused with 1 by every call, and comes back as it was.

mod common;

use common::fields;
use trinvoksha::{Refusal, Span, Table, Turn, NOBODY};

/// A table with the next of these numbers in every field.
fn table_of(mut next: impl FnMut() -> u64) -> Table {
    let mut turn = Turn { number: 0, place: 0, table: Table::default() };
    for (field, _) in fields(&mut turn) {
        *field = next();
    }
    turn.table
}

/// Every call on the table is refused with 1, and hands back the table and the record as they came.
fn every_call_refuses(table: Table) {
    assert!(!table.is_sound());
    let mut record = [9; 5];
    let answers = [
        table.open(0, 0, Span(1), Span(1)),
        table.close(0),
        table.arrive(0, Span(1), Span(1)),
        table.depart(0),
        table.open(16, 8, Span(0), Span(0)),
        table.arrive(u64::MAX, Span(u64::MAX), Span(u64::MAX)),
        table.advance(Span(3), &mut record, 1),
        table.advance(Span(u64::MAX), &mut record, usize::MAX),
    ];
    for answer in answers {
        assert_eq!(answer.refusal(), Some(Refusal::NotSound));
        assert_eq!(answer.table, table);
    }
    assert_eq!(record, [9; 5]);
    let turn = table.slot();
    assert_eq!((turn.refusal(), turn.place, turn.table), (Some(Refusal::NotSound), NOBODY, table));
    let choice = table.election();
    assert_eq!((choice.refusal(), choice.place), (Some(Refusal::NotSound), NOBODY));
}

#[test]
fn all_bits_set() {
    every_call_refuses(table_of(|| u64::MAX));
}

#[test]
fn all_zeros() {
    every_call_refuses(Table::default());
    assert_eq!(Table::set_up(3).table, Table::default());
}

/// Numbers that look random, from a fixed start.
fn scramble(mut state: u64) -> impl FnMut() -> u64 {
    move || {
        state ^= state << 13;
        state ^= state >> 7;
        state ^= state << 17;
        state.wrapping_mul(0x2545_F491_4F6C_DD1D)
    }
}

#[test]
fn random_bits() {
    for seed in 1..=2000 {
        every_call_refuses(table_of(scramble(seed)));
    }
}

/// Random bits that leave the policy, the clock and the flags as a sound table could have them.
#[test]
fn random_bits_in_likely_places() {
    for seed in 1..=2000 {
        let mut next = scramble(seed);
        let mut table = table_of(scramble(seed + 2000));
        table.policy = 1 + next() % 2;
        table.now.0 = next() % 4_000_000_000;
        for place in &mut table.places {
            place.opened = next() % 2;
            place.live = next() % 2;
            place.level = next() % 8;
            place.ending = next() % 4;
        }
        every_call_refuses(table);
    }
}
