//! Each limit is where its name says: the number itself is taken, one more is refused.

use trinvoksha::{Instant, Refusal, Span, Table, EARLIEST_DEADLINE, LAST_LEVEL, LAST_TICK, LONGEST_SPAN, MOST_SLOTS, PLACES};

fn fresh() -> Table {
    Table::set_up(EARLIEST_DEADLINE).table
}

#[test]
fn places() {
    let last = PLACES as u64 - 1;
    assert_eq!(fresh().open(last, 0, Span(1), Span(1)).refusal(), None);
    let answer = fresh().open(last + 1, 0, Span(1), Span(1));
    assert_eq!(answer.refusal(), Some(Refusal::NoPlace));
}

#[test]
fn level() {
    assert_eq!(fresh().open(0, LAST_LEVEL, Span(1), Span(1)).refusal(), None);
    let answer = fresh().open(0, LAST_LEVEL + 1, Span(1), Span(1));
    assert_eq!(answer.refusal(), Some(Refusal::BadFigures));
}

#[test]
fn spans() -> Result<(), Refusal> {
    let table = fresh().open(0, 0, Span(1), Span(LONGEST_SPAN)).done()?;
    let answer = fresh().open(0, 0, Span(1), Span(LONGEST_SPAN + 1));
    assert_eq!(answer.refusal(), Some(Refusal::BadFigures));
    assert_eq!(table.arrive(0, Span(1), Span(LONGEST_SPAN)).refusal(), None);
    let answer = table.arrive(0, Span(1), Span(LONGEST_SPAN + 1));
    assert_eq!(answer.refusal(), Some(Refusal::BadFigures));
    Ok(())
}

#[test]
fn slots_of_an_advance() {
    let mut record = vec![0; MOST_SLOTS as usize + 1];
    assert_eq!(fresh().advance(Span(MOST_SLOTS), &mut record, 0).refusal(), None);
    let answer = fresh().advance(Span(MOST_SLOTS + 1), &mut record, 0);
    assert_eq!(answer.refusal(), Some(Refusal::BadFigures));
}

#[test]
fn clock() {
    let mut table = fresh();
    table.now = Instant(LAST_TICK - 1);
    table.idle = Span(LAST_TICK - 1);
    assert!(table.is_sound());
    assert_eq!(table.slot().refusal(), None);
    assert_eq!(table.slot().table.slot().refusal(), Some(Refusal::BeyondClock));
    table.now = Instant(LAST_TICK + 1);
    table.idle = Span(LAST_TICK + 1);
    assert!(!table.is_sound());
}
