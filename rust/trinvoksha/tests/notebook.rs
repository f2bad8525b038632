//! Cases of the bench notebook: A, H and K.

use trinvoksha::{Refusal, Span, Table, EARLIEST_DEADLINE, FIXED_PRIORITY, LATE};

/// A table with the notebook's three reserves: place 0 has cap 3, gap 10; place 1 cap 4, gap 20; place 2 cap 1, gap 5.
fn bench(policy: u64, levels: [u64; 3]) -> Result<Table, Refusal> {
    let fresh = Table::set_up(policy).done()?;
    let zero = fresh.open(0, levels[0], Span(3), Span(10)).done()?;
    let one = zero.open(1, levels[1], Span(4), Span(20)).done()?;
    one.open(2, levels[2], Span(1), Span(5)).done()
}

#[test]
fn case_a() -> Result<(), Refusal> {
    let table = bench(EARLIEST_DEADLINE, [0, 0, 0])?;
    let table = table.arrive(0, Span(3), Span(7)).done()?;
    let table = table.arrive(1, Span(4), Span(7)).done()?;
    let table = table.arrive(2, Span(1), Span(8)).done()?;
    let mut record = [9; 9];
    let after = table.advance(Span(9), &mut record, 0).done()?;
    assert_eq!(record, [0, 0, 0, 1, 1, 1, 1, 2, 255]);
    assert_eq!(after.now.0, 9);
    assert!(after.is_sound());
    Ok(())
}

/// The same, a slot at a time: each slot goes where the election says.
#[test]
fn case_a_by_single_slots() -> Result<(), Refusal> {
    let table = bench(EARLIEST_DEADLINE, [0, 0, 0])?;
    let table = table.arrive(0, Span(3), Span(7)).done()?;
    let table = table.arrive(1, Span(4), Span(7)).done()?;
    let mut table = table.arrive(2, Span(1), Span(8)).done()?;
    for place in [0, 0, 0, 1, 1, 1, 1, 2, 255] {
        let choice = table.election();
        assert_eq!((choice.refusal(), choice.place), (None, place));
        let turn = table.slot();
        assert_eq!(turn.place, place);
        table = turn.done()?;
    }
    Ok(())
}

#[test]
fn case_h() -> Result<(), Refusal> {
    let table = bench(FIXED_PRIORITY, [5, 2, 0])?;
    let table = table.arrive(0, Span(3), Span(5)).done()?;
    let table = table.arrive(1, Span(4), Span(5)).done()?;
    let mut record = [9; 5];
    let after = table.advance(Span(5), &mut record, 0).done()?;
    assert_eq!(record, [1, 1, 1, 1, 0]);
    assert_eq!(after.places[0].ending, LATE);
    Ok(())
}

#[test]
fn case_k() -> Result<(), Refusal> {
    let table = bench(EARLIEST_DEADLINE, [0, 0, 0])?;
    let mut record = [9; 10];
    let after = table.advance(Span(2), &mut record, 8).done()?;
    let full = after.advance(Span(3), &mut record, 8);
    assert_eq!((full.refusal(), full.table), (Some(Refusal::NoRoom), after));
    let outside = after.advance(Span(0), &mut record, 11);
    assert_eq!((outside.refusal(), outside.table), (Some(Refusal::NoRoom), after));
    assert_eq!(record, [9, 9, 9, 9, 9, 9, 9, 9, 255, 255]);
    Ok(())
}
