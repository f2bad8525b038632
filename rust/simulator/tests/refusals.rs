//! "The first that applies counts, in the order of the table."

mod common;

use common::Bench;
use simulator::{call, Call, Figures, PlaceFigures};

/// The answer on a table, without a record.
fn answer(table: &Figures, made: Call) -> u64 {
    call(table, &made, &mut []).number
}

/// A table at tick 5 of policy 1: place 0 closed, place 1 open and free, place 2 open inside its
/// gap, place 3 live with two of three slots remaining until tick 9.
fn busy() -> Figures {
    let mut bench = Bench::set_up(1);
    for place in 1..=3 {
        assert_eq!(bench.answer(Call::Open { place, level: 0, cap: 3, gap: 20 }), 0);
    }
    assert_eq!(bench.arrive(2, 3, 3), 0);
    bench.advance_to(4);
    assert_eq!(bench.arrive(3, 3, 5), 0);
    bench.advance_to(5);
    bench.table
}

#[test]
fn open_asks_2_then_3_then_5() {
    let open = |place, level, cap, gap| answer(&busy(), Call::Open { place, level, cap, gap });
    assert_eq!(open(16, 8, 0, 0), 2);
    assert_eq!(open(u64::MAX, 0, 1, 1), 2);
    assert_eq!(open(1, 8, 0, 0), 3);
    assert_eq!(open(0, 8, 1, 1), 5);
    assert_eq!(open(0, 7, 0, 1), 5);
    assert_eq!(open(0, 7, 2, 1), 5);
    assert_eq!(open(0, 7, 1, 1_000_001), 5);
    assert_eq!(open(0, 7, u64::MAX, u64::MAX), 5);
    assert_eq!(open(0, 7, 1_000_000, 1_000_000), 0);
    assert_eq!(open(0, 0, 1, 1), 0);
}

#[test]
fn close_asks_2_then_4_then_6_then_7() {
    let close = |place| answer(&busy(), Call::Close { place });
    assert_eq!(close(16), 2);
    assert_eq!(close(0), 4);
    assert_eq!(close(3), 6, "a job is live, and the gap is not over either");
    assert_eq!(close(2), 7);
    assert_eq!(close(1), 0);
}

#[test]
fn arrive_asks_2_4_5_6_7_8_9() {
    let arrive = |place, budget, away| answer(&busy(), Call::Arrive { place, budget, away });
    assert_eq!(arrive(16, 0, 0), 2);
    assert_eq!(arrive(0, 0, 0), 4);
    assert_eq!(arrive(3, 0, 4), 5);
    assert_eq!(arrive(3, 4, 4), 5);
    assert_eq!(arrive(2, 1, 0), 5);
    assert_eq!(arrive(2, 1, 1_000_001), 5);
    assert_eq!(arrive(2, 1, u64::MAX), 5);
    assert_eq!(arrive(3, 1, 1), 6);
    assert_eq!(arrive(2, 1, 1), 7);
    assert_eq!(arrive(1, 3, 4), 9, "two and three slots until tick 9");
    assert_eq!(arrive(1, 2, 1), 9, "b > D alone is no bad figure");
    assert_eq!(arrive(1, 2, 4), 0);
    assert_eq!(arrive(1, 3, 1_000_000), 0);

    let nearly_over = at(&busy(), 3_999_999_995);
    let made = |away| answer(&nearly_over, Call::Arrive { place: 1, budget: 3, away });
    assert_eq!(made(6), 8, "8 comes before 9");
    assert_eq!(made(2), 9);
    assert_eq!(made(5), 0);
}

/// The same table at another tick: the live job moves along, and the ticks between were idle.
fn at(table: &Figures, now: u64) -> Figures {
    let later = now - table.now;
    let mut moved = Figures { now, idle: table.idle + later, ..*table };
    for place in moved.places.iter_mut().filter(|place| place.live == 1) {
        place.deadline += later;
    }
    moved
}

#[test]
fn under_policy_2_a_job_that_cannot_be_served_is_taken_all_the_same() {
    let mut bench = Bench::of_the_notebook(2, [0, 0, 0]);
    assert_eq!(bench.arrive(0, 3, 2), 0);
    assert_eq!(bench.arrive(1, 4, 1), 0);
    assert_eq!(bench.slots(3), [0, 0, 255]);
    assert_eq!([0, 1].map(|place| bench.ending(place)), [3, 3]);
}

#[test]
fn depart_asks_2_then_4_then_10() {
    let depart = |place| answer(&busy(), Call::Depart { place });
    assert_eq!(depart(16), 2);
    assert_eq!(depart(0), 4);
    assert_eq!(depart(1), 10);
    assert_eq!(depart(2), 10);
    assert_eq!(depart(3), 0);
}

#[test]
fn advance_asks_5_then_8_then_11() {
    let end = at(&busy(), 3_999_999_990);
    let advance = |n, start, length: usize| {
        let mut record = vec![77; length];
        let outcome = call(&end, &Call::Advance { n, start }, &mut record);
        assert!(outcome.number == 0 || record.iter().all(|&byte| byte == 77));
        outcome.number
    };
    assert_eq!(advance(4_097, 1, 0), 5);
    assert_eq!(advance(u64::MAX, 1, 0), 5);
    assert_eq!(advance(4_096, 1, 0), 8);
    assert_eq!(advance(11, 1, 0), 8);
    assert_eq!(advance(10, 1, 10), 11);
    assert_eq!(advance(10, usize::MAX, 10), 11);
    assert_eq!(advance(10, 0, 10), 0);
}

#[test]
fn an_open_place_begins_anew_and_a_closed_one_keeps_its_total() {
    let mut bench = Bench::set_up(1);
    assert_eq!(bench.answer(Call::Open { place: 4, level: 6, cap: 2, gap: 3 }), 0);
    assert_eq!(bench.arrive(4, 2, 2), 0);
    bench.advance_to(3);
    assert_eq!(bench.ending(4), 2);
    assert_eq!(bench.answer(Call::Close { place: 4 }), 0);
    assert_eq!(bench.table.places[4], PlaceFigures { total: 2, ..PlaceFigures::ZEROS });
    assert_eq!(bench.answer(Call::Open { place: 4, level: 1, cap: 5, gap: 9 }), 0);
    let anew = PlaceFigures { opened: 1, level: 1, cap: 5, gap: 9, total: 2, ..PlaceFigures::ZEROS };
    assert_eq!(bench.table.places[4], anew);
}
