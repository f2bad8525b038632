//! "From the bench notebook": the cases A to O.

mod common;

use common::Bench;
use simulator::{call, is_sound, set_up, Call, Figures, PlaceFigures, IDLE};

/// The bench on which most cases are made: policy 1, all levels alike.
fn bench() -> Bench {
    Bench::of_the_notebook(1, [0, 0, 0])
}

#[test]
fn a_ties_go_to_the_lower_place() {
    let mut bench = bench();
    assert_eq!(bench.arrive(0, 3, 7), 0);
    assert_eq!(bench.arrive(1, 4, 7), 0);
    assert_eq!(bench.arrive(2, 1, 8), 0);
    assert_eq!(bench.slots(9), [0, 0, 0, 1, 1, 1, 1, 2, 255]);
    assert_eq!([0, 1, 2].map(|place| bench.ending(place)), [2, 2, 2]);
    assert_eq!([0, 1, 2].map(|place: usize| bench.table.places[place].total), [3, 4, 1]);
    assert_eq!((bench.table.now, bench.table.idle), (9, 1));
}

#[test]
fn b_the_earliest_deadline_goes_first() {
    let mut bench = bench();
    assert_eq!(bench.arrive(0, 3, 7), 0);
    assert_eq!(bench.arrive(1, 4, 6), 0);
    assert_eq!(bench.slots(7), [1, 1, 1, 1, 0, 0, 0]);
    assert_eq!([0, 1, 2].map(|place| bench.ending(place)), [2, 2, 0]);
}

#[test]
fn c_a_job_that_does_not_fit_may_fit_with_a_later_deadline() {
    let mut bench = bench();
    assert_eq!(bench.arrive(0, 3, 7), 0);
    assert_eq!(bench.arrive(1, 4, 6), 0);
    assert_eq!(bench.arrive(2, 1, 7), 9);
    assert_eq!(bench.arrive(2, 1, 8), 0);
    assert_eq!(bench.slots(9), [1, 1, 1, 1, 0, 0, 0, 2, 255]);
}

#[test]
fn d_a_nearer_deadline_takes_over_at_a_slot_border() {
    let mut bench = bench();
    assert_eq!(bench.arrive(0, 3, 10), 0);
    assert_eq!(bench.slots(1), [0]);
    assert_eq!(bench.arrive(1, 2, 4), 0);
    assert_eq!(bench.slots(5), [1, 1, 0, 0, 255]);
    assert_eq!([0, 1].map(|place| bench.ending(place)), [2, 2]);
}

#[test]
fn e_a_departure_makes_room() {
    let mut bench = bench();
    assert_eq!(bench.arrive(0, 3, 3), 0);
    assert_eq!(bench.arrive(1, 1, 3), 9);
    assert_eq!(bench.slots(1), [0]);
    assert_eq!(bench.answer(Call::Depart { place: 0 }), 0);
    assert_eq!(bench.ending(0), 1);
    assert_eq!(bench.table.places[0].next, 10, "next stays");
    assert_eq!(bench.arrive(1, 2, 2), 0);
    assert_eq!(bench.slots(3), [1, 1, 255]);
}

#[test]
fn f_a_second_arrival_waits_for_the_gap() {
    let mut bench = bench();
    assert_eq!(bench.arrive(0, 3, 7), 0);
    bench.advance_to(2);
    assert_eq!(bench.arrive(0, 3, 7), 6);
    bench.advance_to(9);
    assert_eq!(bench.arrive(0, 3, 7), 7);
    bench.advance_to(10);
    assert_eq!(bench.arrive(0, 3, 7), 0);
    assert_eq!(bench.table.places[0].next, 20);
}

#[test]
fn g_a_close_waits_for_the_gap() {
    let mut bench = bench();
    assert_eq!(bench.arrive(0, 3, 7), 0);
    assert_eq!(bench.answer(Call::Close { place: 0 }), 6);
    assert_eq!(bench.slots(9), [0, 0, 0, 255, 255, 255, 255, 255, 255]);
    assert_eq!(bench.ending(0), 2);
    assert_eq!(bench.answer(Call::Close { place: 0 }), 7);
    bench.advance_to(10);
    assert_eq!(bench.answer(Call::Close { place: 0 }), 0);
    assert_eq!(bench.table.places[0], PlaceFigures { total: 3, ..PlaceFigures::ZEROS });
}

#[test]
fn h_the_smaller_level_goes_first_and_the_other_ends_late() {
    let mut bench = Bench::of_the_notebook(2, [5, 2, 0]);
    assert_eq!(bench.arrive(0, 3, 5), 0);
    assert_eq!(bench.arrive(1, 4, 5), 0);
    assert_eq!(bench.slots(5), [1, 1, 1, 1, 0]);
    assert_eq!([0, 1].map(|place| bench.ending(place)), [3, 2]);
    assert_eq!(bench.table.places[0].live, 0);
    assert_eq!(bench.table.places[0].total, 1);
}

#[test]
fn i_a_job_spent_at_its_deadline_is_not_late() {
    let mut bench = Bench::of_the_notebook(2, [5, 2, 0]);
    assert_eq!(bench.arrive(1, 4, 4), 0);
    assert_eq!(bench.slots(4), [1, 1, 1, 1]);
    assert_eq!(bench.ending(1), 2);
}

#[test]
fn j_an_advance_by_nothing_changes_nothing() {
    let mut bench = bench();
    let before = bench.table;
    let outcome = bench.make(Call::Advance { n: 0, start: 0 }, &mut []);
    assert_eq!((outcome.number, outcome.table), (0, before));
}

#[test]
fn o_a_short_new_job_may_not_push_out_one_that_ends_later() {
    let mut bench = bench();
    assert_eq!(bench.arrive(0, 3, 4), 0);
    assert_eq!(bench.arrive(1, 2, 2), 9);
    assert_eq!(bench.arrive(1, 1, 2), 0);
    assert_eq!(bench.slots(5), [1, 0, 0, 0, 255]);
}

#[test]
fn k_the_record_must_have_room_from_the_start_on() {
    let mut bench = bench();
    assert_eq!(bench.arrive(0, 1, 7), 0);
    let mut record = [77; 10];
    assert_eq!(bench.make(Call::Advance { n: 2, start: 8 }, &mut record).number, 0);
    assert_eq!(record, [77, 77, 77, 77, 77, 77, 77, 77, 0, 255]);
    assert_eq!(bench.make(Call::Advance { n: 3, start: 8 }, &mut record).number, 11);
    assert_eq!(bench.make(Call::Advance { n: 0, start: 11 }, &mut record).number, 11);
    assert_eq!(bench.make(Call::Advance { n: 0, start: 10 }, &mut record).number, 0);
    assert_eq!(bench.make(Call::Advance { n: 1, start: usize::MAX }, &mut record).number, 11);
    assert_eq!(record, [77, 77, 77, 77, 77, 77, 77, 77, 0, 255]);
}

#[test]
fn l_the_largest_advance_and_the_last_place() {
    let mut bench = Bench::set_up(1);
    let mut record = [77; 5_000];
    assert_eq!(bench.make(Call::Advance { n: 4_096, start: 0 }, &mut record).number, 0);
    assert!(record[..4_096].iter().all(|&byte| byte == 255));
    assert!(record[4_096..].iter().all(|&byte| byte == 77));
    assert_eq!(bench.make(Call::Advance { n: 4_097, start: 0 }, &mut record).number, 5);
    assert_eq!((bench.table.now, bench.table.idle), (4_096, 4_096));
    assert_eq!(bench.answer(Call::Open { place: 15, level: 0, cap: 1, gap: 1 }), 0);
    assert_eq!(bench.answer(Call::Open { place: 16, level: 0, cap: 1, gap: 1 }), 2);
}

/// The notebook's bench at another tick, "all idle".
fn all_idle_at(now: u64) -> Figures {
    let table = Figures { now, idle: now, ..bench().table };
    assert!(is_sound(&table));
    table
}

#[test]
fn m_a_deadline_may_not_lie_beyond_the_clock() {
    let table = all_idle_at(3_999_999_990);
    let arrive = |away| call(&table, &Call::Arrive { place: 0, budget: 3, away }, &mut []);
    assert_eq!(arrive(10).number, 0);
    assert_eq!(arrive(10).table.places[0].deadline, 4_000_000_000);
    assert_eq!(arrive(10).table.places[0].next, 4_000_000_000);
    assert_eq!(arrive(11).number, 8);
    assert_eq!(arrive(11).table, table);
}

#[test]
fn m_too_no_slot_may_end_beyond_the_clock() {
    let table = all_idle_at(3_999_999_990);
    let mut record = [77; 11];
    let eleven = call(&table, &Call::Advance { n: 11, start: 0 }, &mut record);
    assert_eq!((eleven.number, eleven.table, record), (8, table, [77; 11]));

    let ten = call(&table, &Call::Advance { n: 10, start: 0 }, &mut record);
    assert_eq!((ten.number, ten.table.now), (0, 4_000_000_000));

    let slot = call(&ten.table, &Call::Slot, &mut []);
    assert_eq!((slot.number, slot.place, slot.table), (8, IDLE, ten.table));
    let none = call(&ten.table, &Call::Advance { n: 0, start: 0 }, &mut []);
    assert_eq!((none.number, none.table), (0, ten.table));
}

#[test]
fn n_the_first_refusal_that_applies_counts() {
    let mut bench = Bench::set_up(1);
    assert_eq!(bench.arrive(0, 0, 7), 4);
}

#[test]
fn n_too_the_zero_table_gets_1_from_every_call_but_set_up() {
    let zero = set_up(3);
    assert_eq!((zero.number, zero.place), (12, IDLE));
    assert_eq!(zero, set_up(0));
    assert_eq!(zero.table.places, [PlaceFigures::ZEROS; 16]);
    assert_eq!((zero.table.policy, zero.table.now, zero.table.idle), (0, 0, 0));

    let calls = [
        Call::Open { place: 99, level: 0, cap: 1, gap: 1 },
        Call::Close { place: 99 },
        Call::Arrive { place: 99, budget: 0, away: 0 },
        Call::Depart { place: 99 },
        Call::Elect,
        Call::Slot,
        Call::Advance { n: 9_999, start: 9 },
    ];
    for made in calls {
        let outcome = call(&zero.table, &made, &mut []);
        assert_eq!((outcome.number, outcome.place, outcome.table), (1, IDLE, zero.table));
    }
}
