//! "A table is **sound** when all of these hold": each clause at its border, and one step past it.

use simulator::{call, is_sound, Call, Figures, PlaceFigures, IDLE};

/// A sound table of policy 1 with a closed place that has a total, an open place and a live one.
fn table() -> Figures {
    let closed = PlaceFigures { total: 4, ..PlaceFigures::ZEROS };
    let open = PlaceFigures { opened: 1, level: 7, cap: 5, gap: 10, next: 110, ending: 3, ..PlaceFigures::ZEROS };
    let live = PlaceFigures { live: 1, budget: 5, remaining: 3, deadline: 103, ending: 0, total: 2, ..open };
    let mut places = [PlaceFigures::ZEROS; 16];
    places[0] = closed;
    places[1] = open;
    places[2] = live;
    Figures { policy: 1, now: 100, idle: 94, places }
}

/// The table after a change.
fn changed(change: impl FnOnce(&mut Figures)) -> Figures {
    let mut table = table();
    change(&mut table);
    table
}

/// Holds that the changed table is sound.
fn sound(change: impl FnOnce(&mut Figures)) {
    let table = changed(change);
    assert!(is_sound(&table), "{table:?}");
}

/// Holds that the changed table is not sound, and that every call says so and changes nothing.
fn unsound(change: impl FnOnce(&mut Figures)) {
    let table = changed(change);
    assert!(!is_sound(&table), "{table:?}");
    for made in [Call::Elect, Call::Slot, Call::Depart { place: 2 }, Call::Advance { n: 0, start: 0 }] {
        let outcome = call(&table, &made, &mut []);
        assert_eq!((outcome.number, outcome.place, outcome.table), (1, IDLE, table));
    }
}

#[test]
fn policy_and_clock() {
    sound(|_| {});
    sound(|table| table.policy = 2);
    unsound(|table| table.policy = 0);
    unsound(|table| table.policy = 3);
    unsound(|table| table.policy = u64::MAX);
}

#[test]
fn the_clock_has_an_end() {
    let idle_until = |now| Figures { now, idle: now, places: [PlaceFigures::ZEROS; 16], ..table() };
    assert!(is_sound(&idle_until(4_000_000_000)));
    assert!(!is_sound(&idle_until(4_000_000_001)));
    assert!(!is_sound(&idle_until(u64::MAX)));
}

#[test]
fn totals_plus_idle_equal_now() {
    unsound(|table| table.idle += 1);
    unsound(|table| table.places[15].total += 1);
    sound(|table| {
        table.idle -= 1;
        table.places[15].total += 1;
    });
    // Sums that would come out right only if they wrapped.
    unsound(|table| {
        table.places[14].total = 1 << 63;
        table.places[15].total = 1 << 63;
    });
    unsound(|table| {
        table.idle = u64::MAX;
        table.places[15].total = 95;
    });
}

#[test]
fn a_closed_place_is_zero_in_everything_but_its_total() {
    unsound(|table| table.places[0].level = 1);
    unsound(|table| table.places[0].cap = 1);
    unsound(|table| table.places[0].gap = 1);
    unsound(|table| table.places[0].next = 1);
    unsound(|table| table.places[0].live = 1);
    unsound(|table| table.places[0].budget = 1);
    unsound(|table| table.places[0].remaining = 1);
    unsound(|table| table.places[0].deadline = 1);
    unsound(|table| table.places[0].ending = 1);
}

#[test]
fn the_flags_are_nought_or_one() {
    unsound(|table| table.places[1].opened = 2);
    unsound(|table| table.places[1].opened = 256);
    unsound(|table| table.places[1].live = 2);
    unsound(|table| table.places[2].live = u64::MAX);
    unsound(|table| table.places[2].opened = 0);
}

#[test]
fn an_open_place() {
    unsound(|table| table.places[1].level = 8);
    sound(|table| table.places[1].cap = 1);
    unsound(|table| table.places[1].cap = 0);
    sound(|table| table.places[1].cap = 10);
    unsound(|table| table.places[1].cap = 11);
    sound(|table| table.places[1].gap = 1_000_000);
    unsound(|table| table.places[1].gap = 1_000_001);
    unsound(|table| table.places[1].gap = u64::MAX);
    sound(|table| table.places[1].next = 0);
    unsound(|table| table.places[1].next = 111);
    unsound(|table| table.places[1].next = u64::MAX);
    sound(|table| table.places[1].ending = 0);
    unsound(|table| table.places[1].ending = 4);
}

#[test]
fn a_place_without_a_job() {
    unsound(|table| table.places[1].budget = 1);
    unsound(|table| table.places[1].remaining = 1);
    unsound(|table| table.places[1].deadline = 1);
}

#[test]
fn a_live_job() {
    unsound(|table| table.places[2].ending = 1);
    sound(|table| table.places[2].next = 0);
    // Two asked for and two spent, so that nothing but the remaining is amiss.
    let remaining_of_two = |remaining| {
        move |table: &mut Figures| {
            table.places[2].budget = 2;
            table.places[2].remaining = remaining;
        }
    };
    sound(remaining_of_two(1));
    unsound(remaining_of_two(0));
    unsound(|table| table.places[2].budget = 2);
    // Six asked for, of which two are spent, over a cap of five.
    let four_remaining_of = |budget| {
        move |table: &mut Figures| {
            table.places[2].budget = budget;
            table.places[2].remaining = 4;
            table.places[2].deadline = 104;
        }
    };
    sound(four_remaining_of(5));
    unsound(four_remaining_of(6));
    sound(|table| table.places[2].budget = 3);
    // Three slots of five spent, and only two ever given.
    unsound(|table| table.places[2].remaining = 2);
    sound(|table| {
        table.places[2].budget = 4;
        table.places[2].remaining = 2;
    });
    for policy in [1, 2] {
        unsound(|table| {
            table.policy = policy;
            table.places[2].deadline = 100;
        });
    }
    sound(|table| {
        table.policy = 2;
        table.places[2].deadline = 101;
    });
    unsound(|table| table.places[2].deadline = 0);
    sound(|table| table.places[2].deadline = 1_000_100);
    unsound(|table| table.places[2].deadline = 1_000_101);
    unsound(|table| table.places[2].deadline = u64::MAX);
}

#[test]
fn a_deadline_beyond_the_clock() {
    let near_the_end = |deadline| {
        changed(|table| {
            table.now = 3_999_999_990;
            table.idle = table.now - 6;
            table.places[2].deadline = deadline;
        })
    };
    assert!(is_sound(&near_the_end(4_000_000_000)));
    assert!(!is_sound(&near_the_end(4_000_000_001)));
}

#[test]
fn under_policy_1_the_remaining_slots_find_room() {
    unsound(|table| table.places[2].deadline = 102);
    sound(|table| {
        table.policy = 2;
        table.places[2].deadline = 102;
    });
    let second_job = |remaining, deadline| {
        move |table: &mut Figures| {
            let live = table.places[2];
            table.places[3] = PlaceFigures { budget: remaining, remaining, deadline, total: 0, ..live };
        }
    };
    sound(second_job(2, 105));
    unsound(second_job(3, 105));
    unsound(second_job(1, 103));
    unsound(second_job(1, 101));
    sound(|table| {
        second_job(3, 103)(table);
        table.policy = 2;
    });
}
