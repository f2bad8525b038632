//! Random histories, on which the watch stays silent and what the paper says of every call holds.

mod common;

use common::{needs_of, random_call, Bench, Crowd, Random, FEW, MANY};
use simulator::{call, is_sound, plan_by_flow, plan_by_trying, Call, Figures, Need, PlaceFigures, IDLE};

/// How often each answer was given and each ending seen, so that a trial that never came to
/// something is found out.
#[derive(Default)]
struct Tally {
    answers: [u64; 13],
    endings: [u64; 4],
}

impl Tally {
    fn count(&mut self, number: u64, before: &Figures, after: &Figures) {
        self.answers[number as usize] += 1;
        for (was, is) in before.places.iter().zip(&after.places) {
            if was.live == 1 && is.live == 0 {
                self.endings[is.ending as usize] += 1;
            }
        }
    }

    fn has_seen(&self, answers: &[usize], endings: &[usize]) {
        for &answer in answers {
            assert!(self.answers[answer] > 20, "answer {answer}: {:?}", self.answers);
        }
        for &ending in endings {
            assert!(self.endings[ending] > 20, "ending {ending}: {:?}", self.endings);
        }
    }
}

/// Random histories of a policy; the bench asserts that the watch is silent after every call.
fn histories(policy: u64, crowd: Crowd, seed: u64) -> Tally {
    let mut random = Random::seeded(seed);
    let mut tally = Tally::default();
    let mut record = [77; 4_110];
    for _ in 0..250 {
        let mut bench = Bench::set_up(policy);
        for _ in 0..400 {
            let made = random_call(&mut random, crowd);
            let length = if random.one_in(10) { 4 } else { record.len() };
            let before = bench.table;
            let outcome = bench.make(made, &mut record[..length]);
            assert_eq!(outcome.number == 9, is_refused_for_room(&before, &made, outcome.number));
            tally.count(outcome.number, &before, &bench.table);
        }
    }
    tally
}

/// Whether an arrival that passed all earlier checks finds no plan, by the figures of the table.
/// Where there are few plans both ways of looking for one are asked.
fn is_refused_for_room(table: &Figures, made: &Call, number: u64) -> bool {
    let Call::Arrive { budget, away, .. } = *made else {
        return false;
    };
    if table.policy != 1 || !matches!(number, 0 | 9) {
        return false;
    }
    let mut needs = needs_of(table);
    needs.push(Need { remaining: budget, deadline: table.now + away });
    let is_missed = plan_by_flow(&needs, table.now).is_none();
    if needs.len() <= 4 && needs.iter().all(|need| need.deadline <= table.now + 10) {
        assert_eq!(plan_by_trying(&needs, table.now).is_none(), is_missed);
    }
    is_missed
}

#[test]
fn the_watch_is_silent_on_earliest_deadline_with_few_jobs() {
    histories(1, FEW, 11).has_seen(&[0, 2, 3, 4, 5, 6, 7, 9, 10, 11], &[1, 2]);
}

#[test]
fn the_watch_is_silent_on_earliest_deadline_with_many_jobs() {
    let tally = histories(1, MANY, 12);
    tally.has_seen(&[0, 2, 3, 4, 5, 6, 7, 9, 10, 11], &[1, 2]);
    assert_eq!(tally.endings[3], 0, "no job is late under policy 1");
}

#[test]
fn the_watch_is_silent_on_fixed_priority_with_few_jobs() {
    let tally = histories(2, FEW, 13);
    tally.has_seen(&[0, 2, 3, 4, 5, 6, 7, 10, 11], &[1, 2, 3]);
    assert_eq!(tally.answers[9], 0, "9 is for policy 1 only");
}

#[test]
fn the_watch_is_silent_on_fixed_priority_with_many_jobs() {
    histories(2, MANY, 14).has_seen(&[0, 2, 3, 4, 5, 6, 7, 10, 11], &[1, 2, 3]);
}

/// A random table, sound most of the time and often one that no history leads to.
fn random_table(random: &mut Random) -> Figures {
    let now = match random.between(0, 2) {
        0 => random.between(0, 100),
        1 => random.between(3_999_999_980, 4_000_000_000),
        _ => random.between(0, 4_000_000_000),
    };
    let mut table = Figures { policy: random.between(1, 2), now, idle: now, places: [PlaceFigures::ZEROS; 16] };
    for place in &mut table.places {
        *place = random_place(random, now, table.idle);
        table.idle -= place.total;
    }
    table
}

/// A random place: closed, open or live in equal shares.
fn random_place(random: &mut Random, now: u64, unclaimed: u64) -> PlaceFigures {
    let total = random.between(0, unclaimed.min(9));
    let closed = PlaceFigures { total, ..PlaceFigures::ZEROS };
    let gap = if random.one_in(9) { 1_000_000 } else { random.between(1, 20) };
    let open = PlaceFigures {
        opened: 1,
        level: random.between(0, 7),
        cap: random.between(1, gap),
        gap,
        next: (now + gap) - random.between(0, (now + gap).min(2 * gap)),
        ending: random.between(0, 3),
        ..closed
    };
    match random.between(0, 2) {
        0 => closed,
        1 => open,
        _ => {
            let budget = random.between(1, open.cap.min(12));
            let remaining = budget - random.between(0, total.min(budget - 1));
            let deadline = now + random.between(1, 120);
            PlaceFigures { live: 1, budget, remaining, deadline, ending: 0, ..open }
        }
    }
}

/// Calls a random sound table some number of times, and the rest of the trial sees each of them.
fn on_sound_tables(seed: u64, mut trial: impl FnMut(&mut Random, &Figures)) {
    let mut random = Random::seeded(seed);
    let mut policies = [0; 3];
    while policies[1] < 2_000 || policies[2] < 2_000 {
        let table = random_table(&mut random);
        if is_sound(&table) {
            policies[table.policy as usize] += 1;
            trial(&mut random, &table);
        }
    }
}

#[test]
fn every_call_keeps_a_table_sound_whether_a_history_leads_to_it_or_not() {
    let mut accepted = 0;
    on_sound_tables(21, |random, table| {
        for _ in 0..20 {
            let made = random_call(random, MANY);
            let outcome = call(table, &made, &mut [77; 64]);
            assert!(is_sound(&outcome.table), "{made:?} on {table:?}");
            if outcome.number == 0 {
                accepted += 1;
            } else {
                assert_eq!((outcome.table, outcome.place), (*table, IDLE));
            }
            assert_eq!(outcome.number == 9, is_refused_for_room(table, &made, outcome.number));
        }
    });
    assert!(accepted > 10_000, "{accepted} accepted");
}

#[test]
fn an_advance_is_the_same_as_single_slots() {
    let mut given = 0;
    on_sound_tables(22, |random, table| {
        let n = random.between(0, 40);
        let start = random.between(0, 3) as usize;
        let mut record = [77; 50];
        let advanced = call(table, &Call::Advance { n, start }, &mut record);

        let mut expected = [77; 50];
        let mut stepped = *table;
        for byte in &mut expected[start..start + n as usize] {
            let elected = call(&stepped, &Call::Elect, &mut []);
            assert_eq!((elected.number, elected.table), (0, stepped), "asking changes nothing");
            let slot = call(&stepped, &Call::Slot, &mut []);
            if slot.number != 0 {
                assert_eq!((slot.number, advanced.number), (8, 8));
                assert_eq!((record, advanced.table), ([77; 50], *table));
                return;
            }
            assert_eq!(slot.place, elected.place);
            assert_eq!(slot.place, elected_by_the_words(&stepped));
            assert_eq!(slot.table, slot_by_the_words(&stepped), "a slot on {stepped:?}");
            *byte = slot.place as u8;
            stepped = slot.table;
            given += 1;
        }
        assert_eq!((advanced.number, advanced.table, record), (0, stepped, expected));
    });
    assert!(given > 20_000, "{given} slots given");
}

/// The election read off the figures, word by word.
fn elected_by_the_words(table: &Figures) -> u64 {
    let live = (0..).zip(&table.places).filter(|(_, place)| place.live == 1);
    let keyed = live.map(|(number, place)| match table.policy {
        1 => (place.deadline, number),
        _ => (place.level, number),
    });
    keyed.min().map_or(IDLE, |(_, number)| number)
}

/// The four steps of a slot on the figures, word by word.
fn slot_by_the_words(table: &Figures) -> Figures {
    let mut after = *table;
    let elected = elected_by_the_words(table);
    if elected == IDLE {
        after.idle += 1;
    } else {
        after.places[elected as usize].remaining -= 1;
        after.places[elected as usize].total += 1;
    }
    after.now += 1;
    for place in after.places.iter_mut().filter(|place| place.live == 1) {
        let ending = match place {
            PlaceFigures { remaining: 0, .. } => 2,
            _ if table.policy == 2 && place.deadline <= after.now => 3,
            _ => continue,
        };
        *place = PlaceFigures { live: 0, budget: 0, remaining: 0, deadline: 0, ending, ..*place };
    }
    after
}
