//! Histories that break a demand, on which the watch must complain, each beside the right one.

mod common;

use common::{random_call, Random, FEW, MANY};
use simulator::watch::Watch;
use simulator::{call, set_up, Call};

/// A call, the number it was answered with and the places it named.
type Line<'a> = (Call, u64, &'a [u8]);

fn open(place: u64, level: u64, cap: u64, gap: u64) -> Line<'static> {
    (Call::Open { place, level, cap, gap }, 0, &[])
}

fn close(place: u64) -> Line<'static> {
    (Call::Close { place }, 0, &[])
}

fn arrive(place: u64, budget: u64, away: u64) -> Line<'static> {
    (Call::Arrive { place, budget, away }, 0, &[])
}

fn depart(place: u64) -> Line<'static> {
    (Call::Depart { place }, 0, &[])
}

fn slots(named: &[u8]) -> Line<'_> {
    (Call::Advance { n: named.len() as u64, start: 0 }, 0, named)
}

/// The same line with another answer.
fn answered(number: u64, (call, _, named): Line<'_>) -> Line<'_> {
    (call, number, named)
}

/// Enters the lines and holds that the watch has nothing to say.
fn silent(policy: u64, lines: &[Line]) -> Watch {
    let mut watch = Watch::new(policy);
    for (call, number, named) in lines {
        assert_eq!(watch.saw_call(call, *number, named), Ok(()), "{call:?}");
        assert_eq!(watch.check(), Ok(()));
    }
    watch
}

/// Enters the lines and holds that the last one, and none before it, breaks the demand.
fn broken(policy: u64, demand: &str, lines: &[Line]) {
    let (&(call, number, named), before) = lines.split_last().expect("there is a last line");
    let mut watch = silent(policy, before);
    let complaint = watch.saw_call(&call, number, named).expect_err("the demand is broken");
    assert!(complaint.starts_with(demand), "{complaint}");
    assert_eq!(watch.check(), Err(complaint));
}

#[test]
fn the_earliest_deadline_is_passed_over() {
    let jobs = [open(0, 0, 3, 9), open(1, 0, 3, 9), arrive(0, 2, 9), arrive(1, 2, 8)];
    silent(1, &[&jobs[..], &[slots(&[1, 1, 0, 0, 255])]].concat());
    broken(1, "election", &[&jobs[..], &[slots(&[0])]].concat());
    broken(1, "election", &[&jobs[..], &[slots(&[1, 0])]].concat());
}

#[test]
fn the_smallest_level_is_passed_over() {
    let jobs = [open(0, 5, 3, 9), open(1, 2, 3, 9), arrive(0, 2, 8), arrive(1, 2, 9)];
    silent(2, &[&jobs[..], &[slots(&[1, 1, 0, 0, 255])]].concat());
    broken(2, "election", &[&jobs[..], &[slots(&[0])]].concat());
    // Under policy 1 the same jobs go the other way round.
    silent(1, &[&jobs[..], &[slots(&[0, 0, 1, 1, 255])]].concat());
}

#[test]
fn a_tie_goes_to_the_higher_place() {
    let jobs = [open(4, 2, 3, 9), open(7, 2, 3, 9), arrive(7, 1, 8), arrive(4, 1, 8)];
    for policy in [1, 2] {
        silent(policy, &[&jobs[..], &[slots(&[4, 7])]].concat());
        broken(policy, "election", &[&jobs[..], &[slots(&[7])]].concat());
    }
}

#[test]
fn an_idle_slot_while_a_job_is_live() {
    let job = [open(0, 0, 3, 9), arrive(0, 2, 9)];
    broken(1, "election", &[&job[..], &[slots(&[0, 255])]].concat());
    broken(2, "election", &[&job[..], &[(Call::Slot, 0, &[255])]].concat());
}

#[test]
fn an_election_names_another_place_than_the_rule() {
    let job = [open(3, 0, 3, 9), arrive(3, 1, 9)];
    silent(1, &[&job[..], &[(Call::Elect, 0, &[3]), (Call::Elect, 0, &[]), slots(&[3, 255])]].concat());
    broken(1, "election", &[&job[..], &[(Call::Elect, 0, &[255])]].concat());
    broken(1, "election", &[&job[..], &[(Call::Elect, 0, &[3, 3])]].concat());
}

#[test]
fn a_job_runs_one_slot_past_its_budget() {
    let job = [open(0, 0, 3, 9), arrive(0, 2, 9)];
    silent(1, &[&job[..], &[slots(&[0, 0])]].concat());
    broken(1, "budget", &[&job[..], &[slots(&[0, 0, 0])]].concat());
}

#[test]
fn a_job_runs_past_its_reserves_cap() {
    let job = [open(0, 0, 2, 9), arrive(0, 3, 9)];
    silent(2, &[&job[..], &[slots(&[0, 0])]].concat());
    broken(2, "budget", &[&job[..], &[slots(&[0, 0, 0])]].concat());
}

#[test]
fn a_job_that_asked_for_nothing_gets_a_slot() {
    broken(2, "budget", &[open(0, 0, 2, 9), arrive(0, 0, 9), slots(&[0])]);
}

#[test]
fn a_slot_goes_to_a_place_without_a_live_job() {
    broken(1, "budget", &[slots(&[0])]);
    broken(1, "budget", &[open(0, 0, 3, 9), slots(&[0])]);
    broken(1, "budget", &[open(0, 0, 3, 9), arrive(0, 2, 9), depart(0), slots(&[0])]);
    broken(1, "books", &[slots(&[16])]);
}

#[test]
fn two_arrivals_come_within_a_gap() {
    let first = [open(0, 0, 1, 4), arrive(0, 1, 1)];
    silent(1, &[&first[..], &[slots(&[0, 255, 255, 255]), arrive(0, 1, 1)]].concat());
    broken(1, "gap", &[&first[..], &[slots(&[0, 255, 255]), arrive(0, 1, 1)]].concat());
}

#[test]
fn a_close_and_an_open_hide_the_gap() {
    let first = [open(0, 0, 1, 4), arrive(0, 1, 1)];
    let anew = [close(0), open(0, 0, 1, 1), arrive(0, 1, 1)];
    silent(1, &[&first[..], &[slots(&[0, 255, 255, 255])], &anew].concat());
    broken(1, "gap", &[&first[..], &[slots(&[0, 255, 255])], &anew].concat());
    // It is the first arrival's gap that counts, not the one of the reserve opened since.
    let wider = [close(0), open(0, 0, 1, 9), arrive(0, 1, 1)];
    silent(1, &[&first[..], &[slots(&[0, 255, 255, 255])], &wider].concat());
}

#[test]
fn a_refused_arrival_uses_up_no_gap() {
    let lines = [open(0, 0, 1, 4), answered(9, arrive(0, 1, 1)), slots(&[255]), arrive(0, 1, 1)];
    silent(1, &lines);
}

#[test]
fn slots_are_missing_or_invented() {
    silent(1, &[(Call::Slot, 0, &[255]), (Call::Advance { n: 3, start: 7 }, 0, &[255; 3])]);
    broken(1, "clock", &[(Call::Advance { n: 3, start: 0 }, 0, &[255, 255])]);
    broken(1, "clock", &[(Call::Advance { n: 0, start: 0 }, 0, &[255])]);
    broken(1, "clock", &[(Call::Slot, 0, &[])]);
    broken(1, "clock", &[(Call::Advance { n: 1, start: 0 }, 11, &[255])]);
    broken(1, "clock", &[(Call::Open { place: 0, level: 0, cap: 1, gap: 1 }, 0, &[0])]);
}

#[test]
fn a_job_that_did_not_fit_is_taken() {
    // Case O with its second arrival taken: one of the two jobs must miss its deadline.
    let reserves = [open(0, 0, 3, 10), open(1, 0, 4, 20)];
    let jobs = [arrive(0, 3, 4), arrive(1, 2, 2)];
    silent(1, &[&reserves[..], &jobs, &[slots(&[1, 1, 0])]].concat());
    broken(1, "deadline", &[&reserves[..], &jobs, &[slots(&[1, 1, 0, 0])]].concat());
    let fitting = [arrive(0, 3, 4), arrive(1, 1, 2)];
    silent(1, &[&reserves[..], &fitting, &[slots(&[1, 0, 0, 0])]].concat());
    // A job that departs before its deadline is owed nothing.
    let left = [slots(&[1, 1, 0]), depart(0), slots(&[255, 255])];
    silent(1, &[&reserves[..], &jobs, &left].concat());
}

#[test]
fn a_late_job_is_not_dropped() {
    // Case H, after which place 0 has had one of three slots.
    let lines = [open(0, 5, 3, 10), open(1, 2, 4, 20), arrive(0, 3, 5), arrive(1, 4, 5)];
    let late = [&lines[..], &[slots(&[1, 1, 1, 1, 0])]].concat();
    silent(2, &[&late[..], &[slots(&[255])]].concat());
    silent(2, &[&late[..], &[answered(10, depart(0))]].concat());
    broken(2, "late", &[&late[..], &[slots(&[0])]].concat());
    broken(2, "late", &[&late[..], &[depart(0)]].concat());
    broken(2, "late", &[&late[..], &[answered(6, arrive(0, 3, 5))]].concat());
    broken(2, "late", &[&late[..], &[answered(6, close(0))]].concat());
    // And one that is dropped a slot too soon.
    let live = [&lines[..], &[slots(&[1, 1, 1, 1])]].concat();
    silent(2, &[&live[..], &[answered(6, arrive(0, 3, 5))]].concat());
    broken(2, "books", &[&live[..], &[answered(10, depart(0))]].concat());
    broken(2, "books", &[&live[..], &[arrive(0, 3, 5)]].concat());
    broken(2, "election", &[&live[..], &[slots(&[255])]].concat());
}

#[test]
fn a_call_is_accepted_against_what_went_before() {
    broken(3, "books", &[open(0, 0, 1, 1)]);
    broken(1, "books", &[open(16, 0, 1, 1)]);
    broken(1, "books", &[open(0, 0, 1, 1), open(0, 0, 1, 1)]);
    broken(1, "books", &[close(0)]);
    broken(1, "books", &[arrive(0, 1, 1)]);
    broken(1, "books", &[open(0, 0, 1, 1), depart(0)]);
    broken(1, "books", &[open(0, 0, 1, 1), arrive(0, 1, 1), close(0)]);
    broken(1, "books", &[open(0, 0, 1, 1), arrive(0, 1, 1), arrive(0, 1, 1)]);
}

#[test]
fn the_first_complaint_is_kept() {
    let mut watch = Watch::new(1);
    let first = watch.saw_call(&Call::Slot, 0, &[3]).expect_err("no job is live");
    assert_eq!(watch.saw_call(&Call::Slot, 0, &[255]), Ok(()));
    assert_eq!(watch.check(), Err(first));
}

/// One slot of a random history is named to another place than it was.
#[test]
fn any_slot_that_is_changed_is_found_out() {
    let mut random = Random::seeded(31);
    let mut changed = 0;
    while changed < 2_000 {
        let policy = random.between(1, 2);
        let crowd = if random.one_in(2) { FEW } else { MANY };
        let mut watch = Watch::new(policy);
        let mut table = set_up(policy).table;
        let length = random.between(20, 300);
        for step in 0..=length {
            let mut record = [77; 4_110];
            let made = random_call(&mut random, crowd);
            let outcome = call(&table, &made, &mut record);
            table = outcome.table;
            let mut named = match (made, outcome.number) {
                (Call::Slot, 0) => vec![outcome.place as u8],
                (Call::Advance { n, start }, 0) => record[start..start + n as usize].to_vec(),
                _ => vec![],
            };
            if step < length || named.is_empty() {
                assert_eq!(watch.saw_call(&made, outcome.number, &named), Ok(()));
                continue;
            }
            let slot = random.between(0, named.len() as u64 - 1) as usize;
            let other = (0..17).map(|place| if place == 16 { 255 } else { place });
            let others: Vec<u64> = other.filter(|&place| place != u64::from(named[slot])).collect();
            named[slot] = random.one_of(&others) as u8;
            assert!(watch.saw_call(&made, 0, &named).is_err(), "{made:?} named {named:?}");
            assert!(watch.check().is_err());
            changed += 1;
        }
    }
}
