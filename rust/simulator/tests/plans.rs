//! The two ways to look for a plan agree, with each other and with the paper's sentence.

mod common;

use common::Random;
use simulator::{plan_by_flow, plan_by_trying, Need, Plan, Stretch};

/// Random needs with deadlines up to the horizon; about half of them can be served.
fn random_needs(random: &mut Random, jobs: u64, now: u64, horizon: u64) -> Vec<Need> {
    let largest = random.between(1, 4);
    (0..random.between(0, jobs)).map(|_| Need { remaining: random.between(0, largest), deadline: now + random.between(0, horizon) }).collect()
}

/// A clock that is 0, somewhere, or as late as it can be before the horizon.
fn random_now(random: &mut Random, horizon: u64) -> u64 {
    match random.between(0, 2) {
        0 => 0,
        1 => random.between(1, 4_000_000_000),
        _ => u64::MAX - horizon,
    }
}

/// Asks both ways, holds each plan found to the paper's words, and tells whether there is one.
fn is_there_a_plan(needs: &[Need], now: u64) -> bool {
    let tried = plan_by_trying(needs, now);
    let flown = plan_by_flow(needs, now);
    assert_eq!(tried.is_some(), flown.is_some(), "{needs:?} at {now}");
    for plan in [tried, flown].iter().flatten() {
        assert!(plan.serves(needs, now), "{plan:?} for {needs:?} at {now}");
    }
    plan_by_flow(needs, now).is_some()
}

#[test]
fn both_ways_agree_on_small_instances() {
    let mut random = Random::seeded(1);
    let (mut found, mut missed) = (0, 0);
    for _ in 0..40_000 {
        let now = random_now(&mut random, 10);
        let needs = random_needs(&mut random, 5, now, 10);
        match is_there_a_plan(&needs, now) {
            true => found += 1,
            false => missed += 1,
        }
    }
    assert!(found > 5_000 && missed > 5_000, "{found} found, {missed} missed");
}

/// Whether one of all the plans for these slots serves the needs, with no thought spared: each
/// slot is named to every need and to nobody.
fn serves_one_of_all(needs: &[Need], now: u64, named: &mut Vec<Option<usize>>, slots: usize) -> bool {
    if named.len() == slots {
        let stretches = named.iter().enumerate().filter_map(|(slot, name)| {
            let first = u128::from(now) + slot as u128;
            name.map(|need| Stretch { first, length: 1, need })
        });
        return Plan::of(stretches.collect()).is_some_and(|plan| plan.serves(needs, now));
    }
    let names = (0..needs.len()).map(Some).chain([None]);
    names.into_iter().any(|name| {
        named.push(name);
        let serves = serves_one_of_all(needs, now, named, slots);
        named.pop();
        serves
    })
}

#[test]
fn both_ways_agree_with_the_list_of_all_plans() {
    let mut random = Random::seeded(2);
    let (mut found, mut missed) = (0, 0);
    for _ in 0..3_000 {
        let now = random_now(&mut random, 5);
        let needs = random_needs(&mut random, 3, now, 5);
        let listed = serves_one_of_all(&needs, now, &mut Vec::new(), 5);
        assert_eq!(is_there_a_plan(&needs, now), listed, "{needs:?} at {now}");
        match listed {
            true => found += 1,
            false => missed += 1,
        }
    }
    assert!(found > 300 && missed > 300, "{found} found, {missed} missed");
}

#[test]
fn a_flow_agrees_with_trying_when_all_spans_grow_alike() {
    let mut random = Random::seeded(3);
    let (mut found, mut missed) = (0, 0);
    for _ in 0..10_000 {
        let small = random_needs(&mut random, 4, 0, 10);
        let factor = random.between(2, 90_000);
        let now = random.between(0, 3_999_000_000);
        let large: Vec<Need> = small.iter().map(|need| Need { remaining: need.remaining * factor, deadline: now + need.deadline * factor }).collect();
        let plan = plan_by_flow(&large, now);
        assert_eq!(plan.is_some(), plan_by_trying(&small, 0).is_some(), "{small:?} by {factor}");
        match plan {
            Some(plan) => {
                assert!(plan.serves(&large, now), "{plan:?} for {large:?}");
                found += 1;
            }
            None => missed += 1,
        }
    }
    assert!(found > 1_000 && missed > 1_000, "{found} found, {missed} missed");
}

#[test]
fn a_flow_finds_the_plan_that_uses_every_slot_of_sixteen_jobs() {
    // Slot after slot is handed to a job that may use it, so one plan is known to exist; then
    // one slot more is asked for, and none is left.
    let mut random = Random::seeded(4);
    for _ in 0..2_000 {
        let now = random.between(0, 1_000_000);
        let deadlines: Vec<u64> = (0..16).map(|_| now + random.between(1, 40)).collect();
        let mut needs: Vec<Need> = deadlines.iter().map(|&deadline| Need { remaining: 0, deadline }).collect();
        let last = *deadlines.iter().max().expect("there are sixteen deadlines");
        for slot in now..last {
            let users: Vec<u64> = (0..16).filter(|&need| needs[need as usize].deadline > slot).collect();
            needs[random.one_of(&users) as usize].remaining += 1;
        }
        let plan = plan_by_flow(&needs, now).expect("this plan was made by hand");
        assert!(plan.serves(&needs, now), "{plan:?} for {needs:?} at {now}");

        needs[random.between(0, 15) as usize].remaining += 1;
        assert_eq!(plan_by_flow(&needs, now), None, "{needs:?} at {now}");
    }
}

#[test]
fn figures_of_any_width_are_taken_as_they_are() {
    let need = |remaining, deadline| Need { remaining, deadline };
    assert!(plan_by_flow(&[need(u64::MAX, u64::MAX)], 0).is_some());
    assert!(plan_by_flow(&[need(u64::MAX, u64::MAX)], 1).is_none());
    assert!(plan_by_flow(&[need(u64::MAX, u64::MAX), need(u64::MAX, u64::MAX)], 0).is_none());
    assert!(plan_by_flow(&[need(u64::MAX, u64::MAX), need(0, 0)], 0).is_some());
    assert!(is_there_a_plan(&[], 7));
    assert!(is_there_a_plan(&[need(0, 0)], u64::MAX));
    assert!(!is_there_a_plan(&[need(1, 7)], 7));
    assert!(!is_there_a_plan(&[need(u64::MAX, 7)], 6));
    assert!(is_there_a_plan(&[need(1, 7)], 6));
}

#[test]
fn a_plan_names_one_job_for_a_slot_and_only_slots_in_time_count() {
    let stretch = |first, length, need| Stretch { first, length, need };
    assert_eq!(Plan::of(vec![stretch(3, 2, 0), stretch(4, 1, 1)]), None);
    let plan = Plan::of(vec![stretch(5, 1, 1), stretch(3, 2, 0)]).expect("no slot is named twice");
    let served = |remaining, deadline, now| plan.serves(&[Need { remaining, deadline }, Need { remaining: 1, deadline: 6 }], now);
    assert!(served(2, 5, 3));
    assert!(served(1, 5, 3));
    assert!(!served(3, 5, 3), "three slots needed, two named");
    assert!(!served(2, 4, 3), "the second slot comes at the deadline");
    assert!(!served(2, 5, 4), "the first slot is over");
}
