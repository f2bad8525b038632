//! A history under trial: where it starts, and its steps; made by chance so that it hugs every edge of the paper.

use crate::chance::Chance;
use simulator::{Call, Figures, PlaceFigures};

/// A call, and the length of the record that is lent to it.
#[derive(Clone, Copy, Debug)]
pub struct Step {
    pub call: Call,
    pub record: usize,
}

/// Where a history starts: at a set-up, or at a table made by hand.
#[derive(Clone, Copy, Debug)]
pub enum Start {
    SetUp(u64),
    Table(Figures),
}

#[derive(Clone, Debug)]
pub struct History {
    pub start: Start,
    pub steps: Vec<Step>,
}

const END_OF_CLOCK: u64 = 4_000_000_000;
const LONGEST: u64 = 1_000_000;

/// One figure near an edge, or far off.
fn odd(chance: &mut Chance) -> u64 {
    chance.of(&[0, 1, 2, 7, 8, 15, 16, 255, LONGEST, LONGEST + 1, END_OF_CLOCK, END_OF_CLOCK + 1, u64::MAX - 1, u64::MAX])
}

/// One of the first few places, or seldom one at the edge.
fn place(chance: &mut Chance, few: u64) -> u64 {
    if chance.once_in(40) {
        return chance.of(&[15, 16, 17, u64::MAX]);
    }
    chance.below(few)
}

fn open(chance: &mut Chance, few: u64) -> Call {
    let cap = if chance.once_in(20) { odd(chance) } else { 1 + chance.below(5) };
    let gap = match chance.below(8) {
        0 => odd(chance),
        1 => cap,
        2 => cap.saturating_sub(1),
        _ => cap.saturating_add(chance.below(9)),
    };
    let level = if chance.once_in(20) { chance.of(&[7, 8, u64::MAX]) } else { chance.below(4) };
    let place = place(chance, few);
    Call::Open { place, level, cap, gap }
}

/// The slots still free before d, where the jobs with deadlines up to d are served first.
fn free_before(t: &Figures, d: u64) -> u64 {
    let due = t.places.iter().filter(|p| p.live == 1 && p.deadline <= d).fold(0u64, |sum, p| sum.saturating_add(p.remaining));
    d.saturating_sub(t.now).saturating_sub(due)
}

fn arrive(chance: &mut Chance, few: u64, t: &Figures) -> Call {
    let place = place(chance, few);
    let reserve = t.places.get(place as usize).copied().unwrap_or(PlaceFigures::ZEROS);
    let live: Vec<u64> = t.places.iter().filter(|p| p.live == 1).map(|p| p.deadline.saturating_sub(t.now)).collect();
    let mut away = match chance.below(6) {
        0 if !live.is_empty() => live[chance.below(live.len() as u64) as usize],
        1 => reserve.cap,
        2 if !live.is_empty() => live[chance.below(live.len() as u64) as usize].saturating_sub(1),
        _ => 1 + chance.below(14),
    };
    let mut budget = match chance.below(6) {
        0 => reserve.cap,
        1 => away,
        2 => free_before(t, t.now.saturating_add(away)),
        3 => free_before(t, t.now.saturating_add(away)).saturating_add(1),
        _ => 1 + chance.below(reserve.cap.clamp(1, 8)),
    };
    if chance.once_in(30) {
        let far = odd(chance);
        budget = chance.of(&[0, reserve.cap.saturating_add(1), far]);
    }
    if chance.once_in(30) {
        let far = odd(chance);
        away = chance.of(&[0, far, (END_OF_CLOCK + 1).saturating_sub(t.now), END_OF_CLOCK.saturating_sub(t.now)]);
    }
    Call::Arrive { place, budget, away }
}

fn advance(chance: &mut Chance, t: &Figures) -> Step {
    let to_next: Vec<u64> = t.places.iter().filter(|p| p.next > t.now).map(|p| p.next - t.now).collect();
    let n = match chance.below(60) {
        0 => 4_096,
        1 => 4_097,
        2 => odd(chance),
        3 => END_OF_CLOCK.saturating_sub(t.now).saturating_add(chance.below(2)).min(4_097),
        4..=15 if !to_next.is_empty() => to_next[chance.below(to_next.len() as u64) as usize].min(4_096).saturating_sub(chance.below(2)),
        16..=18 => 0,
        _ => 1 + chance.below(7),
    };
    let start = if chance.once_in(50) { chance.of(&[u64::MAX, u64::MAX - 3, 4_097]) as usize } else { chance.below(4) as usize };
    let room = (start.min(8) as u64).saturating_add(n.min(4_097));
    let record = match chance.below(8) {
        0 => room.saturating_sub(1),
        1 => room + 1 + chance.below(5),
        2 => chance.below(12),
        _ => room,
    };
    Step { call: Call::Advance { n, start }, record: record as usize }
}

/// The next step of a history of so few places that has come to this table.
pub fn step(chance: &mut Chance, few: u64, t: &Figures) -> Step {
    let shut = t.places.iter().take(few as usize).filter(|p| p.opened == 0).count() as u64;
    if chance.below(2 * few) < shut {
        return Step { call: open(chance, few), record: 0 };
    }
    let call = match chance.below(20) {
        0 => open(chance, few),
        1 => Call::Close { place: place(chance, few) },
        2..=10 => arrive(chance, few, t),
        11 => Call::Depart { place: place(chance, few) },
        12 => Call::Elect,
        13 | 14 => Call::Slot,
        _ => return advance(chance, t),
    };
    Step { call, record: chance.below(4) as usize }
}

/// The table as many ticks later, all of them idle: sound where it was and the clock has them.
pub fn later(t: &Figures, ticks: u64) -> Figures {
    let mut u = *t;
    u.now += ticks;
    u.idle += ticks;
    for p in &mut u.places {
        if p.opened == 1 {
            p.next += ticks;
        }
        if p.live == 1 {
            p.deadline += ticks;
        }
    }
    u
}

/// The same table, moved to within a few ticks of the end of the clock.
pub fn near_the_end(chance: &mut Chance, t: &Figures) -> Figures {
    let last = t.places.iter().filter(|p| p.live == 1).map(|p| p.deadline).max().unwrap_or(t.now).max(t.now);
    let spare = chance.of(&[0, 0, 1, 2, 5, 20, 5_000]);
    later(t, (END_OF_CLOCK - last).saturating_sub(spare))
}

fn figures_mut(t: &mut Figures) -> Vec<&mut u64> {
    let mut all = vec![&mut t.policy, &mut t.now, &mut t.idle];
    for p in &mut t.places {
        all.extend([
            &mut p.opened,
            &mut p.level,
            &mut p.cap,
            &mut p.gap,
            &mut p.next,
            &mut p.live,
            &mut p.budget,
            &mut p.remaining,
            &mut p.deadline,
            &mut p.ending,
            &mut p.total,
        ]);
    }
    all
}

/// The table with one figure spoilt by a little or a lot.
pub fn spoilt(chance: &mut Chance, t: &Figures) -> Figures {
    let mut u = *t;
    let mut all = figures_mut(&mut u);
    let which = chance.below(all.len() as u64) as usize;
    let figure = &mut *all[which];
    *figure = match chance.below(4) {
        0 => figure.wrapping_add(1),
        1 => figure.wrapping_sub(1),
        2 => odd(chance),
        _ => chance.next(),
    };
    u
}

/// A table of any numbers at all.
pub fn scrambled(chance: &mut Chance) -> Figures {
    let mut u = Figures::ZEROS;
    let small = chance.once_in(2);
    for figure in figures_mut(&mut u) {
        *figure = if small { chance.below(3) } else { chance.next() };
    }
    u
}
