// The calls of paper 01 as one would write them in ordinary Rust: on a `&mut` table, with the same checks by the same algorithm.

use trinvoksha::{Instant, Place, Span, Table};

const PLACES: usize = 16;
const LAST_TICK: u64 = 4_000_000_000;
const LONGEST_SPAN: u64 = 1_000_000;
const LAST_LEVEL: u64 = 7;
const MOST_SLOTS: u64 = 4_096;
const NOBODY: u64 = 255;
const EARLIEST_DEADLINE: u64 = 1;
const FIXED_PRIORITY: u64 = 2;
const LEFT: u64 = 1;
const SPENT: u64 = 2;
const LATE: u64 = 3;

fn closed_place(total: Span) -> Place {
    Place {
        opened: 0,
        level: 0,
        cap: Span(0),
        gap: Span(0),
        next: Instant(0),
        live: 0,
        budget: Span(0),
        remaining: Span(0),
        deadline: Instant(0),
        ending: 0,
        total,
    }
}

fn place_is_sound(now: u64, p: &Place) -> bool {
    if p.opened == 0 {
        return p.level == 0
            && p.cap.0 == 0
            && p.gap.0 == 0
            && p.next.0 == 0
            && p.live == 0
            && p.budget.0 == 0
            && p.remaining.0 == 0
            && p.deadline.0 == 0
            && p.ending == 0;
    }
    let reserve = p.opened == 1
        && p.level <= LAST_LEVEL
        && 1 <= p.cap.0
        && p.cap.0 <= p.gap.0
        && p.gap.0 <= LONGEST_SPAN
        && p.next.0 <= now.saturating_add(p.gap.0)
        && p.ending <= LATE;
    if !reserve {
        return false;
    }
    if p.live == 0 {
        return p.budget.0 == 0 && p.remaining.0 == 0 && p.deadline.0 == 0;
    }
    p.live == 1
        && p.ending == 0
        && 1 <= p.remaining.0
        && p.remaining.0 <= p.budget.0
        && p.budget.0 <= p.cap.0
        && p.budget.0 - p.remaining.0 <= p.total.0
        && now < p.deadline.0
        && p.deadline.0 <= LAST_TICK
        && p.deadline.0 <= now.saturating_add(LONGEST_SPAN)
}

fn clock_adds_up(t: &Table) -> bool {
    let Some(mut left) = t.now.0.checked_sub(t.idle.0) else {
        return false;
    };
    for p in &t.places {
        let Some(rest) = left.checked_sub(p.total.0) else {
            return false;
        };
        left = rest;
    }
    left == 0
}

fn demand_is_within(t: &Table, deadline: u64, span: u64) -> bool {
    let mut left = span;
    for p in &t.places {
        if p.live == 1 && p.deadline.0 <= deadline {
            let Some(rest) = left.checked_sub(p.remaining.0) else {
                return false;
            };
            left = rest;
        }
    }
    true
}

fn fits(t: &Table) -> bool {
    t.places.iter().all(|p| p.live != 1 || demand_is_within(t, p.deadline.0, p.deadline.0.saturating_sub(t.now.0)))
}

pub fn is_sound(t: &Table) -> bool {
    (t.policy == EARLIEST_DEADLINE || t.policy == FIXED_PRIORITY)
        && t.now.0 <= LAST_TICK
        && clock_adds_up(t)
        && t.places.iter().all(|p| place_is_sound(t.now.0, p))
        && (t.policy == FIXED_PRIORITY || fits(t))
}

pub fn set_up(policy: u64) -> (u64, Table) {
    let known = policy == EARLIEST_DEADLINE || policy == FIXED_PRIORITY;
    let table = Table { policy: if known { policy } else { 0 }, now: Instant(0), idle: Span(0), places: [closed_place(Span(0)); PLACES] };
    (if known { 0 } else { 12 }, table)
}

pub fn open(t: &mut Table, place: u64, level: u64, cap: Span, gap: Span) -> u64 {
    if !is_sound(t) {
        return 1;
    }
    if place >= PLACES as u64 {
        return 2;
    }
    let p = &mut t.places[place as usize];
    if p.opened == 1 {
        return 3;
    }
    if level > LAST_LEVEL || cap.0 == 0 || cap.0 > gap.0 || gap.0 > LONGEST_SPAN {
        return 5;
    }
    *p = Place { opened: 1, level, cap, gap, ..closed_place(p.total) };
    0
}

pub fn close(t: &mut Table, place: u64) -> u64 {
    if !is_sound(t) {
        return 1;
    }
    if place >= PLACES as u64 {
        return 2;
    }
    let p = &mut t.places[place as usize];
    if p.opened != 1 {
        return 4;
    }
    if p.live == 1 {
        return 6;
    }
    if t.now.0 < p.next.0 {
        return 7;
    }
    *p = closed_place(p.total);
    0
}

pub fn arrive(t: &mut Table, place: u64, budget: Span, away: Span) -> u64 {
    if !is_sound(t) {
        return 1;
    }
    if place >= PLACES as u64 {
        return 2;
    }
    let now = t.now.0;
    let p = &mut t.places[place as usize];
    if p.opened != 1 {
        return 4;
    }
    if budget.0 == 0 || budget.0 > p.cap.0 || away.0 == 0 || away.0 > LONGEST_SPAN {
        return 5;
    }
    if p.live == 1 {
        return 6;
    }
    if now < p.next.0 {
        return 7;
    }
    if now + away.0 > LAST_TICK {
        return 8;
    }
    let before = *p;
    p.next = Instant(now + p.gap.0);
    p.live = 1;
    p.budget = budget;
    p.remaining = budget;
    p.deadline = Instant(now + away.0);
    p.ending = 0;
    if t.policy == EARLIEST_DEADLINE && !fits(t) {
        t.places[place as usize] = before;
        return 9;
    }
    0
}

fn end(p: &mut Place, ending: u64) {
    p.live = 0;
    p.budget = Span(0);
    p.remaining = Span(0);
    p.deadline = Instant(0);
    p.ending = ending;
}

pub fn depart(t: &mut Table, place: u64) -> u64 {
    if !is_sound(t) {
        return 1;
    }
    if place >= PLACES as u64 {
        return 2;
    }
    let p = &mut t.places[place as usize];
    if p.opened != 1 {
        return 4;
    }
    if p.live != 1 {
        return 10;
    }
    end(p, LEFT);
    0
}

fn elect(t: &Table) -> Option<usize> {
    let mut leader: Option<(usize, u64)> = None;
    for (i, p) in t.places.iter().enumerate() {
        if p.live == 1 {
            let rank = if t.policy == EARLIEST_DEADLINE { p.deadline.0 } else { p.level };
            if leader.map_or(true, |(_, best)| rank < best) {
                leader = Some((i, rank));
            }
        }
    }
    leader.map(|(i, _)| i)
}

fn number(place: Option<usize>) -> u64 {
    place.map_or(NOBODY, |i| i as u64)
}

pub fn election(t: &Table) -> (u64, u64) {
    if !is_sound(t) {
        return (1, NOBODY);
    }
    (0, number(elect(t)))
}

fn give_slot(t: &mut Table) -> u64 {
    let place = elect(t);
    match place {
        Some(i) => {
            let p = &mut t.places[i];
            p.remaining.0 -= 1;
            p.total.0 += 1;
            if p.remaining.0 == 0 {
                end(p, SPENT);
            }
        }
        None => t.idle.0 += 1,
    }
    t.now.0 += 1;
    if t.policy == FIXED_PRIORITY {
        for p in &mut t.places {
            if p.live == 1 && p.deadline.0 <= t.now.0 {
                end(p, LATE);
            }
        }
    }
    number(place)
}

pub fn slot(t: &mut Table) -> (u64, u64) {
    if !is_sound(t) {
        return (1, NOBODY);
    }
    if t.now.0 + 1 > LAST_TICK {
        return (8, NOBODY);
    }
    (0, give_slot(t))
}

pub fn advance(t: &mut Table, n: Span, record: &mut [u8], start: usize) -> u64 {
    if !is_sound(t) {
        return 1;
    }
    if n.0 > MOST_SLOTS {
        return 5;
    }
    if t.now.0 + n.0 > LAST_TICK {
        return 8;
    }
    if start > record.len() || record.len() - start < n.0 as usize {
        return 11;
    }
    for byte in &mut record[start..start + n.0 as usize] {
        *byte = give_slot(t) as u8;
    }
    0
}
