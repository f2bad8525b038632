//! "**Fit.** A plan names, for each coming slot, one place or nobody. It serves a job if the
//! job's place stands in at least as many slots as the job has remaining, counting slots t with
//! now ≤ t < deadline."
//!
//! The question is answered by looking for a plan, in two ways that share no reasoning: by trying
//! all plans, and by a flow of slots from the jobs into the intervals between their deadlines.

use std::collections::{HashSet, VecDeque};

use crate::figures::wide;

/// The farthest horizon at which all plans are tried.
const HORIZON_TO_TRY: u64 = 10;

/// The most jobs for which all plans are tried.
const JOBS_TO_TRY: usize = 4;

/// What one job needs of a plan.
#[derive(Clone, Copy, PartialEq, Eq, Debug)]
pub struct Need {
    /// The slots that the job has remaining.
    pub remaining: u64,
    /// The instant before which those slots must come.
    pub deadline: u64,
}

/// A run of coming slots that a plan gives to one need.
#[derive(Clone, Copy, PartialEq, Eq, Debug)]
pub struct Stretch {
    /// The first slot of the run.
    pub first: u128,
    /// How many slots it has.
    pub length: u128,
    /// The position of the need in the slice of needs.
    pub need: usize,
}

impl Stretch {
    /// The tick at which the last slot of the run ends.
    fn end(&self) -> u128 {
        self.first + self.length
    }
}

/// A plan: the stretches it gives away; a slot in none of them is nobody's.
#[derive(Clone, PartialEq, Eq, Debug)]
pub struct Plan {
    stretches: Vec<Stretch>,
}

impl Plan {
    /// The plan of these stretches, provided that no slot stands in two of them.
    pub fn of(mut stretches: Vec<Stretch>) -> Option<Plan> {
        stretches.retain(|stretch| stretch.length > 0);
        stretches.sort_by_key(|stretch| stretch.first);
        let names_each_slot_once = stretches.windows(2).all(|pair| pair[0].end() <= pair[1].first);
        names_each_slot_once.then_some(Plan { stretches })
    }

    /// Whether every need is served: "if the job's place stands in at least as many slots as the
    /// job has remaining, counting slots t with now ≤ t < deadline".
    pub fn serves(&self, needs: &[Need], now: u64) -> bool {
        needs.iter().enumerate().all(|(need, Need { remaining, deadline })| self.slots_of(need, wide(now), wide(*deadline)) >= wide(*remaining))
    }

    /// How many slots t with from ≤ t < until the plan gives to a need.
    fn slots_of(&self, need: usize, from: u128, until: u128) -> u128 {
        self.stretches
            .iter()
            .filter(|stretch| stretch.need == need)
            .map(|stretch| (stretch.first.max(from), stretch.end().min(until)))
            .filter(|(first, end)| first < end)
            .map(|(first, end)| end - first)
            .sum()
    }
}

/// Whether some plan serves all needs: all plans are tried where there are few, and a flow
/// decides the rest.
pub(crate) fn is_there_a_plan(needs: &[Need], now: u64) -> bool {
    let is_small = needs.len() <= JOBS_TO_TRY && needs.iter().all(|need| wide(need.deadline) <= wide(now) + wide(HORIZON_TO_TRY));
    let plan = if is_small { plan_by_trying(needs, now) } else { plan_by_flow(needs, now) };
    debug_assert!(plan.iter().all(|plan| plan.serves(needs, now)));
    plan.is_some()
}

/// Looks for a plan that serves all needs by trying every plan, slot after slot. Meant for a few
/// jobs and a near horizon; it is right for all others too, but slow.
pub fn plan_by_trying(needs: &[Need], now: u64) -> Option<Plan> {
    let mut trial = Trial { needs, remaining: needs.iter().map(|need| need.remaining).collect(), stretches: Vec::new(), failed: HashSet::new() };
    if trial.succeeds_from(wide(now)) {
        Plan::of(trial.stretches)
    } else {
        None
    }
}

/// A trial of all plans: the slots before the present one are named, the others are not yet.
struct Trial<'a> {
    needs: &'a [Need],
    /// What each need still lacks under the names given so far.
    remaining: Vec<u64>,
    stretches: Vec<Stretch>,
    /// The slots and remainders from which every way on has been tried in vain.
    failed: HashSet<(u128, Vec<u64>)>,
}

impl Trial<'_> {
    /// Names the slots from this one on, each to every need that lacks something and then to
    /// nobody, until all needs are served or no way is left.
    fn succeeds_from(&mut self, slot: u128) -> bool {
        if self.remaining.iter().all(|&remaining| remaining == 0) {
            return true;
        }
        if self.is_one_lost_at(slot) || self.failed.contains(&(slot, self.remaining.clone())) {
            return false;
        }
        if (0..self.needs.len()).any(|need| self.succeeds_with(need, slot)) {
            return true;
        }
        if self.succeeds_from(slot + 1) {
            return true;
        }
        self.failed.insert((slot, self.remaining.clone()));
        false
    }

    /// Tries to name this slot to a need that lacks something, and takes the name back in vain.
    fn succeeds_with(&mut self, need: usize, slot: u128) -> bool {
        if self.remaining[need] == 0 {
            return false;
        }
        self.remaining[need] -= 1;
        self.stretches.push(Stretch { first: slot, length: 1, need });
        let succeeds = self.succeeds_from(slot + 1);
        if !succeeds {
            self.stretches.pop();
            self.remaining[need] += 1;
        }
        succeeds
    }

    /// Whether some need lacks more slots than there are from this one to its own deadline, so
    /// that not even all of them would serve it.
    fn is_one_lost_at(&self, slot: u128) -> bool {
        self.needs.iter().zip(&self.remaining).any(|(need, &lacking)| lacking > 0 && slot + wide(lacking) > wide(need.deadline))
    }
}

/// Looks for a plan that serves all needs as a flow: each need sends its remaining slots into the
/// intervals before its deadline, and no interval takes more than its length.
pub fn plan_by_flow(needs: &[Need], now: u64) -> Option<Plan> {
    let mut network = Network::of(needs, now);
    for need in 0..needs.len() {
        while network.lacking(need) > 0 {
            let path = network.shortest_path_from(need)?;
            network.push_along(&path);
        }
    }
    Plan::of(network.stretches())
}

/// The coming slots between two neighbouring deadlines, which are all alike to every need.
struct Interval {
    first: u128,
    end: u128,
}

/// One step of a path: a need takes slots in one interval and, unless it is the need that the
/// path begins with, gives up as many in another.
struct Step {
    need: usize,
    takes: usize,
    gives_up: Option<usize>,
}

/// The network of needs and intervals, with the slots that flow from each to each.
struct Network<'a> {
    needs: &'a [Need],
    intervals: Vec<Interval>,
    /// For each need, the slots it has been given in each interval.
    given: Vec<Vec<u128>>,
}

impl<'a> Network<'a> {
    /// The network in which nothing flows yet.
    fn of(needs: &'a [Need], now: u64) -> Network<'a> {
        let intervals = intervals_between(needs, now);
        let given = vec![vec![0; intervals.len()]; needs.len()];
        Network { needs, intervals, given }
    }

    /// How many slots a need has not been given yet.
    fn lacking(&self, need: usize) -> u128 {
        wide(self.needs[need].remaining) - self.given[need].iter().sum::<u128>()
    }

    /// How many slots of an interval are given to no need.
    fn free(&self, interval: usize) -> u128 {
        let Interval { first, end } = self.intervals[interval];
        end - first - self.given.iter().map(|given| given[interval]).sum::<u128>()
    }

    /// Whether the slots of an interval count for a need: "slots t with now ≤ t < deadline".
    fn counts_for(&self, need: usize, interval: usize) -> bool {
        self.intervals[interval].end <= wide(self.needs[need].deadline)
    }

    /// The shortest path by which a need can get a further slot: it takes one in an interval,
    /// whose holder takes one elsewhere instead, and so on to an interval with a free slot. None
    /// means that the intervals reached are full of the needs reached, which are not all served:
    /// then there is no plan.
    fn shortest_path_from(&self, origin: usize) -> Option<Vec<Step>> {
        let mut taker: Vec<Option<usize>> = vec![None; self.intervals.len()];
        let mut giving_up: Vec<Option<usize>> = vec![None; self.needs.len()];
        let mut reached = VecDeque::from([origin]);
        while let Some(need) = reached.pop_front() {
            for interval in 0..self.intervals.len() {
                if taker[interval].is_some() || !self.counts_for(need, interval) {
                    continue;
                }
                taker[interval] = Some(need);
                if self.free(interval) > 0 {
                    return Some(path_back(interval, &taker, &giving_up));
                }
                for holder in (0..self.needs.len()).filter(|&holder| holder != origin) {
                    if giving_up[holder].is_none() && self.given[holder][interval] > 0 {
                        giving_up[holder] = Some(interval);
                        reached.push_back(holder);
                    }
                }
            }
        }
        None
    }

    /// Sends along a path as many slots as it can carry; it begins with its last step.
    fn push_along(&mut self, path: &[Step]) {
        let room = path.first().map_or(0, |step| self.free(step.takes));
        let amount = path
            .iter()
            .map(|step| match step.gives_up {
                Some(interval) => self.given[step.need][interval],
                None => self.lacking(step.need),
            })
            .fold(room, u128::min);
        for step in path {
            self.given[step.need][step.takes] += amount;
            if let Some(interval) = step.gives_up {
                self.given[step.need][interval] -= amount;
            }
        }
    }

    /// The flow as stretches: within an interval the needs come one after the other.
    fn stretches(&self) -> Vec<Stretch> {
        let mut stretches = Vec::new();
        for (place, interval) in self.intervals.iter().enumerate() {
            let mut first = interval.first;
            for (need, given) in self.given.iter().enumerate() {
                let length = given[place];
                stretches.push(Stretch { first, length, need });
                first += length;
            }
        }
        stretches
    }
}

/// The intervals from now to the last deadline, cut at every deadline.
fn intervals_between(needs: &[Need], now: u64) -> Vec<Interval> {
    let mut deadlines: Vec<u64> = needs.iter().map(|need| need.deadline).filter(|&deadline| deadline > now).collect();
    deadlines.sort_unstable();
    deadlines.dedup();
    let firsts = [now].into_iter().chain(deadlines.iter().copied());
    firsts.zip(&deadlines).map(|(first, &end)| Interval { first: wide(first), end: wide(end) }).collect()
}

/// Follows the search from the interval with a free slot back to the need that began it.
fn path_back(free: usize, taker: &[Option<usize>], giving_up: &[Option<usize>]) -> Vec<Step> {
    let mut path = Vec::new();
    let mut interval = Some(free);
    while let Some(takes) = interval {
        let need = taker[takes].expect("the search came to this interval from a need");
        interval = giving_up[need];
        path.push(Step { need, takes, gives_up: interval });
    }
    path
}
