//! A watch over a history, from what a board sees only: the policy of the set-up, the calls,
//! their answers and the slots named. It never looks at a table and shares no step with the
//! simulator; it keeps books of its own and counts the demands on them.
//!
//! Every complaint begins with the word of the demand it speaks of:
//! - `election`: every slot goes to the place that the published rule names;
//! - `budget`: no job gets more slots than it asked for, nor more than its reserve's cap, and no
//!   slot goes to a place where no job is live;
//! - `gap`: two accepted arrivals at one place are at least the first one's gap apart, also over
//!   a close and an open between them;
//! - `clock`: the slots given and the idle ones together are the clock;
//! - `deadline`: under policy 1 a taken job has had all its slots when the clock reaches its
//!   deadline, unless it departed before;
//! - `late`: under policy 2 a job is dropped at its deadline;
//! - `books`: a call was accepted, or refused with 6 or 10, against what went before.

use crate::figures::{wide, Call, IDLE, PLACES};

/// The figures with which a place was opened.
#[derive(Clone, Copy)]
struct Reserve {
    level: u64,
    cap: u64,
    gap: u64,
}

/// How a job came to its end.
#[derive(Clone, Copy, PartialEq, Eq)]
enum End {
    Left,
    Spent,
    Late,
}

/// An accepted arrival and what became of it.
#[derive(Clone, Copy)]
struct Job {
    level: u64,
    cap: u64,
    asked: u64,
    had: u128,
    deadline: u128,
    end: Option<End>,
}

impl Job {
    fn is_live(&self) -> bool {
        self.end.is_none()
    }
}

/// The last accepted arrival at a place and the gap its reserve had then; no close or open
/// touches it.
#[derive(Clone, Copy)]
struct Start {
    at: u128,
    gap: u64,
}

/// The page of the books for one place.
#[derive(Clone, Copy)]
struct Page {
    reserve: Option<Reserve>,
    /// The last job taken since the place was opened, live or ended.
    job: Option<Job>,
    start: Option<Start>,
    given: u128,
}

impl Page {
    const EMPTY: Page = Page { reserve: None, job: None, start: None, given: 0 };

    fn live_job(&self) -> Option<&Job> {
        self.job.as_ref().filter(|job| job.is_live())
    }

    fn live_job_mut(&mut self) -> Option<&mut Job> {
        self.job.as_mut().filter(|job| job.is_live())
    }
}

/// The books on one history, from its accepted set-up on.
pub struct Watch {
    policy: u64,
    /// The slots that the accepted calls asked for, which is where the clock must stand.
    asked_for: u128,
    /// The slots seen so far.
    clock: u128,
    idle: u128,
    pages: [Page; PLACES],
    first_complaint: Option<String>,
}

impl Watch {
    /// Opens the books: "a history, as the demands speak of it, starts at one accepted set-up".
    pub fn new(policy: u64) -> Watch {
        Watch { policy, asked_for: 0, clock: 0, idle: 0, pages: [Page::EMPTY; PLACES], first_complaint: None }
    }

    /// Enters a call, the number it was answered with and the places it named, in order.
    ///
    /// A slot names one place and an advance one for each slot, 255 for idle. An election may be
    /// entered with the place it answered or with none; it gives no slot. A refused call and
    /// every other call name none.
    pub fn saw_call(&mut self, call: &Call, number: u64, slots: &[u8]) -> Result<(), String> {
        let seen = match number {
            0 => self.enter_accepted(call, slots),
            _ => self.enter_refused(call, number, slots),
        };
        if let (Err(complaint), None) = (&seen, &self.first_complaint) {
            self.first_complaint = Some(complaint.clone());
        }
        seen
    }

    /// The first complaint there was, or else whether the slots given plus the idle ones are the
    /// clock.
    pub fn check(&self) -> Result<(), String> {
        if let Some(complaint) = &self.first_complaint {
            return Err(complaint.clone());
        }
        let given: u128 = self.pages.iter().map(|page| page.given).sum();
        let (idle, clock) = (self.idle, self.asked_for);
        demand(given + idle == clock, || format!("clock: {given} slots given and {idle} idle do not make {clock}"))
    }
}

/// Accepted and refused calls.
impl Watch {
    fn enter_accepted(&mut self, call: &Call, slots: &[u8]) -> Result<(), String> {
        demand(matches!(self.policy, 1 | 2), || format!("books: {call:?} accepted after a refused set-up"))?;
        match *call {
            Call::Slot => return self.enter_slots(1, slots),
            Call::Advance { n, .. } => return self.enter_slots(n, slots),
            Call::Elect => return self.enter_election(slots),
            Call::Open { place, level, cap, gap } => {
                self.enter_open(place, Reserve { level, cap, gap })?;
            }
            Call::Close { place } => self.enter_close(place)?,
            Call::Arrive { place, budget, away } => self.enter_arrival(place, budget, away)?,
            Call::Depart { place } => self.enter_departure(place)?,
        }
        names_no_slot(call, slots)
    }

    /// A refused call gives no slots; and 6, "a job is live here", and 10, "no job is live here",
    /// are seen to be true or not by the books.
    fn enter_refused(&self, call: &Call, number: u64, slots: &[u8]) -> Result<(), String> {
        match *call {
            Call::Arrive { place, .. } | Call::Close { place } if number == 6 => {
                self.demand_live(place, "6 answered")?;
            }
            Call::Depart { place } if number == 10 => {
                self.demand_not_live(place, "10 answered")?;
            }
            _ => {}
        }
        names_no_slot(call, slots)
    }

    fn enter_open(&mut self, place: u64, reserve: Reserve) -> Result<(), String> {
        let page = self.page_mut(place)?;
        demand(page.reserve.is_none(), || format!("books: place {place} opened twice"))?;
        page.reserve = Some(reserve);
        page.job = None;
        Ok(())
    }

    fn enter_close(&mut self, place: u64) -> Result<(), String> {
        self.reserve(place)?;
        self.demand_not_live(place, "closed")?;
        let page = self.page_mut(place)?;
        page.reserve = None;
        page.job = None;
        Ok(())
    }

    fn enter_arrival(&mut self, place: u64, asked: u64, away: u64) -> Result<(), String> {
        let Reserve { level, cap, gap } = self.reserve(place)?;
        self.demand_not_live(place, "a second job taken")?;
        let now = self.clock;
        let page = self.page_mut(place)?;
        if let Some(start) = page.start {
            demand(start.at + wide(start.gap) <= now, || {
                let Start { at, gap } = start;
                format!("gap: arrivals at place {place} at {at} and {now}, with a gap of {gap}")
            })?;
        }
        page.start = Some(Start { at: now, gap });
        let deadline = now + wide(away);
        page.job = Some(Job { level, cap, asked, had: 0, deadline, end: None });
        Ok(())
    }

    fn enter_departure(&mut self, place: u64) -> Result<(), String> {
        self.demand_live(place, "departure accepted")?;
        if let Some(job) = self.page_mut(place)?.live_job_mut() {
            job.end = Some(End::Left);
        }
        Ok(())
    }

    /// An election may be entered with the place it answered, which is held to the rule.
    fn enter_election(&self, slots: &[u8]) -> Result<(), String> {
        match *slots {
            [] => Ok(()),
            [named] => self.demand_elected(u64::from(named)),
            _ => Err("election: one election names several places".to_string()),
        }
    }
}

/// Slots.
impl Watch {
    /// Enters the slots of one call, which must be as many as it asked for.
    fn enter_slots(&mut self, n: u64, slots: &[u8]) -> Result<(), String> {
        self.asked_for += wide(n);
        demand(slots.len() as u128 == wide(n), || format!("clock: {n} slots asked for and {} named", slots.len()))?;
        slots.iter().try_for_each(|&named| self.enter_slot(u64::from(named)))
    }

    /// Enters one slot: who had it, and what its end does to the live jobs.
    fn enter_slot(&mut self, named: u64) -> Result<(), String> {
        if named == IDLE {
            self.demand_elected(IDLE)?;
            self.idle += 1;
        } else {
            self.demand_live_for_slot(named)?;
            self.demand_elected(named)?;
            self.count_slot(named)?;
        }
        self.clock += 1;
        self.pass_deadlines()
    }

    /// Counts a slot for the live job of a place.
    fn count_slot(&mut self, place: u64) -> Result<(), String> {
        let page = self.page_mut(place)?;
        page.given += 1;
        let Some(job) = page.live_job_mut() else {
            return Err(format!("budget: a slot counted for place {place} without a job"));
        };
        job.had += 1;
        let Job { had, asked, cap, .. } = *job;
        demand(had <= wide(asked), || format!("budget: the job at place {place} asked for {asked} and has had {had}"))?;
        demand(had <= wide(cap), || format!("budget: the job at place {place} has had {had} over a cap of {cap}"))?;
        if had == wide(asked) {
            job.end = Some(End::Spent);
        }
        Ok(())
    }

    /// What the clock does to the jobs whose deadline it has reached: under policy 1 there may be
    /// none, and under policy 2 each is dropped.
    fn pass_deadlines(&mut self) -> Result<(), String> {
        let (policy, now) = (self.policy, self.clock);
        for (place, page) in self.pages.iter_mut().enumerate() {
            let Some(job) = page.live_job_mut().filter(|job| job.deadline <= now) else {
                continue;
            };
            demand(policy == 2, || {
                let Job { asked, had, .. } = *job;
                format!("deadline: at {now} the job at place {place} has had {had} of {asked}")
            })?;
            job.end = Some(End::Late);
        }
        Ok(())
    }

    /// The place that the published rule names: the smallest of deadline (policy 1) or level
    /// (policy 2), the lower place number of equals, and [`IDLE`] where no job is live.
    fn named_by_the_rule(&self) -> u64 {
        let live = (0u64..).zip(&self.pages).filter_map(|(place, page)| {
            let job = page.live_job()?;
            let urgency = if self.policy == 1 { job.deadline } else { wide(job.level) };
            Some((urgency, place))
        });
        live.min().map_or(IDLE, |(_, place)| place)
    }
}

/// The single demands.
impl Watch {
    fn demand_elected(&self, named: u64) -> Result<(), String> {
        let rule = self.named_by_the_rule();
        demand(named == rule, || format!("election: {named} named at {}, the rule names {rule}", self.clock))
    }

    fn demand_live(&self, place: u64, event: &str) -> Result<(), String> {
        let page = self.page(place)?;
        if page.live_job().is_some() {
            return Ok(());
        }
        Err(match page.job.and_then(|job| job.end) {
            Some(End::Late) => {
                format!("late: {event} at place {place}, whose job was due to be dropped")
            }
            _ => format!("books: {event} at place {place}, where no job is live"),
        })
    }

    fn demand_not_live(&self, place: u64, event: &str) -> Result<(), String> {
        demand(self.page(place)?.live_job().is_none(), || format!("books: {event} at place {place}, where a job is live"))
    }

    /// A slot may go to a live job only; the complaint tells what became of the last one.
    fn demand_live_for_slot(&self, place: u64) -> Result<(), String> {
        let page = self.page(place)?;
        Err(match page.job {
            Some(Job { end: None, .. }) => return Ok(()),
            Some(Job { end: Some(End::Spent), asked, .. }) => {
                format!("budget: a further slot for place {place}, whose job has had its {asked}")
            }
            Some(Job { end: Some(End::Left), .. }) => {
                format!("budget: a slot for place {place}, whose job has departed")
            }
            Some(Job { end: Some(End::Late), deadline, .. }) => {
                format!("late: a slot for place {place}, whose job was to be dropped at {deadline}")
            }
            None => format!("budget: a slot for place {place}, which has no job"),
        })
    }

    fn page(&self, place: u64) -> Result<&Page, String> {
        usize::try_from(place).ok().and_then(|place| self.pages.get(place)).ok_or_else(|| no_such_place(place))
    }

    fn page_mut(&mut self, place: u64) -> Result<&mut Page, String> {
        usize::try_from(place).ok().and_then(|place| self.pages.get_mut(place)).ok_or_else(|| no_such_place(place))
    }

    fn reserve(&self, place: u64) -> Result<Reserve, String> {
        self.page(place)?.reserve.ok_or_else(|| format!("books: a call accepted at place {place}, which is not open"))
    }
}

/// A complaint unless the demand is met.
fn demand(is_met: bool, complaint: impl FnOnce() -> String) -> Result<(), String> {
    if is_met {
        Ok(())
    } else {
        Err(complaint())
    }
}

fn names_no_slot(call: &Call, slots: &[u8]) -> Result<(), String> {
    demand(slots.is_empty(), || format!("clock: {call:?} gives no slots and names {slots:?}"))
}

fn no_such_place(place: u64) -> String {
    format!("books: {place} is not a place")
}
