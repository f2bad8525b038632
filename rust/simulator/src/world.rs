//! The world behind a sound table: reserves, and live jobs as values in a queue.

use crate::figures::{wide, Call, Figures, PlaceFigures, END_OF_CLOCK, IDLE, LAST_LEVEL, LONGEST_SPAN, MOST_SLOTS, PLACES};
use crate::plan::{is_there_a_plan, Need};
use crate::refusal::Refusal;

/// "The policy (1 earliest deadline, 2 fixed priority)."
#[derive(Clone, Copy, PartialEq, Eq)]
enum Policy {
    EarliestDeadline,
    FixedPriority,
}

impl Policy {
    fn of(number: u64) -> Policy {
        match number {
            1 => Policy::EarliestDeadline,
            2 => Policy::FixedPriority,
            _ => unreachable!("a sound table has policy 1 or 2"),
        }
    }

    fn number(self) -> u64 {
        match self {
            Policy::EarliestDeadline => 1,
            Policy::FixedPriority => 2,
        }
    }
}

/// "How the last job ended: 0 none, 1 left, 2 spent, 3 late."
#[derive(Clone, Copy, PartialEq, Eq)]
enum Ending {
    None,
    Left,
    Spent,
    Late,
}

impl Ending {
    fn of(number: u64) -> Ending {
        match number {
            0 => Ending::None,
            1 => Ending::Left,
            2 => Ending::Spent,
            3 => Ending::Late,
            _ => unreachable!("a sound table has endings 0 to 3"),
        }
    }

    fn number(self) -> u64 {
        match self {
            Ending::None => 0,
            Ending::Left => 1,
            Ending::Spent => 2,
            Ending::Late => 3,
        }
    }
}

/// What an open place holds beside its job.
#[derive(Clone, Copy)]
struct Reserve {
    level: u64,
    cap: u64,
    gap: u64,
    next: u128,
    ending: Ending,
}

/// A place: its reserve if it is open, and the total, which outlives every reserve.
#[derive(Clone, Copy)]
struct Place {
    reserve: Option<Reserve>,
    total: u128,
}

/// A live job, which knows its owner.
#[derive(Clone, Copy)]
struct Job {
    owner: usize,
    /// What the election goes by, the smallest first: the deadline under policy 1, the level of
    /// the owner under policy 2.
    urgency: u128,
    budget: u64,
    remaining: u128,
    deadline: u128,
}

impl Job {
    /// The order of the queue; "equal: the lower place number".
    fn rank(&self) -> (u128, usize) {
        (self.urgency, self.owner)
    }
}

/// All that a sound table says, with the live jobs in the order in which they would be elected.
pub(crate) struct World {
    policy: Policy,
    now: u128,
    idle: u128,
    places: [Place; PLACES],
    queue: Vec<Job>,
}

/// From the figures and back to them.
impl World {
    /// The world of a sound table.
    pub(crate) fn of(table: &Figures) -> World {
        let mut world = World {
            policy: Policy::of(table.policy),
            now: wide(table.now),
            idle: wide(table.idle),
            places: table.places.map(|place| place_of(&place)),
            queue: Vec::with_capacity(PLACES),
        };
        for (owner, place) in table.places.iter().enumerate() {
            if place.live == 1 {
                let job = world.job(owner, place.level, place.budget, wide(place.deadline));
                world.join(Job { remaining: wide(place.remaining), ..job });
            }
        }
        world
    }

    /// The figures of this world.
    pub(crate) fn figures(&self) -> Figures {
        let mut table = Figures {
            policy: self.policy.number(),
            now: narrow(self.now),
            idle: narrow(self.idle),
            places: self.places.map(|place| figures_of(&place)),
        };
        for job in &self.queue {
            let place = &mut table.places[job.owner];
            place.live = 1;
            place.budget = job.budget;
            place.remaining = narrow(job.remaining);
            place.deadline = narrow(job.deadline);
        }
        table
    }
}

/// The calls.
impl World {
    /// Makes a call, or tells the first refusal that applies; a refused call changes nothing.
    /// The answer is the place that an election or a slot names, and [`IDLE`] otherwise.
    pub(crate) fn answer(&mut self, call: &Call, record: &mut [u8]) -> Result<u64, Refusal> {
        match *call {
            Call::Open { place, level, cap, gap } => self.open(place, level, cap, gap)?,
            Call::Close { place } => self.close(place)?,
            Call::Arrive { place, budget, away } => self.arrive(place, budget, away)?,
            Call::Depart { place } => self.depart(place)?,
            Call::Elect => return Ok(named(self.elected())),
            Call::Slot => return self.slot(),
            Call::Advance { n, start } => self.advance(n, start, record)?,
        }
        Ok(IDLE)
    }

    /// "**Open** (place, level, C, T). The place becomes open with these figures; next 0, no job,
    /// ending 0."
    fn open(&mut self, place: u64, level: u64, cap: u64, gap: u64) -> Result<(), Refusal> {
        let place = existing(place)?;
        Refusal::AlreadyOpen.when(self.places[place].reserve.is_some())?;
        Refusal::BadFigures.when(level > LAST_LEVEL || cap == 0 || cap > gap || gap > LONGEST_SPAN)?;

        let reserve = Reserve { level, cap, gap, next: 0, ending: Ending::None };
        self.places[place].reserve = Some(reserve);
        Ok(())
    }

    /// "**Close** (place). The place returns to zeros, its total kept."
    fn close(&mut self, place: u64) -> Result<(), Refusal> {
        let place = existing(place)?;
        let reserve = self.reserve(place)?;
        Refusal::JobIsLive.when(self.turn_of(place).is_some())?;
        Refusal::InsideTheGap.when(self.now < reserve.next)?;

        self.places[place].reserve = None;
        Ok(())
    }

    /// "**Arrive** (place, b, D). The job becomes live: remaining b, deadline now + D, ending 0;
    /// next becomes now + T. A refused arrival uses up no gap."
    fn arrive(&mut self, place: u64, budget: u64, away: u64) -> Result<(), Refusal> {
        let place = existing(place)?;
        let reserve = *self.reserve(place)?;
        Refusal::BadFigures.when(budget == 0 || budget > reserve.cap || away == 0 || away > LONGEST_SPAN)?;
        Refusal::JobIsLive.when(self.turn_of(place).is_some())?;
        Refusal::InsideTheGap.when(self.now < reserve.next)?;
        let deadline = self.now + wide(away);
        Refusal::BeyondTheClock.when(deadline > wide(END_OF_CLOCK))?;
        let job = self.job(place, reserve.level, budget, deadline);
        Refusal::WouldNotFit.when(self.policy == Policy::EarliestDeadline && !self.has_a_plan_with(&job))?;

        self.join(job);
        let next = self.now + wide(reserve.gap);
        self.places[place].reserve = Some(Reserve { next, ending: Ending::None, ..reserve });
        Ok(())
    }

    /// "**Depart** (place). The job is gone with ending 1; next stays."
    fn depart(&mut self, place: u64) -> Result<(), Refusal> {
        let place = existing(place)?;
        self.reserve(place)?;
        let turn = self.turn_of(place).ok_or(Refusal::NoJobIsLive)?;

        self.end_job(turn, Ending::Left);
        Ok(())
    }

    /// One slot, unless it would end beyond the clock.
    fn slot(&mut self) -> Result<u64, Refusal> {
        self.has_clock_left_for(1)?;
        Ok(named(self.give_slot()))
    }

    /// "**Advance** (n, a lent slot record, a start in it). The same as n single slots."
    ///
    /// "The place number, or 255 for idle, is written for each slot in turn, into the piece of
    /// the record that begins at the start given; no other byte changes."
    fn advance(&mut self, n: u64, start: usize, record: &mut [u8]) -> Result<(), Refusal> {
        Refusal::BadFigures.when(n > MOST_SLOTS)?;
        self.has_clock_left_for(n)?;
        let piece = piece_of(record, start, n).ok_or(Refusal::RecordTooShort)?;

        for byte in piece {
            *byte = named(self.give_slot()) as u8;
        }
        Ok(())
    }

    /// Refuses when "now + n is beyond 4,000,000,000".
    fn has_clock_left_for(&self, n: u64) -> Result<(), Refusal> {
        Refusal::BeyondTheClock.when(self.now + wide(n) > wide(END_OF_CLOCK))
    }

    /// "Refusal 9 is given exactly when no plan serves the new job and every live one."
    fn has_a_plan_with(&self, newcomer: &Job) -> bool {
        let needs: Vec<Need> = self.queue.iter().chain([newcomer]).map(need_of).collect();
        is_there_a_plan(&needs, narrow(self.now))
    }

    /// The reserve of an open place.
    fn reserve(&self, place: usize) -> Result<&Reserve, Refusal> {
        self.places[place].reserve.as_ref().ok_or(Refusal::NotOpen)
    }
}

/// The slots.
impl World {
    /// Step 1: "Elect. Policy 1: the live job with the earliest deadline (000). Policy 2: the
    /// live job with the smallest level (003). Equal: the lower place number. No live job: idle."
    fn elected(&self) -> Option<usize> {
        self.queue.first().map(|job| job.owner)
    }

    /// Gives one slot in the paper's four steps and tells whose it was.
    fn give_slot(&mut self) -> Option<usize> {
        let elected = self.elected();
        self.spend_slot();
        self.end_if_spent();
        if self.policy == Policy::FixedPriority {
            self.end_the_late();
        }
        elected
    }

    /// Step 2: "The elected place loses one remaining slot and its total grows by one; or idle
    /// grows by one. Now grows by one."
    fn spend_slot(&mut self) {
        match self.queue.first_mut() {
            Some(job) => {
                job.remaining -= 1;
                self.places[job.owner].total += 1;
            }
            None => self.idle += 1,
        }
        self.now += 1;
    }

    /// Step 3: "An elected job with remaining 0 is gone with ending 2."
    fn end_if_spent(&mut self) {
        if self.queue.first().is_some_and(|job| job.remaining == 0) {
            self.end_job(0, Ending::Spent);
        }
    }

    /// Step 4: "Under policy 2, every job still live whose deadline is ≤ now is gone with
    /// ending 3."
    fn end_the_late(&mut self) {
        while let Some(turn) = self.queue.iter().position(|job| job.deadline <= self.now) {
            self.end_job(turn, Ending::Late);
        }
    }
}

/// The queue.
impl World {
    /// A job with all of its budget still to come.
    fn job(&self, owner: usize, level: u64, budget: u64, deadline: u128) -> Job {
        let urgency = match self.policy {
            Policy::EarliestDeadline => deadline,
            Policy::FixedPriority => wide(level),
        };
        Job { owner, urgency, budget, remaining: wide(budget), deadline }
    }

    /// A job joins the queue in the order of rank.
    fn join(&mut self, job: Job) {
        let turn = self.queue.partition_point(|other| other.rank() < job.rank());
        self.queue.insert(turn, job);
    }

    /// Where in the queue the live job of a place stands.
    fn turn_of(&self, place: usize) -> Option<usize> {
        self.queue.iter().position(|job| job.owner == place)
    }

    /// A job leaves the queue, and its reserve keeps how it ended.
    fn end_job(&mut self, turn: usize, ending: Ending) {
        let job = self.queue.remove(turn);
        if let Some(reserve) = &mut self.places[job.owner].reserve {
            reserve.ending = ending;
        }
    }
}

/// Refuses a place number of 16 or more.
fn existing(place: u64) -> Result<usize, Refusal> {
    usize::try_from(place).ok().filter(|&place| place < PLACES).ok_or(Refusal::NoSuchPlace)
}

/// The n bytes of the record from the start on, if it has them.
fn piece_of(record: &mut [u8], start: usize, n: u64) -> Option<&mut [u8]> {
    let length = usize::try_from(n).ok()?;
    record.get_mut(start..)?.get_mut(..length)
}

/// The number by which an answer or a record names a place or idle.
fn named(place: Option<usize>) -> u64 {
    place.map_or(IDLE, |place| place as u64)
}

/// What a job needs of a plan.
fn need_of(job: &Job) -> Need {
    Need { remaining: narrow(job.remaining), deadline: narrow(job.deadline) }
}

/// The place behind sound figures, without its job.
fn place_of(figures: &PlaceFigures) -> Place {
    let reserve = (figures.opened == 1).then(|| Reserve {
        level: figures.level,
        cap: figures.cap,
        gap: figures.gap,
        next: wide(figures.next),
        ending: Ending::of(figures.ending),
    });
    Place { reserve, total: wide(figures.total) }
}

/// The figures of a place, without its job.
fn figures_of(place: &Place) -> PlaceFigures {
    let closed = PlaceFigures { total: narrow(place.total), ..PlaceFigures::ZEROS };
    match &place.reserve {
        None => closed,
        Some(reserve) => PlaceFigures {
            opened: 1,
            level: reserve.level,
            cap: reserve.cap,
            gap: reserve.gap,
            next: narrow(reserve.next),
            ending: reserve.ending.number(),
            ..closed
        },
    }
}

/// A figure of a world back in the width of a table. The bounds of soundness keep each of them
/// far below 2^64.
fn narrow(figure: u128) -> u64 {
    u64::try_from(figure).expect("the figures of a sound table are bounded")
}
