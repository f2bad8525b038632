//! What the trials share: a generator of random numbers, random calls, and a bench that drives
//! the simulator under the eyes of a watch.

#![allow(dead_code)]

use simulator::watch::Watch;
use simulator::{call, is_sound, set_up, Call, Figures, Need, Outcome, IDLE};

/// A generator of random numbers by shifts and exclusive ors.
pub struct Random(u64);

impl Random {
    /// A generator whose numbers depend on the seed alone.
    pub fn seeded(seed: u64) -> Random {
        Random(seed.wrapping_mul(0x9E37_79B9_7F4A_7C15) | 1)
    }

    /// Any number.
    pub fn number(&mut self) -> u64 {
        self.0 ^= self.0 << 13;
        self.0 ^= self.0 >> 7;
        self.0 ^= self.0 << 17;
        self.0.wrapping_mul(0x2545_F491_4F6C_DD1D)
    }

    /// A number from the first to the last, both included.
    pub fn between(&mut self, first: u64, last: u64) -> u64 {
        first + (self.number() >> 16) % (last - first + 1)
    }

    /// True once in so many times.
    pub fn one_in(&mut self, times: u64) -> bool {
        self.between(1, times) == 1
    }

    /// One of the given numbers.
    pub fn one_of(&mut self, numbers: &[u64]) -> u64 {
        numbers[self.between(0, numbers.len() as u64 - 1) as usize]
    }
}

/// How crowded a random history is.
#[derive(Clone, Copy)]
pub struct Crowd {
    /// The calls speak of places below this one, but for a few strays.
    pub places: u64,
    /// The largest budget, gap and distance of a deadline, but for a few strays.
    pub cap: u64,
    pub gap: u64,
    pub away: u64,
    /// The most slots of one advance.
    pub slots: u64,
}

/// Few jobs with near deadlines, where all plans are tried.
pub const FEW: Crowd = Crowd { places: 4, cap: 4, gap: 8, away: 10, slots: 5 };

/// Many jobs, where a flow decides.
pub const MANY: Crowd = Crowd { places: 16, cap: 6, gap: 30, away: 50, slots: 9 };

/// A random call, most of the time with figures that can be accepted.
pub fn random_call(random: &mut Random, crowd: Crowd) -> Call {
    let place = if random.one_in(60) { random.one_of(&[15, 16, 255, u64::MAX]) } else { random.between(0, crowd.places - 1) };
    match random.between(0, 19) {
        0..=4 => {
            let cap = stray(random, crowd.cap);
            let gap = stray(random, crowd.gap);
            Call::Open { place, level: stray(random, 8) % 9, cap, gap }
        }
        5 => Call::Close { place },
        6..=12 => {
            let budget = stray(random, crowd.cap);
            Call::Arrive { place, budget, away: stray(random, crowd.away) }
        }
        13 => Call::Depart { place },
        14 => Call::Elect,
        15 | 16 => Call::Slot,
        _ => {
            let n = if random.one_in(50) { random.one_of(&[0, 4_096, 4_097, u64::MAX]) } else { random.between(0, crowd.slots) };
            Call::Advance { n, start: random.between(0, 3) as usize }
        }
    }
}

/// A number from 1 to the last, and now and then a stray one.
fn stray(random: &mut Random, last: u64) -> u64 {
    if random.one_in(40) {
        random.one_of(&[0, last + 1, 1_000_000, 1_000_001, u64::MAX])
    } else {
        random.between(1, last)
    }
}

/// What the jobs of a table need of a plan, read from its figures.
pub fn needs_of(table: &Figures) -> Vec<Need> {
    let live = table.places.iter().filter(|place| place.live == 1);
    live.map(|place| Need { remaining: place.remaining, deadline: place.deadline }).collect()
}

/// A history on the simulator, with a watch beside it that must stay silent.
pub struct Bench {
    pub table: Figures,
    watch: Watch,
}

impl Bench {
    /// A bench after an accepted set-up.
    pub fn set_up(policy: u64) -> Bench {
        let outcome = set_up(policy);
        assert_eq!((outcome.number, outcome.place), (0, IDLE));
        assert!(is_sound(&outcome.table));
        Bench { table: outcome.table, watch: Watch::new(policy) }
    }

    /// The bench of the notebook: "place 0 has C 3, T 10; place 1 has C 4, T 20; place 2 has
    /// C 1, T 5; all open, clock 0", with a level for each place.
    pub fn of_the_notebook(policy: u64, levels: [u64; 3]) -> Bench {
        let mut bench = Bench::set_up(policy);
        for (place, (cap, gap)) in (0..).zip([(3, 10), (4, 20), (1, 5)]) {
            let level = levels[place as usize];
            assert_eq!(bench.answer(Call::Open { place, level, cap, gap }), 0);
        }
        bench
    }

    /// Makes a call with this record and holds the outcome to what is true of every call.
    pub fn make(&mut self, made: Call, record: &mut [u8]) -> Outcome {
        let before = record.to_vec();
        let outcome = call(&self.table, &made, record);
        assert!(is_sound(&outcome.table), "{made:?} leaves {:?}", outcome.table);

        let piece = match made {
            Call::Advance { n, start } if outcome.number == 0 => start..start + n as usize,
            _ => 0..0,
        };
        assert_eq!(record[..piece.start], before[..piece.start], "{made:?}");
        assert_eq!(record[piece.end..], before[piece.end..], "{made:?}");

        let slots: &[u8] = match made {
            _ if outcome.number != 0 => {
                assert_eq!((outcome.place, outcome.table), (IDLE, self.table), "{made:?}");
                &[]
            }
            Call::Elect | Call::Slot => &[outcome.place as u8],
            _ => {
                assert_eq!(outcome.place, IDLE, "{made:?}");
                &record[piece]
            }
        };
        assert_eq!(self.watch.saw_call(&made, outcome.number, slots), Ok(()));
        assert_eq!(self.watch.check(), Ok(()));
        self.table = outcome.table;
        outcome
    }

    /// Makes a call that needs no record and tells its answer.
    pub fn answer(&mut self, made: Call) -> u64 {
        self.make(made, &mut []).number
    }

    /// The answer to an arrival.
    pub fn arrive(&mut self, place: u64, budget: u64, away: u64) -> u64 {
        self.answer(Call::Arrive { place, budget, away })
    }

    /// Advances by n slots and tells whose they were.
    pub fn slots(&mut self, n: usize) -> Vec<u8> {
        let mut record = vec![77; n];
        let made = Call::Advance { n: n as u64, start: 0 };
        assert_eq!(self.make(made, &mut record).number, 0);
        record
    }

    /// Advances to a tick.
    pub fn advance_to(&mut self, tick: u64) {
        self.slots((tick - self.table.now) as usize);
        assert_eq!(self.table.now, tick);
    }

    /// How the last job of a place ended.
    pub fn ending(&self, place: usize) -> u64 {
        self.table.places[place].ending
    }
}
