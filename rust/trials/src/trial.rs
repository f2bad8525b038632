//! One history through an engine and the simulator, side by side: after each call answer, whole table and whole record are compared, and
//! from a set-up on the demands are counted from what the board sees.

use crate::engine::{Engine, Said};
use crate::history::{History, Start, Step};
use simulator::watch::Watch;
use simulator::{Call, Figures};

/// How often each call was answered with each number.
#[derive(Clone, Default)]
pub struct Tally {
    pub calls: u64,
    pub answers: [[u64; 13]; 8],
}

pub const NAMES: [&str; 8] = ["set up", "open", "close", "arrive", "depart", "election", "slot", "advance"];

fn row(call: &Call) -> usize {
    match call {
        Call::Open { .. } => 1,
        Call::Close { .. } => 2,
        Call::Arrive { .. } => 3,
        Call::Depart { .. } => 4,
        Call::Elect => 5,
        Call::Slot => 6,
        Call::Advance { .. } => 7,
    }
}

impl Tally {
    fn count(&mut self, row: usize, number: u64) {
        self.calls += 1;
        if let Some(n) = self.answers[row].get_mut(number as usize) {
            *n += 1;
        }
    }
}

/// A trial on its way: the table as both sides have it, and the books.
pub struct Trial<'a> {
    engine: &'a dyn Engine,
    pub table: Figures,
    watch: Option<Watch>,
}

/// The bytes of a record before a call.
fn blank(length: usize) -> Vec<u8> {
    (0..length).map(|i| (i % 97 + 100) as u8).collect()
}

fn named<'a>(call: &Call, said: &Said, record: &'a [u8], one: &'a mut [u8; 1]) -> &'a [u8] {
    match *call {
        _ if said.number != 0 => &[],
        Call::Slot => {
            one[0] = said.place as u8;
            &one[..]
        }
        Call::Advance { n, start } => &record[start..start + n as usize],
        _ => &[],
    }
}

impl<'a> Trial<'a> {
    pub fn begin(engine: &'a dyn Engine, start: &Start, tally: &mut Tally) -> Result<Trial<'a>, String> {
        match *start {
            Start::Table(table) => {
                if engine.is_sound(&table) != simulator::is_sound(&table) {
                    return Err(format!("the soundness test answers {}, the simulator the other", engine.is_sound(&table)));
                }
                Ok(Trial { engine, table, watch: None })
            }
            Start::SetUp(policy) => {
                let (said, wanted) = (engine.set_up(policy), simulator::set_up(policy));
                tally.count(0, said.number);
                if (said.number, said.table) != (wanted.number, wanted.table) {
                    return Err(format!("set up answers {}, the simulator {}", said.number, wanted.number));
                }
                Ok(Trial { engine, table: said.table, watch: (said.number == 0).then(|| Watch::new(policy)) })
            }
        }
    }

    pub fn step(&mut self, step: &Step, tally: &mut Tally) -> Result<(), String> {
        let mut record = blank(step.record);
        let mut wanted_record = record.clone();
        let said = self.engine.call(&self.table, &step.call, &mut record);
        let wanted = simulator::call(&self.table, &step.call, &mut wanted_record);
        tally.count(row(&step.call), said.number);
        if said.number != wanted.number {
            return Err(format!("answers {}, the simulator {}", said.number, wanted.number));
        }
        if said.place != wanted.place {
            return Err(format!("names place {}, the simulator {}", said.place, wanted.place));
        }
        if record != wanted_record {
            return Err(format!("the record holds {record:?}, the simulator's {wanted_record:?}"));
        }
        if said.table != wanted.table {
            return Err(format!("hands back {:?}, the simulator {:?}", said.table, wanted.table));
        }
        if said.number != 0 && said.table != self.table {
            return Err("a refused call changed the table".to_string());
        }
        if let Some(watch) = &mut self.watch {
            let mut one = [0];
            watch.saw_call(&step.call, said.number, named(&step.call, &said, &record, &mut one))?;
            watch.check()?;
        }
        self.table = said.table;
        Ok(())
    }
}

/// The fault of a history, if it has one, and the step where it shows.
pub fn fault(engine: &dyn Engine, history: &History) -> Option<(usize, String)> {
    let mut tally = Tally::default();
    let mut trial = match Trial::begin(engine, &history.start, &mut tally) {
        Ok(trial) => trial,
        Err(what) => return Some((0, what)),
    };
    for (i, step) in history.steps.iter().enumerate() {
        if let Err(what) = trial.step(step, &mut tally) {
            return Some((i + 1, what));
        }
    }
    None
}

/// A shortest history with a fault that can be had by leaving steps out.
pub fn shortest(engine: &dyn Engine, history: &History) -> History {
    let mut best = history.clone();
    if let Some((steps, _)) = fault(engine, &best) {
        best.steps.truncate(steps);
    }
    let mut piece = best.steps.len().max(1) / 2;
    while piece > 0 {
        let mut from = 0;
        while from < best.steps.len() {
            let mut less = best.clone();
            less.steps.drain(from..(from + piece).min(best.steps.len()));
            if fault(engine, &less).is_some() {
                best = less;
            } else {
                from += piece;
            }
        }
        piece /= 2;
    }
    best
}
