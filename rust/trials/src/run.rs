//! Rounds of trials from a seed.

use crate::chance::Chance;
use crate::engine::Engine;
use crate::history::{near_the_end, scrambled, spoilt, step, History, Start};
use crate::trial::{Tally, Trial};

/// A fault that a round found.
pub struct Found {
    pub history: History,
    pub what: String,
}

/// Steps of chance from a start, until a fault or the last of them; answers the table where they ended.
fn play(engine: &dyn Engine, chance: &mut Chance, start: Start, steps: u64, tally: &mut Tally) -> Result<simulator::Figures, Found> {
    let mut history = History { start, steps: Vec::new() };
    let mut trial = match Trial::begin(engine, &start, tally) {
        Ok(trial) => trial,
        Err(what) => return Err(Found { history, what }),
    };
    let few = chance.of(&[2, 4, 16]);
    for _ in 0..steps {
        let next = step(chance, few, &trial.table);
        history.steps.push(next);
        if let Err(what) = trial.step(&next, tally) {
            return Err(Found { history, what });
        }
    }
    Ok(trial.table)
}

/// One round: a history from a set-up, the same near the end of the clock, and tables that are spoilt or scrambled.
pub fn round(engine: &dyn Engine, chance: &mut Chance, tally: &mut Tally) -> Result<(), Found> {
    let policy = if chance.once_in(20) { chance.of(&[0, 3, 255, u64::MAX]) } else { chance.of(&[1, 2]) };
    let steps = 20 + chance.below(100);
    let table = play(engine, chance, Start::SetUp(policy), steps, tally)?;
    let end = near_the_end(chance, &table);
    play(engine, chance, Start::Table(end), 12, tally)?;
    for _ in 0..4 {
        let table = spoilt(chance, &table);
        play(engine, chance, Start::Table(table), 4, tally)?;
    }
    let table = scrambled(chance);
    play(engine, chance, Start::Table(table), 3, tally)?;
    Ok(())
}
