//! Calls per second on random histories, soundness checks and the search for plans included.

#[path = "../tests/common/mod.rs"]
mod common;

use std::time::Instant;

use common::{random_call, Crowd, Random, FEW, MANY};
use simulator::{call, set_up};

const CALLS: u64 = 1_000_000;
const CALLS_IN_A_HISTORY: u64 = 500;

/// Makes a million calls and tells how many there were in a second, and how many of them asked
/// for a plan and found none.
fn measure(name: &str, policy: u64, crowd: Crowd) {
    let mut random = Random::seeded(policy);
    let mut record = [0; 4_110];
    let mut table = set_up(policy).table;
    let mut without_plan = 0u64;
    let begun = Instant::now();
    for made in 0..CALLS {
        if made % CALLS_IN_A_HISTORY == 0 {
            table = set_up(policy).table;
        }
        let outcome = call(&table, &random_call(&mut random, crowd), &mut record);
        without_plan += u64::from(outcome.number == 9);
        table = outcome.table;
    }
    let seconds = begun.elapsed().as_secs_f64();
    let rate = CALLS as f64 / seconds;
    println!("{name}: {CALLS} calls in {seconds:.2} s, {rate:.0} calls/s, {without_plan} without a plan");
}

fn main() {
    measure("earliest deadline, few jobs", 1, FEW);
    measure("earliest deadline, many jobs", 1, MANY);
    measure("fixed priority, few jobs", 2, FEW);
    measure("fixed priority, many jobs", 2, MANY);
}
