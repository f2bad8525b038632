//! Random trials of the scheduler against the independent simulator.

mod chance;
#[macro_use]
mod engine;
mod history;
mod run;
mod slips {
    include!(concat!(env!("OUT_DIR"), "/slips.rs"));
}
mod trial;

use chance::Chance;
use engine::{Engine, Product};
use run::{round, Found};
use std::process::exit;
use std::time::{Duration, Instant};
use trial::{fault, shortest, Tally, NAMES};

const HELP: &str = "usage: trials [--seed S] [--calls N] [--seconds N] [--round R] [--slips]

Plays random histories through the proved calls and through the independent simulator, and compares every answer, table and record; from a
set-up on it also counts the demands from what the board sees.

  --seed S      the first seed (1)
  --calls N     go on for at least N calls (1,000,000)
  --seconds N   go on for N seconds in place of a number of calls
  --round R     play round R of the seed alone, to see a fault again
  --slips       try copies in ordinary Rust with a slip planted: each has to be caught
";

struct Wishes {
    seed: u64,
    calls: u64,
    seconds: Option<u64>,
    round: Option<u64>,
    slips: bool,
}

fn wrong(what: &str) -> ! {
    eprint!("trials: {what}\n\n{HELP}");
    exit(2)
}

fn wishes() -> Wishes {
    let mut w = Wishes { seed: 1, calls: 1_000_000, seconds: None, round: None, slips: false };
    let mut words = std::env::args().skip(1);
    while let Some(word) = words.next() {
        if word == "--help" {
            print!("{HELP}");
            exit(0)
        }
        if word == "--slips" {
            w.slips = true;
            continue;
        }
        let number = words.next().and_then(|n| n.parse().ok()).unwrap_or_else(|| wrong(&format!("{word} wants a number")));
        match word.as_str() {
            "--seed" => w.seed = number,
            "--calls" => w.calls = number,
            "--seconds" => w.seconds = Some(number),
            "--round" => w.round = Some(number),
            _ => wrong(&format!("there is no {word}")),
        }
    }
    w
}

fn chance_of(seed: u64, number: u64) -> Chance {
    Chance::new(seed.wrapping_mul(1_000_003).wrapping_add(number))
}

fn report(engine: &dyn Engine, found: &Found, seed: u64, number: u64) {
    let least = shortest(engine, &found.history);
    println!("DIFFERENCE: {}", found.what);
    println!("the shortest history found:");
    println!("  {:?}", least.start);
    for step in &least.steps {
        println!("  {:?}, a record of {} bytes", step.call, step.record);
    }
    if let Some((_, what)) = fault(engine, &least) {
        println!("  there: {what}");
    }
    println!("to see it again: trials --seed {seed} --round {number}");
}

fn show(tally: &Tally) {
    println!("{:<10}{}", "answers", (0..13).map(|k| format!("{k:>9}")).collect::<String>());
    for (name, row) in NAMES.iter().zip(&tally.answers) {
        println!("{name:<10}{}", row.iter().map(|n| if *n == 0 { format!("{:>9}", ".") } else { format!("{n:>9}") }).collect::<String>());
    }
}

/// Each refusal that the paper gives to a call.
const GIVEN: [(usize, &[usize]); 8] = [
    (0, &[0, 12]),
    (1, &[0, 1, 2, 3, 5]),
    (2, &[0, 1, 2, 4, 6, 7]),
    (3, &[0, 1, 2, 4, 5, 6, 7, 8, 9]),
    (4, &[0, 1, 2, 4, 10]),
    (5, &[0, 1]),
    (6, &[0, 1, 8]),
    (7, &[0, 1, 5, 8, 11]),
];

fn product(w: &Wishes) {
    let began = Instant::now();
    let mut tally = Tally::default();
    let mut number = w.round.unwrap_or(0);
    loop {
        if let Err(found) = round(&Product, &mut chance_of(w.seed, number), &mut tally) {
            report(&Product, &found, w.seed, number);
            exit(1)
        }
        let over = match w.seconds {
            Some(seconds) => began.elapsed() >= Duration::from_secs(seconds),
            None => tally.calls >= w.calls,
        };
        if over || w.round.is_some() {
            break;
        }
        number += 1;
    }
    println!("seed {}: {} calls, no difference", w.seed, tally.calls);
    show(&tally);
    if tally.calls >= 1_000_000 {
        for (row, numbers) in GIVEN {
            for &k in numbers {
                if tally.answers[row][k] < 20 {
                    println!("TOO FEW: {} was answered {k} only {} times", NAMES[row], tally.answers[row][k]);
                    exit(1)
                }
            }
        }
    }
}

fn slips(w: &Wishes) {
    let mut missed = false;
    for (name, engine) in slips::slips() {
        let mut tally = Tally::default();
        let caught = (0..).take_while(|_| true).find_map(|number| match round(engine, &mut chance_of(w.seed, number), &mut tally) {
            Err(found) => Some(Some((number, found))),
            Ok(()) if tally.calls >= w.calls => Some(None),
            Ok(()) => None,
        });
        match caught.flatten() {
            Some((_, found)) => {
                let least = shortest(engine, &found.history);
                let (_, what) = fault(engine, &least).expect("the shortest history has a fault");
                let brief: String = what.chars().take(60).collect();
                println!("{name}: caught after {} calls, in {} steps: {brief}", tally.calls, least.steps.len());
            }
            None => {
                missed = true;
                println!("{name}: NOT CAUGHT in {} calls", tally.calls);
            }
        }
    }
    if missed {
        exit(1)
    }
}

fn main() {
    let w = wishes();
    if w.slips {
        slips(&w)
    } else {
        product(&w)
    }
}
