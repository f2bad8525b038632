//! Each call of the proved scheduler against ordinary Rust that makes the same checks by the same algorithm, on the same inputs.
//!
//! `bench` checks that both sides give the same results, and prints times: both sides alternated, the least of several rounds.
//! `bench list` names the cases and how many calls a run of each makes; `bench NAME product` and `bench NAME ordinary` run one side of one
//! case, all of it in the function `measured`, for a tool that counts its instructions.

use std::hint::black_box;
use std::time::{Duration, Instant as Moment};
use trinvoksha::{Span, Table};

/// How many calls a run of a case makes; of an advance, which is 4,096 slots long, how many.
const RUNS: usize = 200;
const ADVANCES: usize = 2;
const ROUNDS: usize = 25;

/// A box with sixteen open reserves and so many live jobs.
fn busy(policy: u64, jobs: u64) -> Table {
    let (_, mut t) = ordinary::set_up(policy);
    for p in 0..16 {
        assert_eq!(ordinary::open(&mut t, p, p % 8, Span(1_000), Span(100_000)), 0);
    }
    for p in 0..jobs {
        assert_eq!(ordinary::arrive(&mut t, p, Span(300), Span(50_000 - 1_000 * p)), 0);
    }
    t
}

/// A case: its name, the table it starts from, and both sides of the call; each answers what it comes to.
struct Case {
    name: &'static str,
    runs: usize,
    start: Table,
    product: fn(&Table),
    ordinary: fn(&Table),
    same: fn(&Table) -> bool,
}

macro_rules! case {
    ($name:ident, $start:expr, $runs:expr, |$p:ident| $product:expr, |$o:ident| $ordinary:expr) => {{
        mod sides {
            use super::*;
            #[allow(unused_mut)]
            pub mod $name {
                use super::*;
                #[inline(never)]
                pub fn product(start: &Table) {
                    for _ in 0..$runs {
                        let $p = *black_box(start);
                        black_box($product);
                    }
                }
                #[inline(never)]
                pub fn ordinary(start: &Table) {
                    for _ in 0..$runs {
                        let mut $o = *black_box(start);
                        black_box($ordinary);
                        black_box(&$o);
                    }
                }
                pub fn same(start: &Table) -> bool {
                    let $p = *start;
                    let left = $product;
                    let mut $o = *start;
                    let right = $ordinary;
                    left == (right, $o)
                }
            }
        }
        Case {
            name: stringify!($name),
            runs: $runs,
            start: $start,
            product: sides::$name::product,
            ordinary: sides::$name::ordinary,
            same: sides::$name::same,
        }
    }};
}

/// What a call with no place in its answer comes to.
fn told(a: trinvoksha::Answer) -> (u64, Table) {
    (a.number, a.table)
}

/// n slots into a record, and a sum over the record that stands for it.
fn product_advance(t: Table, n: u64) -> ((u64, u64), Table) {
    let mut record = [0u8; 4096];
    let a = t.advance(Span(n), &mut record, 0);
    ((a.number, digest(&record)), a.table)
}

fn ordinary_advance(t: &mut Table, n: u64) -> (u64, u64) {
    let mut record = [0u8; 4096];
    let number = ordinary::advance(t, Span(n), &mut record, 0);
    (number, digest(&record))
}

fn digest(record: &[u8]) -> u64 {
    black_box(record);
    record.iter().enumerate().fold(0, |sum, (i, b)| sum + (i as u64 + 1) * u64::from(*b))
}

fn cases() -> Vec<Case> {
    vec![
        case!(arrive_1st_by_deadline, busy(1, 0), RUNS, |t| told(t.arrive(15, Span(10), Span(900))), |t| ordinary::arrive(
            &mut t,
            15,
            Span(10),
            Span(900)
        )),
        case!(arrive_8th_by_deadline, busy(1, 7), RUNS, |t| told(t.arrive(15, Span(10), Span(900))), |t| ordinary::arrive(
            &mut t,
            15,
            Span(10),
            Span(900)
        )),
        case!(arrive_16th_by_deadline, busy(1, 15), RUNS, |t| told(t.arrive(15, Span(10), Span(900))), |t| ordinary::arrive(
            &mut t,
            15,
            Span(10),
            Span(900)
        )),
        case!(arrive_1st_by_priority, busy(2, 0), RUNS, |t| told(t.arrive(15, Span(10), Span(900))), |t| ordinary::arrive(
            &mut t,
            15,
            Span(10),
            Span(900)
        )),
        case!(arrive_8th_by_priority, busy(2, 7), RUNS, |t| told(t.arrive(15, Span(10), Span(900))), |t| ordinary::arrive(
            &mut t,
            15,
            Span(10),
            Span(900)
        )),
        case!(arrive_16th_by_priority, busy(2, 15), RUNS, |t| told(t.arrive(15, Span(10), Span(900))), |t| ordinary::arrive(
            &mut t,
            15,
            Span(10),
            Span(900)
        )),
        case!(
            open_by_deadline,
            {
                let mut t = busy(1, 8);
                assert_eq!(ordinary::close(&mut t, 15), 0);
                t
            },
            RUNS,
            |t| told(t.open(15, 3, Span(5), Span(50))),
            |t| ordinary::open(&mut t, 15, 3, Span(5), Span(50))
        ),
        case!(close_by_deadline, busy(1, 8), RUNS, |t| told(t.close(15)), |t| ordinary::close(&mut t, 15)),
        case!(depart_by_deadline, busy(1, 16), RUNS, |t| told(t.depart(3)), |t| ordinary::depart(&mut t, 3)),
        case!(depart_by_priority, busy(2, 16), RUNS, |t| told(t.depart(3)), |t| ordinary::depart(&mut t, 3)),
        case!(
            election_by_deadline,
            busy(1, 16),
            RUNS,
            |t| {
                let c = t.election();
                ((c.number, c.place), t)
            },
            |t| ordinary::election(&t)
        ),
        case!(
            slot_by_deadline,
            busy(1, 16),
            RUNS,
            |t| {
                let s = t.slot();
                ((s.number, s.place), s.table)
            },
            |t| ordinary::slot(&mut t)
        ),
        case!(
            slot_by_priority,
            busy(2, 16),
            RUNS,
            |t| {
                let s = t.slot();
                ((s.number, s.place), s.table)
            },
            |t| ordinary::slot(&mut t)
        ),
        case!(advance_4096_by_deadline, busy(1, 16), ADVANCES, |t| product_advance(t, 4_096), |t| ordinary_advance(&mut t, 4_096)),
        case!(advance_4096_by_priority, busy(2, 16), ADVANCES, |t| product_advance(t, 4_096), |t| ordinary_advance(&mut t, 4_096)),
        case!(advance_4096_idle, busy(1, 0), ADVANCES, |t| product_advance(t, 4_096), |t| ordinary_advance(&mut t, 4_096)),
        case!(sound_by_deadline, busy(1, 16), RUNS, |t| (t.is_sound(), t), |t| ordinary::is_sound(&t)),
        case!(sound_by_priority, busy(2, 16), RUNS, |t| (t.is_sound(), t), |t| ordinary::is_sound(&t)),
    ]
}

/// One side of one case, and nothing else.
#[inline(never)]
#[no_mangle]
fn measured(side: fn(&Table), start: &Table) {
    side(start)
}

fn timed(side: fn(&Table), start: &Table) -> Duration {
    let began = Moment::now();
    measured(side, start);
    began.elapsed()
}

fn times(cases: &[Case]) {
    println!("{:<26}{:>12}{:>12}{:>8}", "nanoseconds", "product", "ordinary", "ratio");
    for c in cases {
        assert!((c.same)(&c.start), "{}: the two sides differ", c.name);
        let (mut product, mut plain) = (Duration::MAX, Duration::MAX);
        for _ in 0..ROUNDS {
            product = product.min(timed(c.product, &c.start));
            plain = plain.min(timed(c.ordinary, &c.start));
        }
        let runs = c.runs as u128;
        println!(
            "{:<26}{:>12}{:>12}{:>8.2}",
            c.name,
            product.as_nanos() / runs,
            plain.as_nanos() / runs,
            product.as_secs_f64() / plain.as_secs_f64()
        );
    }
}

fn main() {
    let cases = cases();
    let words: Vec<String> = std::env::args().skip(1).collect();
    match words.iter().map(String::as_str).collect::<Vec<_>>()[..] {
        [] => times(&cases),
        ["list"] => cases.iter().for_each(|c| println!("{} {}", c.name, c.runs)),
        [name, side @ ("product" | "ordinary")] if cases.iter().any(|c| c.name == name) => {
            let c = cases.iter().find(|c| c.name == name).expect("a case of that name");
            measured(if side == "product" { c.product } else { c.ordinary }, &c.start)
        }
        _ => {
            eprintln!("usage: bench [list | NAME product | NAME ordinary]");
            std::process::exit(2)
        }
    }
}
