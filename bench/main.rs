//! Measures the library beside the original Rust tree and std's BTreeMap: see bench/run.
//!
//!   bench                     the three tables
//!   bench ROW SIDE ROUNDS     one row of the first table for one side, for a profiler
//!
//! The rows' names are in keys.rs. A side is original, btree, ours (the batches with their checks)
//! or check (the checks alone). Callgrind, with --collect-atstart=no, counts the instructions of
//! what the clock measures and of nothing else.

mod batches;
mod btree;
mod callgrind;
mod clock;
mod keys;
#[cfg(original)]
mod original;
mod ours;
/// The calls of the library, as the binding for Rust has them.
#[allow(dead_code)]
#[path = "../bindings/rust/src/sys.rs"]
mod sys;
mod tables;

use clock::Times;
use keys::{Keys, Random, Row, ROWS};

/// The records of the pools in the first two tables, which are the most that a pool can have.
pub const RECORDS: usize = 1024;

/// A round of the original, if it was compiled in.
#[cfg(original)]
pub fn original_round(row: Row, keys: &Keys) -> Option<f64> {
    Some(original::round(row, keys))
}

#[cfg(not(original))]
pub fn original_round(_: Row, _: &Keys) -> Option<f64> {
    None
}

fn one(name: &str, side: &str, rounds: usize) {
    let (row, _, _) = ROWS.into_iter().find(|row| row.1 == name).expect("the name of a row");
    let mut random = Random(1);
    let mut door = ours::Door::new(RECORDS);
    let mut times = Times::default();
    for _ in 0..rounds {
        let keys = Keys::new(&mut random, RECORDS);
        times.push(match side {
            "original" => original_round(row, &keys).expect("the original's folder"),
            "btree" => btree::round(row, &keys),
            "ours" => door.batches(&ours::start(row, &keys), &batches::of_row(row, &keys)),
            "check" => door.checks(&ours::start(row, &keys), &batches::of_row(row, &keys)),
            _ => panic!("no such side: {side}"),
        });
    }
    let median = times.median() / RECORDS as f64;
    println!("{name} {side}: {rounds} rounds of {RECORDS} records, {median:.1} ns a record");
}

fn main() {
    let args: Vec<String> = std::env::args().skip(1).collect();
    match &args[..] {
        [] => {
            println!("# Measured on {} {}\n", std::env::consts::ARCH, std::env::consts::OS);
            tables::commands();
            tables::check_against_sum();
            tables::sizes();
        }
        [row, side, rounds] => one(row, side, rounds.parse().expect("a number of rounds")),
        _ => panic!("either nothing or ROW SIDE ROUNDS"),
    }
}
