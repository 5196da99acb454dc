//! A fuzz run: random and damaged pools, batches and sizes through the four functions of
//! libzimatuno.a.
//!
//! To run, where `bindings/library` builds the library, after it:
//!
//! ```text
//! cargo run --release -- [SEED [COUNT [FIRST]]]
//! ```
//!
//! `ZIMATUNO_LIB_DIR` names another folder for the archive than the one that it writes to. COUNT
//! steps are run, from step FIRST on; a step depends on nothing but SEED and its number, so
//! `SEED 1 STEP` runs a step again. The exit code is 1 after a fault, 2 for a wrong argument.

mod batches;
mod doors;
mod guarded;
mod layout;
mod pools;
mod random;
mod step;
mod sys;
mod tally;
mod watch;

use doors::Doors;
use random::Random;
use std::process::exit;
use tally::Tally;
use watch::Watch;

/// Seed, number of steps and first step where no argument says otherwise.
const DEFAULTS: [u64; 3] = [1, 100_000, 0];
/// After so many steps a line on standard error tells how far the run is.
const PROGRESS: u64 = 5_000;

fn arguments() -> Option<[u64; 3]> {
    let mut numbers = DEFAULTS;
    for (place, given) in std::env::args().skip(1).enumerate() {
        *numbers.get_mut(place)? = given.parse().ok()?;
    }
    Some(numbers)
}

fn main() {
    let [seed, count, first] = arguments().unwrap_or_else(|| {
        eprintln!("usage: zimatuno-fuzz [SEED [COUNT [FIRST]]]");
        exit(2)
    });
    let mut doors = Doors { watch: Watch::new(seed), tally: Tally::default() };
    for step in first..first.saturating_add(count) {
        doors.watch.at_step(step);
        if let Err(fault) = step::run(&mut doors, &mut Random::new(seed, step)) {
            println!("fault: seed {} step {}: {}", seed, step, fault);
            exit(1);
        }
        if (step - first) % PROGRESS == PROGRESS - 1 {
            eprintln!("step {}, {} s", step, doors.watch.seconds());
        }
    }
    println!("seed {}, steps {} from {}", seed, count, first);
    println!("calls: {}, each input twice", doors.watch.calls);
    println!("{}", doors.tally);
    println!("largest time of a call: {} microseconds", doors.watch.largest);
    println!("no fault");
}
