//! The time of the calls: the largest is kept, and a call that takes longer than the limit
//! ends the program, also one that would never return.

use std::sync::atomic::{AtomicU64, Ordering::SeqCst};
use std::thread;
use std::time::{Duration, Instant};

/// The limit of one call in microseconds; an emulated machine is allowed for.
const LIMIT: u64 = 2_000_000;

/// The step that is being run.
static STEP: AtomicU64 = AtomicU64::new(0);
/// When the call under way began, in microseconds of the run plus 1; 0 between calls.
static BEGAN: AtomicU64 = AtomicU64::new(0);

/// The clock of a run, with the largest time of a call so far.
pub struct Watch {
    start: Instant,
    pub largest: u64,
    pub calls: u64,
}

impl Watch {
    /// Starts the clock and the thread that looks after the limit.
    pub fn new(seed: u64) -> Watch {
        let start = Instant::now();
        thread::spawn(move || loop {
            thread::sleep(Duration::from_millis(100));
            let began = BEGAN.load(SeqCst);
            if began != 0 && micros(start) > began + LIMIT {
                let step = STEP.load(SeqCst);
                println!("fault: seed {} step {}: a call takes above 2 seconds", seed, step);
                std::process::exit(1);
            }
        });
        Watch { start, largest: 0, calls: 0 }
    }

    pub fn at_step(&self, step: u64) {
        STEP.store(step, SeqCst);
    }

    /// Makes a call and keeps its time.
    pub fn timed<T>(&mut self, call: impl FnOnce() -> T) -> T {
        let began = micros(self.start);
        BEGAN.store(began + 1, SeqCst);
        let result = call();
        BEGAN.store(0, SeqCst);
        self.largest = self.largest.max(micros(self.start) - began);
        self.calls += 1;
        result
    }

    pub fn seconds(&self) -> u64 {
        self.start.elapsed().as_secs()
    }
}

fn micros(start: Instant) -> u64 {
    start.elapsed().as_micros() as u64
}
