//! The library's side: pools, and the time of batches and of the checks in them.
//!
//! A batch checks the pool before its first command, and there is no door without the check. So the
//! check is measured apart, to be subtracted, in two passes over the same batches, each on a fresh
//! copy of the same pool in the same buffer:
//! - the first pass times each zt_batch;
//! - the second times a zt_check directly before each batch, on the very state that the batch will
//!   check, and then runs the batch outside the clock, to verify its answers and to reach the next
//!   state.
//!
//! Both passes read the clock once a batch, so what that costs falls away in the difference. The
//! check of the second pass meets each state for the second time; what it gains by that is counted
//! as time of the commands, not of the check.

use crate::batches::{self, Batch, ANSWER_SIZE, DONE, MAX_COMMANDS};
use crate::clock::timed;
use crate::keys::{Keys, Row};
use crate::sys;
use std::hint::black_box;

/// A pool of one tree, with 8 bytes of text for each slot and no records.
pub fn empty(slots: usize) -> Vec<u8> {
    let mut pool = vec![0; 32 + 8 + 32 * slots + 8 * slots];
    assert_eq!(sys::create(slots as u16, 1, 8 * slots as u32, &mut pool), DONE);
    pool
}

/// A pool with as many slots as keys, which are added in this order; its text is used up.
pub fn full(keys: &[u64]) -> Vec<u8> {
    let mut pool = empty(keys.len());
    let mut answers = [0; ANSWER_SIZE * MAX_COMMANDS];
    for batch in batches::adds(keys) {
        run(&mut pool, &batch, &mut answers);
        verify(&batch, &answers);
    }
    pool
}

fn run(pool: &mut [u8], batch: &Batch, answers: &mut [u8]) {
    let outcome = sys::batch(black_box(pool), black_box(&batch.bytes), black_box(answers));
    assert_eq!(outcome, (DONE, batch.expected.len() as u16));
}

fn verify(batch: &Batch, answers: &[u8]) {
    for (answer, &(code, key)) in answers.chunks(ANSWER_SIZE).zip(&batch.expected) {
        let shown = u64::from_le_bytes(answer[8..16].try_into().expect("8 bytes"));
        assert_eq!((answer[0], shown), (code, key));
    }
}

/// The pool and the answers that all rounds use again and again.
pub struct Door {
    pool: Vec<u8>,
    answers: Vec<u8>,
}

impl Door {
    pub fn new(slots: usize) -> Door {
        Door { pool: empty(slots), answers: vec![0; ANSWER_SIZE * MAX_COMMANDS] }
    }

    /// The first pass: the nanoseconds in these batches, with their checks, on a pool that is like
    /// `start` at first.
    pub fn batches(&mut self, start: &[u8], batches: &[Batch]) -> f64 {
        let (pool, answers) = (&mut self.pool[..], &mut self.answers[..]);
        pool.copy_from_slice(start);
        batches.iter().map(|batch| timed(|| run(pool, batch, answers)).0).sum()
    }

    /// The second pass: the nanoseconds in the checks alone.
    pub fn checks(&mut self, start: &[u8], batches: &[Batch]) -> f64 {
        let (pool, answers) = (&mut self.pool[..], &mut self.answers[..]);
        pool.copy_from_slice(start);
        let mut sum = 0.0;
        for batch in batches {
            let (time, code) = timed(|| sys::check(black_box(pool)));
            assert_eq!(code, DONE);
            sum += time;
            run(pool, batch, answers);
            verify(batch, answers);
        }
        sum
    }
}

/// The pool with which a round of this row begins.
pub fn start(row: Row, keys: &Keys) -> Vec<u8> {
    match row {
        Row::Random | Row::Ascending | Row::Append => empty(keys.added.len()),
        _ => full(&keys.added),
    }
}
