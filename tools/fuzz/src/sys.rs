//! The four functions of `libzimatuno.a` (include/zimatuno.h), each called on guarded buffers.
//! All the unsafe code of this program is in this file: each pointer goes with the length of
//! the buffer's content, and the buffers of one call are separate allocations.

use crate::guarded::Guarded;

extern "C" {
    fn zt_create(n: u16, t: u16, x: u32, buffer: *mut u8, length: usize) -> u8;
    fn zt_check(pool: *const u8, length: usize) -> u8;
    fn zt_batch(
        pool: *mut u8,
        length: usize,
        batch: *const u8,
        batch_length: usize,
        answers: *mut u8,
        answers_length: usize,
    ) -> u32;
    fn zt_name(pool: *const u8, length: usize, tree: u8, slot: u16, stamp: u32) -> u64;
}

pub fn create(n: u16, t: u16, x: u32, buffer: &mut Guarded) -> u8 {
    // SAFETY: as said above.
    unsafe { zt_create(n, t, x, buffer.pointer(), buffer.len()) }
}

pub fn check(pool: &mut Guarded) -> u8 {
    // SAFETY: as said above.
    unsafe { zt_check(pool.pointer(), pool.len()) }
}

pub fn batch(pool: &mut Guarded, batch: &mut Guarded, answers: &mut Guarded) -> u32 {
    // SAFETY: as said above.
    unsafe {
        zt_batch(
            pool.pointer(),
            pool.len(),
            batch.pointer(),
            batch.len(),
            answers.pointer(),
            answers.len(),
        )
    }
}

pub fn name(pool: &mut Guarded, tree: u8, slot: u16, stamp: u32) -> u64 {
    // SAFETY: as said above.
    unsafe { zt_name(pool.pointer(), pool.len(), tree, slot, stamp) }
}
