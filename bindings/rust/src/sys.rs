//! The four functions of `libzimatuno.a` (include/zimatuno.h), and a safe call of each. All
//! the unsafe code of this crate is in this file.
//!
//! What makes the calls safe is the same for all four:
//!
//! - Each pointer goes with the length of the slice that it comes from, so the library is
//!   lent exactly the bytes that the slice covers, all of them initialised and none at a
//!   null pointer. It reads and writes only those, whatever they hold.
//! - The buffers of one call do not overlap: nothing else that is in use shares a byte with
//!   a `&mut [u8]`, so the compiler has already refused a caller who would lend one byte
//!   twice. For the same reason no other thread writes to a buffer during the call.
//! - The library keeps no pointer after it returns, has no memory of its own and does not
//!   unwind. What it writes are bytes, for which every value is allowed. A call takes at
//!   most 24 KiB of stack.

extern "C" {
    fn zt_create(n: u16, t: u16, x: u32, buffer: *mut u8, length: usize) -> u8;
    fn zt_check(pool: *const u8, length: usize) -> u8;
    fn zt_batch(
        pool: *mut u8,
        length: usize,
        batch: *const u8,
        batch_length: usize,
        answers: *mut u8,
        answers_length: usize,
    ) -> u32;
    fn zt_name(pool: *const u8, length: usize, tree: u8, slot: u16, stamp: u32) -> u64;
}

/// The number that create returns.
pub fn create(n: u16, t: u16, x: u32, buffer: &mut [u8]) -> u8 {
    // SAFETY: pointer and length are those of one slice, borrowed for writing during the call.
    unsafe { zt_create(n, t, x, buffer.as_mut_ptr(), buffer.len()) }
}

/// The number that check returns.
pub fn check(pool: &[u8]) -> u8 {
    // SAFETY: pointer and length are those of one slice; the library only reads it.
    unsafe { zt_check(pool.as_ptr(), pool.len()) }
}

/// The code and the number of commands answered.
pub fn batch(pool: &mut [u8], batch: &[u8], answers: &mut [u8]) -> (u8, u16) {
    // SAFETY: each pointer and length are those of one slice; pool and answers are borrowed for
    // writing during the call, so neither overlaps the other or the batch, which is only read.
    let outcome = unsafe {
        zt_batch(
            pool.as_mut_ptr(),
            pool.len(),
            batch.as_ptr(),
            batch.len(),
            answers.as_mut_ptr(),
            answers.len(),
        )
    };
    (outcome as u8, (outcome >> 8) as u16)
}

/// The place and the length of a name within the pool; a length of 0 if the door refuses.
pub fn name(pool: &[u8], tree: u8, slot: u16, stamp: u32) -> (usize, usize) {
    // SAFETY: pointer and length are those of one slice; the library only reads it.
    let part = unsafe { zt_name(pool.as_ptr(), pool.len(), tree, slot, stamp) };
    (part as u32 as usize, (part >> 32) as usize)
}
