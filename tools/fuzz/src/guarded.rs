//! A buffer to be lent, between two guard regions of a known pattern.

use crate::random::Random;

/// The fewest bytes of a guard region.
const GUARD: usize = 64;

/// The bytes of the content stand at `start`; all others are guards.
pub struct Guarded {
    bytes: Vec<u8>,
    start: usize,
    length: usize,
    pattern: u8,
}

impl Guarded {
    /// A copy of the content at any of 16 alignments. The pattern changes from buffer to
    /// buffer, so that a result that depends on a guard differs from run to run.
    pub fn new(content: &[u8], random: &mut Random) -> Guarded {
        let pattern = random.byte();
        let start = GUARD + random.below(16);
        let total = start + content.len() + GUARD;
        let mut bytes: Vec<u8> = (0..total).map(|place| guard(place, pattern)).collect();
        bytes[start..start + content.len()].copy_from_slice(content);
        Guarded { bytes, start, length: content.len(), pattern }
    }

    /// The place of the content; never null.
    pub fn pointer(&mut self) -> *mut u8 {
        self.bytes[self.start..].as_mut_ptr()
    }

    pub fn len(&self) -> usize {
        self.length
    }

    pub fn content(&self) -> &[u8] {
        &self.bytes[self.start..self.start + self.length]
    }

    /// Whether both guard regions are as they were.
    pub fn intact(&self, what: &str) -> Result<(), String> {
        let end = self.start + self.length;
        let guards = (0..self.start).chain(end..self.bytes.len());
        for place in guards {
            if self.bytes[place] != guard(place, self.pattern) {
                let offset = place as i64 - self.start as i64;
                return Err(format!("{}: a guard byte at offset {} changed", what, offset));
            }
        }
        Ok(())
    }
}

fn guard(place: usize, pattern: u8) -> u8 {
    (place as u8).wrapping_mul(31) ^ pattern
}
