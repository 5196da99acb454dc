//! Pools: their sizes, handles, and the doors create, check and name.

use crate::refusal::DoorError;
use crate::sys;
use std::fmt;

/// The most slots that a pool may have.
pub const MAX_SLOTS: u16 = 1_024;
/// The most trees that a pool may have.
pub const MAX_TREES: u16 = 8;
/// The most bytes of text that a pool may have.
pub const MAX_TEXT: u32 = 8_192;

/// The way to a record: its slot, which counts from 1, and its stamp.
///
/// A stamp is given once in the life of a pool, so a handle reaches the record
/// that it was given for or none: neither removal, nor rollback, nor reset lets it
/// reach another one. That holds while only the doors write the pool, and until
/// [`create`] makes it anew.
///
/// ```
/// use zimatuno::Handle;
///
/// let handle = Handle { slot: 2, stamp: 4 };
/// assert_eq!(handle.to_string(), "(2,4)");
/// ```
#[derive(Clone, Copy, Debug, Default, PartialEq, Eq, PartialOrd, Ord, Hash)]
pub struct Handle {
    /// The record's slot, 1 to the pool's number of slots.
    pub slot: u16,
    /// The record's stamp, at least 1.
    pub stamp: u32,
}

impl fmt::Display for Handle {
    fn fmt(&self, f: &mut fmt::Formatter<'_>) -> fmt::Result {
        write!(f, "({},{})", self.slot, self.stamp)
    }
}

/// The length of a pool's buffer: `32 + 8 * trees + 32 * slots + text` bytes.
///
/// It can be computed while compiling.
///
/// ```
/// use zimatuno::{pool_size, DoorError};
///
/// assert_eq!(pool_size(4, 1, 16), Ok(184));
/// assert_eq!(pool_size(1_024, 8, 8_192), Ok(41_056));
/// assert_eq!(pool_size(1_025, 8, 8_192), Err(DoorError::BadSize));
///
/// const SIZE: usize = match pool_size(4, 1, 16) {
///     Ok(size) => size,
///     Err(_) => panic!(),
/// };
/// let buffer = [0; SIZE];
/// # assert_eq!(buffer.len(), 184);
/// ```
///
/// # Errors
///
/// [`DoorError::BadSize`] if `slots` is not 1 to [`MAX_SLOTS`], `trees` not 1 to
/// [`MAX_TREES`] or `text` above [`MAX_TEXT`].
pub const fn pool_size(slots: u16, trees: u16, text: u32) -> Result<usize, DoorError> {
    let good = 1 <= slots && slots <= MAX_SLOTS && 1 <= trees && trees <= MAX_TREES;
    if good && text <= MAX_TEXT {
        Ok(32 + 8 * trees as usize + 32 * slots as usize + text as usize)
    } else {
        Err(DoorError::BadSize)
    }
}

/// The door create: writes a fresh pool, without records and with next stamp 1,
/// over the whole buffer.
///
/// ```
/// use zimatuno::{check, create, DoorError};
///
/// let mut buffer = [7; 184];
/// assert_eq!(create(4, 1, 17, &mut buffer), Err(DoorError::BadSize));
/// assert_eq!(buffer, [7; 184]);
/// assert_eq!(create(4, 1, 16, &mut buffer), Ok(()));
/// assert_eq!(check(&buffer), Ok(()));
/// ```
///
/// # Errors
///
/// [`DoorError::BadSize`] if the buffer's length is not [`pool_size`] of these
/// sizes; the buffer is then as it was.
pub fn create(slots: u16, trees: u16, text: u32, buffer: &mut [u8]) -> Result<(), DoorError> {
    DoorError::result(sys::create(slots, trees, text, buffer))
}

/// The door check: whether these bytes are a sound pool.
///
/// ```
/// use zimatuno::{check, create, DoorError};
///
/// let mut pool = [0; 184];
/// assert_eq!(check(&pool), Err(DoorError::Damaged));
/// create(4, 1, 16, &mut pool)?;
/// assert_eq!(check(&pool), Ok(()));
/// # Ok::<(), DoorError>(())
/// ```
///
/// # Errors
///
/// [`DoorError::Damaged`] if they are not.
pub fn check(pool: &[u8]) -> Result<(), DoorError> {
    DoorError::result(sys::check(pool))
}

/// The door name: the name of the record that the handle reaches in that tree, as a
/// part of the pool's own bytes.
///
/// `None` if the pool is not sound, or if [`Batch::remove`](crate::Batch::remove)
/// would be refused for that tree and handle. The pool is checked in each call; to
/// read many names of one pool, [`SoundPool`](crate::SoundPool) checks it once.
///
/// ```
/// use zimatuno::{create, name, Batch, Handle};
///
/// let mut pool = [0; 184];
/// create(4, 1, 16, &mut pool)?;
/// Batch::new().add(1, 10, b"id").run(&mut pool)?;
/// assert_eq!(name(&pool, 1, Handle { slot: 1, stamp: 1 }), Some(&b"id"[..]));
/// assert_eq!(name(&pool, 1, Handle { slot: 1, stamp: 2 }), None);
/// # Ok::<(), zimatuno::DoorError>(())
/// ```
pub fn name(pool: &[u8], tree: u8, handle: Handle) -> Option<&[u8]> {
    match sys::name(pool, tree, handle.slot, handle.stamp) {
        (_, 0) => None,
        (start, length) => Some(&pool[start..start + length]),
    }
}

#[cfg(test)]
mod tests {
    use super::*;

    #[test]
    fn sizes_at_their_limits() {
        assert_eq!(pool_size(1, 1, 0), Ok(72));
        assert_eq!(pool_size(5, 3, 16), Ok(32 + 24 + 160 + 16));
        assert_eq!(pool_size(1_024, 8, 8_192), Ok(41_056));
        for (slots, trees, text) in [
            (0, 1, 0),
            (1_025, 1, 0),
            (1, 0, 0),
            (1, 9, 0),
            (1, 1, 8_193),
            (u16::MAX, u16::MAX, u32::MAX),
        ] {
            assert_eq!(pool_size(slots, trees, text), Err(DoorError::BadSize));
        }
    }
}
