//! Batches: the bytes of a list of commands, and the door batch.

use crate::answer::Answer;
use crate::pool::Handle;
use crate::refusal::DoorError;
use crate::sys;

/// The most commands that a batch may have.
pub const MAX_COMMANDS: usize = 256;
/// The most bytes of names that a batch may have.
pub const MAX_NAMES: usize = 16_384;
/// The bytes of an answer.
pub const ANSWER_SIZE: usize = 24;

/// The bytes of a batch's header, and of a command.
const HEADER_SIZE: usize = 16;
const COMMAND_SIZE: usize = 24;
/// The longest name that a record may have.
const LONGEST_NAME: usize = 255;

/// A list of commands. Each method adds one command, to be carried out in the order
/// in which they were added; [`run`](Batch::run) carries them out.
///
/// A method never fails. What is wrong with a command is in its [`Answer`], and a
/// batch that is too large is refused as a whole.
///
/// ```
/// use zimatuno::{create, Batch, CursorKind, Refusal};
///
/// let mut pool = [0; 184];
/// create(4, 1, 16, &mut pool)?;
/// let mut batch = Batch::new();
/// batch.add(1, 5, b"a").last_entry(1).append(5, b"b");
/// let answers = batch.run(&mut pool)?;
///
/// assert_eq!(answers[0].shown().map(|record| record.key), Some(5));
/// assert_eq!(answers[1].cursor, CursorKind::Last);
/// // 5 is not above the last key, and the cursor is lost.
/// assert_eq!(answers[2].refusal(), Some(Refusal::Order));
/// assert_eq!(answers[2].cursor, CursorKind::None);
/// # Ok::<(), zimatuno::DoorError>(())
/// ```
#[derive(Clone, Debug, Default, PartialEq, Eq)]
pub struct Batch {
    commands: Vec<u8>,
    names: Vec<u8>,
}

impl Batch {
    /// A batch without commands.
    pub fn new() -> Batch {
        Batch::default()
    }

    /// The number of commands.
    ///
    /// ```
    /// use zimatuno::Batch;
    ///
    /// assert_eq!(Batch::new().mark().add(1, 7, b"id").commit().len(), 3);
    /// ```
    pub fn len(&self) -> usize {
        self.commands.len() / COMMAND_SIZE
    }

    /// Whether there are no commands.
    pub fn is_empty(&self) -> bool {
        self.commands.is_empty()
    }

    /// The number of bytes of names.
    ///
    /// ```
    /// use zimatuno::Batch;
    ///
    /// assert_eq!(Batch::new().add(1, 7, b"id").add(1, 8, b"price").names_len(), 7);
    /// ```
    pub fn names_len(&self) -> usize {
        self.names.len()
    }

    /// The batch's bytes: header, commands, names.
    ///
    /// ```
    /// use zimatuno::Batch;
    ///
    /// let bytes = Batch::new().add(1, 7, b"id").to_bytes();
    /// assert_eq!(bytes.len(), 16 + 24 + 2);
    /// assert_eq!(bytes[..4], [1, 0, 1, 0]); // edition 1, 1 command
    /// ```
    pub fn to_bytes(&self) -> Vec<u8> {
        // A number that does not fit is written as the largest one, which is above the limits.
        let count = u16::try_from(self.len()).unwrap_or(u16::MAX);
        let names_at = u32::try_from(HEADER_SIZE + self.commands.len()).unwrap_or(u32::MAX);
        let names_len = u32::try_from(self.names.len()).unwrap_or(u32::MAX);
        let mut bytes = Vec::with_capacity(HEADER_SIZE + self.commands.len() + self.names.len());
        bytes.extend_from_slice(&1u16.to_le_bytes());
        bytes.extend_from_slice(&count.to_le_bytes());
        bytes.extend_from_slice(&(HEADER_SIZE as u32).to_le_bytes());
        bytes.extend_from_slice(&names_at.to_le_bytes());
        bytes.extend_from_slice(&names_len.to_le_bytes());
        bytes.extend_from_slice(&self.commands);
        bytes.extend_from_slice(&self.names);
        bytes
    }

    /// Carries out the commands on a pool and gives one answer for each.
    ///
    /// A mark that is open at the end is rolled back; answers stay as they were given.
    ///
    /// # Errors
    ///
    /// The pool is then as it was.
    ///
    /// - [`DoorError::BadBatch`] if there are more than [`MAX_COMMANDS`] commands or
    ///   [`MAX_NAMES`] bytes of names.
    /// - [`DoorError::Damaged`] if the pool is not sound, also without commands.
    pub fn run(&self, pool: &mut [u8]) -> Result<Vec<Answer>, DoorError> {
        let mut room = vec![0; ANSWER_SIZE * self.len()];
        run_batch(pool, &self.to_bytes(), &mut room)?;
        let answers = room.chunks_exact(ANSWER_SIZE).map(|bytes| {
            let bytes = bytes.try_into().expect("a chunk is 24 bytes");
            Answer::from_bytes(bytes).expect("the library writes answers")
        });
        Ok(answers.collect())
    }

    /// Adds a command with its name. A name of more than 255 bytes is refused for its length
    /// alone, so its bytes are left out and do not count for the batch's names.
    pub(crate) fn push(
        &mut self,
        op: u8,
        tree: u8,
        handle: Handle,
        key: u64,
        name: &[u8],
    ) -> &mut Batch {
        let offset = u32::try_from(self.names.len()).unwrap_or(u32::MAX);
        let length = u16::try_from(name.len()).unwrap_or(u16::MAX);
        if name.len() <= LONGEST_NAME {
            self.names.extend_from_slice(name);
        }
        self.commands.extend_from_slice(&[op, tree]);
        self.commands.extend_from_slice(&handle.slot.to_le_bytes());
        self.commands.extend_from_slice(&handle.stamp.to_le_bytes());
        self.commands.extend_from_slice(&key.to_le_bytes());
        self.commands.extend_from_slice(&offset.to_le_bytes());
        self.commands.extend_from_slice(&length.to_le_bytes());
        self.commands.extend_from_slice(&[0, 0]);
        self
    }
}

/// The door batch on bytes: carries out a batch's commands on a pool and writes an
/// answer of [`ANSWER_SIZE`] bytes for each. It allocates nothing.
///
/// Gives the number of commands answered, which is the number of commands. Bytes of
/// `answers` beyond them are left as they were.
///
/// ```
/// use zimatuno::{create, run_batch, Batch, DoorError};
///
/// let mut pool = [0; 184];
/// create(4, 1, 16, &mut pool)?;
/// let bytes = Batch::new().add(1, 5, b"a").get(1, 6).to_bytes();
/// let mut answers = [9; 50];
/// assert_eq!(run_batch(&mut pool, &bytes, &mut answers), Ok(2));
/// assert_eq!((answers[0], answers[24]), (0, 19)); // done, NONE
/// assert_eq!(answers[48..], [9, 9]);
/// assert_eq!(run_batch(&mut pool, &bytes, &mut answers[..47]), Err(DoorError::BadOut));
/// # Ok::<(), DoorError>(())
/// ```
///
/// # Errors
///
/// Pool and answers are then as they were. Checked in this order:
///
/// - [`DoorError::BadBatch`] if the batch's header or length is wrong.
/// - [`DoorError::BadOut`] if `answers` is shorter than the answers.
/// - [`DoorError::Damaged`] if the pool is not sound.
pub fn run_batch(pool: &mut [u8], batch: &[u8], answers: &mut [u8]) -> Result<u16, DoorError> {
    let (code, answered) = sys::batch(pool, batch, answers);
    DoorError::result(code)?;
    Ok(answered)
}

#[cfg(test)]
mod tests {
    use super::*;

    fn header(count: u16, names_at: u32, names_len: u32) -> Vec<u8> {
        let mut bytes = vec![1, 0];
        bytes.extend_from_slice(&count.to_le_bytes());
        bytes.extend_from_slice(&[16, 0, 0, 0]);
        bytes.extend_from_slice(&names_at.to_le_bytes());
        bytes.extend_from_slice(&names_len.to_le_bytes());
        bytes
    }

    #[test]
    fn an_empty_batch_is_its_header() {
        assert!(Batch::new().is_empty());
        assert_eq!(Batch::new().to_bytes(), header(0, 16, 0));
    }

    #[test]
    fn header_commands_and_names_in_full() {
        let handle = Handle { slot: 0x0203, stamp: 0x0405_0607 };
        let mut batch = Batch::new();
        batch.add(8, 0x0809_0a0b_0c0d_0e0f, b"id").remove(3, handle).append(2, b"xyz");
        let mut bytes = header(3, 88, 5);
        bytes.extend_from_slice(&[1, 8, 0, 0, 0, 0, 0, 0, 15, 14, 13, 12, 11, 10, 9, 8]);
        bytes.extend_from_slice(&[0, 0, 0, 0, 2, 0, 0, 0]);
        bytes.extend_from_slice(&[4, 3, 3, 2, 7, 6, 5, 4, 0, 0, 0, 0, 0, 0, 0, 0]);
        bytes.extend_from_slice(&[2, 0, 0, 0, 0, 0, 0, 0]);
        bytes.extend_from_slice(&[24, 0, 0, 0, 0, 0, 0, 0, 2, 0, 0, 0, 0, 0, 0, 0]);
        bytes.extend_from_slice(&[2, 0, 0, 0, 3, 0, 0, 0]);
        bytes.extend_from_slice(b"idxyz");
        assert_eq!(batch.to_bytes(), bytes);
        assert_eq!((batch.len(), batch.names_len()), (3, 5));
    }

    #[test]
    fn a_name_too_long_leaves_its_length_only() {
        for (length, written, stored) in
            [(0, [0, 0], 0), (255, [255, 0], 255), (256, [0, 1], 0), (70_000, [255, 255], 0)]
        {
            let mut batch = Batch::new();
            batch.add(1, 1, &vec![b'x'; length]);
            assert_eq!(batch.to_bytes()[36..38], written);
            assert_eq!(batch.names_len(), stored);
        }
    }

    #[test]
    fn more_commands_than_the_count_holds_do_not_wrap() {
        let mut batch = Batch::new();
        for _ in 0..65_537 {
            batch.mark();
        }
        assert_eq!(batch.to_bytes()[..4], [1, 0, 255, 255]);
    }
}
