//! Answers: what a batch says of each of its commands.

use crate::bytes::{u16_at, u32_at, u64_at};
use crate::pool::Handle;
use crate::refusal::Refusal;

/// The cursor that a batch holds. A batch starts with none and holds at most one.
///
/// ```
/// use zimatuno::CursorKind;
///
/// assert_eq!(CursorKind::from_code(2), Some(CursorKind::Vacant));
/// assert_eq!(CursorKind::Last.code(), 4);
/// ```
#[derive(Clone, Copy, Debug, PartialEq, Eq, Hash)]
#[repr(u8)]
pub enum CursorKind {
    /// 0: there is none.
    None = 0,
    /// 1: at a record.
    Occupied = 1,
    /// 2: at the place of a key that is not in the tree.
    Vacant = 2,
    /// 3: at the first record of a tree, or before an empty tree.
    First = 3,
    /// 4: at the last record of a tree, or behind an empty tree.
    Last = 4,
}

impl CursorKind {
    /// The number, 0 to 4.
    pub const fn code(self) -> u8 {
        self as u8
    }

    /// The kind with that number, if there is one.
    pub const fn from_code(code: u8) -> Option<CursorKind> {
        match code {
            0 => Some(CursorKind::None),
            1 => Some(CursorKind::Occupied),
            2 => Some(CursorKind::Vacant),
            3 => Some(CursorKind::First),
            4 => Some(CursorKind::Last),
            _ => None,
        }
    }
}

/// The record that an answer shows, as it was when the command was done.
///
/// It stays as given when a later command removes the record or undoes the
/// command. [`name`](crate::name) tells whether the handle is still good.
#[derive(Clone, Copy, Debug, PartialEq, Eq, Hash)]
pub struct Shown {
    /// The record's handle.
    pub handle: Handle,
    /// The record's key.
    pub key: u64,
    /// Where the record's name starts, counted from the start of the pool's text.
    pub name_start: u32,
    /// The length of the record's name, 1 to 255.
    pub name_length: u16,
}

/// The answer to one command.
#[derive(Clone, Copy, Debug, PartialEq, Eq, Hash)]
pub struct Answer {
    /// The cursor's kind after the command, refused or not.
    pub cursor: CursorKind,
    /// The record shown, if any, or why the command was refused.
    ///
    /// Shown is the record added, found, removed, peeked or moved to; for an entry
    /// that is vacant the record that its key would hang on. There is none on an
    /// empty tree, and after mark, rollback, commit and reset.
    pub result: Result<Option<Shown>, Refusal>,
}

impl Answer {
    /// The answer in 24 bytes, `None` if they are not laid out as an answer.
    ///
    /// [`Batch::run`](crate::Batch::run) has done this already; it is for those who
    /// call [`run_batch`](crate::run_batch).
    ///
    /// ```
    /// use zimatuno::{Answer, CursorKind, Refusal};
    ///
    /// let mut bytes = [0; 24];
    /// bytes[0] = 18; // ORDER
    /// let answer = Answer::from_bytes(&bytes).unwrap();
    /// assert_eq!(answer.refusal(), Some(Refusal::Order));
    /// assert_eq!(answer.cursor, CursorKind::None);
    /// ```
    pub fn from_bytes(bytes: &[u8; 24]) -> Option<Answer> {
        let cursor = CursorKind::from_code(bytes[1])?;
        let blank = bytes[2..].iter().all(|&byte| byte == 0);
        let result = match (bytes[0], blank) {
            (0, true) => Ok(None),
            (0, false) => Ok(Some(shown(bytes)?)),
            (code, true) => Err(Refusal::from_code(code)?),
            (_, false) => return None,
        };
        Some(Answer { cursor, result })
    }

    /// The record shown, if the command was done and there is one.
    pub fn shown(&self) -> Option<Shown> {
        self.result.ok().flatten()
    }

    /// The handle of the record shown, if the command was done and there is one.
    pub fn handle(&self) -> Option<Handle> {
        self.shown().map(|shown| shown.handle)
    }

    /// Why the command was refused, `None` if it was done.
    pub fn refusal(&self) -> Option<Refusal> {
        self.result.err()
    }
}

/// The record in a done command's answer that is not blank.
fn shown(bytes: &[u8; 24]) -> Option<Shown> {
    let shown = Shown {
        handle: Handle { slot: u16_at(bytes, 2), stamp: u32_at(bytes, 4) },
        key: u64_at(bytes, 8),
        name_start: u32_at(bytes, 16),
        name_length: u16_at(bytes, 20),
    };
    let named = (1..=255).contains(&shown.name_length) && bytes[22..] == [0, 0];
    Some(shown).filter(|s| named && s.handle.slot != 0 && s.handle.stamp != 0)
}

#[cfg(test)]
mod tests {
    use super::*;

    /// Done, kind 1, slot 0x0203, stamp 0x04050607, key 0x08..0f, name at 0x10111213, 20 bytes.
    const FULL: [u8; 24] =
        [0, 1, 3, 2, 7, 6, 5, 4, 15, 14, 13, 12, 11, 10, 9, 8, 19, 18, 17, 16, 20, 0, 0, 0];

    fn changed(places: &[(usize, u8)]) -> Option<Answer> {
        let mut bytes = FULL;
        for &(place, byte) in places {
            bytes[place] = byte;
        }
        Answer::from_bytes(&bytes)
    }

    #[test]
    fn a_record_is_read_field_by_field() {
        let shown = Shown {
            handle: Handle { slot: 0x0203, stamp: 0x0405_0607 },
            key: 0x0809_0a0b_0c0d_0e0f,
            name_start: 0x1011_1213,
            name_length: 20,
        };
        let answer = Answer::from_bytes(&FULL).unwrap();
        assert_eq!(answer.cursor, CursorKind::Occupied);
        assert_eq!(answer.result, Ok(Some(shown)));
        assert_eq!(answer.handle(), Some(shown.handle));
        assert_eq!(answer.refusal(), None);
    }

    #[test]
    fn blank_answers_and_refusals() {
        for kind in 0..=4 {
            for code in 0..=255 {
                let mut bytes = [0; 24];
                bytes[0] = code;
                bytes[1] = kind;
                let read = Answer::from_bytes(&bytes);
                let refusal = Refusal::from_code(code);
                assert_eq!(read.is_some(), code == 0 || refusal.is_some());
                if let Some(answer) = read {
                    assert_eq!(answer.cursor.code(), kind);
                    assert_eq!(answer.refusal(), refusal);
                    assert_eq!(answer.shown(), None);
                }
            }
        }
    }

    #[test]
    fn other_bytes_are_no_answer() {
        assert!(changed(&[]).is_some());
        assert_eq!(changed(&[(0, 15)]), None); // a refusal shows no record
        assert_eq!(changed(&[(1, 5)]), None); // no such kind
        assert_eq!(changed(&[(2, 0), (3, 0)]), None); // slot 0
        assert_eq!(changed(&[(4, 0), (5, 0), (6, 0), (7, 0)]), None); // stamp 0
        assert_eq!(changed(&[(20, 0)]), None); // no name
        assert_eq!(changed(&[(21, 1)]), None); // a name of 276 bytes
        assert_eq!(changed(&[(22, 1)]), None); // the two zero bytes
        assert_eq!(changed(&[(23, 1)]), None);
    }
}
