//! The numbers returned: [`DoorError`] for a door as a whole, [`Refusal`] for one command.

use std::error::Error;
use std::fmt;

/// Why a door did nothing. The buffers that were lent to it are as they were.
///
/// Its text is the name that docs/REFERENCE.md gives it.
///
/// ```
/// use zimatuno::DoorError;
///
/// assert_eq!(DoorError::BadSize.code(), 4);
/// assert_eq!(DoorError::BadSize.to_string(), "BAD_SIZE");
/// assert_eq!(DoorError::from_code(1), Some(DoorError::Damaged));
/// assert_eq!(DoorError::from_code(0), None);
/// ```
#[derive(Clone, Copy, Debug, PartialEq, Eq, Hash)]
#[repr(u8)]
pub enum DoorError {
    /// 1: the pool is not sound.
    Damaged = 1,
    /// 2: the batch's header or length is wrong; so it is with more than
    /// [`MAX_COMMANDS`](crate::MAX_COMMANDS) commands or
    /// [`MAX_NAMES`](crate::MAX_NAMES) bytes of names.
    BadBatch = 2,
    /// 3: the answers are shorter than 24 bytes for each command.
    BadOut = 3,
    /// 4: create: a size is out of its limits, or the buffer's length is not the pool's.
    BadSize = 4,
}

impl DoorError {
    /// Every one, in the order of the numbers.
    pub const ALL: [DoorError; 4] =
        [DoorError::Damaged, DoorError::BadBatch, DoorError::BadOut, DoorError::BadSize];

    /// The number, 1 to 4.
    pub const fn code(self) -> u8 {
        self as u8
    }

    /// The one with that number, if there is one.
    pub fn from_code(code: u8) -> Option<DoorError> {
        Self::ALL.iter().copied().find(|e| e.code() == code)
    }

    /// The name that docs/REFERENCE.md gives it.
    pub const fn name(self) -> &'static str {
        match self {
            DoorError::Damaged => "DAMAGED",
            DoorError::BadBatch => "BAD_BATCH",
            DoorError::BadOut => "BAD_OUT",
            DoorError::BadSize => "BAD_SIZE",
        }
    }

    /// What a door's number says: 0 is done.
    pub(crate) fn result(code: u8) -> Result<(), DoorError> {
        match code {
            0 => Ok(()),
            _ => Err(Self::from_code(code).expect("a door returns 0 to 4")),
        }
    }
}

impl fmt::Display for DoorError {
    fn fmt(&self, f: &mut fmt::Formatter<'_>) -> fmt::Result {
        f.pad(self.name())
    }
}

impl Error for DoorError {}

/// Why a command was refused. It changed nothing in the pool.
///
/// Its text is the name that docs/REFERENCE.md gives it. A command is checked in
/// this order: `BadOp`; `BadTree`, `BadCursor`, `NoMark` or `MarkOpen`;
/// `BadName`; `BadSlot`; `Stale`; `OtherTree`; `Present`, `Order` or `None`;
/// `NoSlot`; `NoText`; `NoStamp`. The first that applies is the answer.
///
/// ```
/// use zimatuno::Refusal;
///
/// assert_eq!(Refusal::Stale.code(), 15);
/// assert_eq!(Refusal::Stale.to_string(), "STALE");
/// assert_eq!(Refusal::from_code(24), Some(Refusal::MarkOpen));
/// assert_eq!(Refusal::from_code(25), None);
/// ```
#[derive(Clone, Copy, Debug, PartialEq, Eq, Hash)]
#[repr(u8)]
pub enum Refusal {
    /// 10: the op is 0 or above 29. [`Batch`](crate::Batch) writes no such op.
    BadOp = 10,
    /// 11: ops 1 to 11: the tree is 0 or above the pool's number of trees.
    BadTree = 11,
    /// 12: the command needs a cursor of another kind, or one at a record.
    BadCursor = 12,
    /// 13: adding ops: the name has no bytes or more than 255.
    BadName = 13,
    /// 14: the handle's slot is 0 or above the pool's number of slots.
    BadSlot = 14,
    /// 15: the handle's slot is free, or its record has another stamp.
    Stale = 15,
    /// 16: the handle's record is live, in another tree.
    OtherTree = 16,
    /// 17: op 1: the key is in the tree.
    Present = 17,
    /// 18: the key does not stand where the cursor says.
    Order = 18,
    /// 19: there is no record with the key, in the tree or on that side.
    None = 19,
    /// 20: no slot is free.
    NoSlot = 20,
    /// 21: the name does not fit into the text.
    NoText = 21,
    /// 22: the next stamp is 4,294,967,295, which is never given.
    NoStamp = 22,
    /// 23: rollback and commit: no mark is open.
    NoMark = 23,
    /// 24: mark and reset: a mark is open.
    MarkOpen = 24,
}

impl Refusal {
    /// Every one, in the order of the numbers.
    pub const ALL: [Refusal; 15] = [
        Refusal::BadOp,
        Refusal::BadTree,
        Refusal::BadCursor,
        Refusal::BadName,
        Refusal::BadSlot,
        Refusal::Stale,
        Refusal::OtherTree,
        Refusal::Present,
        Refusal::Order,
        Refusal::None,
        Refusal::NoSlot,
        Refusal::NoText,
        Refusal::NoStamp,
        Refusal::NoMark,
        Refusal::MarkOpen,
    ];

    /// The number, 10 to 24.
    pub const fn code(self) -> u8 {
        self as u8
    }

    /// The one with that number, if there is one.
    pub fn from_code(code: u8) -> Option<Refusal> {
        Self::ALL.iter().copied().find(|r| r.code() == code)
    }

    /// The name that docs/REFERENCE.md gives it.
    pub const fn name(self) -> &'static str {
        match self {
            Refusal::BadOp => "BAD_OP",
            Refusal::BadTree => "BAD_TREE",
            Refusal::BadCursor => "BAD_CURSOR",
            Refusal::BadName => "BAD_NAME",
            Refusal::BadSlot => "BAD_SLOT",
            Refusal::Stale => "STALE",
            Refusal::OtherTree => "OTHER_TREE",
            Refusal::Present => "PRESENT",
            Refusal::Order => "ORDER",
            Refusal::None => "NONE",
            Refusal::NoSlot => "NO_SLOT",
            Refusal::NoText => "NO_TEXT",
            Refusal::NoStamp => "NO_STAMP",
            Refusal::NoMark => "NO_MARK",
            Refusal::MarkOpen => "MARK_OPEN",
        }
    }
}

impl fmt::Display for Refusal {
    fn fmt(&self, f: &mut fmt::Formatter<'_>) -> fmt::Result {
        f.pad(self.name())
    }
}

impl Error for Refusal {}

#[cfg(test)]
mod tests {
    use super::*;

    #[test]
    fn numbers_and_names_are_those_of_the_reference() {
        let doors: Vec<_> = DoorError::ALL.iter().map(|e| (e.code(), e.name())).collect();
        assert_eq!(doors, [(1, "DAMAGED"), (2, "BAD_BATCH"), (3, "BAD_OUT"), (4, "BAD_SIZE")]);
        let codes: Vec<_> = Refusal::ALL.iter().map(|r| r.code()).collect();
        assert_eq!(codes, (10..=24).collect::<Vec<u8>>());
        let names: Vec<_> = Refusal::ALL.iter().map(|r| r.to_string()).collect();
        assert_eq!(
            names.join(" "),
            "BAD_OP BAD_TREE BAD_CURSOR BAD_NAME BAD_SLOT STALE OTHER_TREE PRESENT ORDER NONE \
             NO_SLOT NO_TEXT NO_STAMP NO_MARK MARK_OPEN"
        );
    }

    #[test]
    fn every_number_is_read_back_and_no_other_is() {
        for code in 0..=255 {
            let door = DoorError::from_code(code);
            assert_eq!(door.map(DoorError::code), Some(code).filter(|c| (1..=4).contains(c)));
            let refusal = Refusal::from_code(code);
            assert_eq!(refusal.map(Refusal::code), Some(code).filter(|c| (10..=24).contains(c)));
        }
    }
}
