//! Listings: the records of a sound pool by tree and rising key, read from its bytes.
//!
//! That is one check, and then a walk that takes no memory and passes each link at most
//! twice. A walk by [`Batch::move_next`](crate::Batch::move_next) would begin again, with
//! a check, for every 256 commands, and would need the pool for writing.

use crate::bytes::{u16_at, u32_at, u64_at};
use crate::pool::{check, Handle};
use crate::refusal::DoorError;
use std::iter::FusedIterator;

/// A record of a pool.
#[derive(Clone, Copy, Debug, PartialEq, Eq, Hash)]
pub struct Record<'a> {
    /// The tree that it is in, which counts from 1.
    pub tree: u8,
    /// Its key.
    pub key: u64,
    /// Its handle.
    pub handle: Handle,
    /// The slot of the record above it in the tree, 0 for the root.
    pub parent: u16,
    /// 0 for equal heights, 1 if the right is one higher, 2 if the left is.
    pub balance: u8,
    /// Its name, a part of the pool.
    pub name: &'a [u8],
}

/// The bytes of a pool that [`check`] has found sound. They are borrowed, so nothing
/// changes them while this value is in use.
///
/// ```
/// use zimatuno::{create, Batch, SoundPool};
///
/// let mut pool = [0; 192];
/// create(4, 2, 16, &mut pool)?;
/// Batch::new().add(2, 30, b"c").add(1, 20, b"b").add(2, 10, b"a").run(&mut pool)?;
///
/// let pool = SoundPool::new(&pool)?;
/// assert_eq!((pool.slots(), pool.trees(), pool.live()), (4, 2, 3));
/// let names: Vec<_> = pool.records().map(|record| record.name).collect();
/// assert_eq!(names, [b"b", b"a", b"c"]);
/// let keys: Vec<_> = pool.records_of(2).map(|record| record.key).collect();
/// assert_eq!(keys, [10, 30]);
/// # Ok::<(), zimatuno::DoorError>(())
/// ```
#[derive(Clone, Copy, Debug)]
pub struct SoundPool<'a> {
    bytes: &'a [u8],
}

impl<'a> SoundPool<'a> {
    /// Checks a pool.
    ///
    /// # Errors
    ///
    /// [`DoorError::Damaged`] if it is not sound.
    pub fn new(pool: &'a [u8]) -> Result<SoundPool<'a>, DoorError> {
        check(pool)?;
        Ok(SoundPool { bytes: pool })
    }

    /// The pool's bytes.
    pub fn bytes(&self) -> &'a [u8] {
        self.bytes
    }

    /// The number of slots.
    pub fn slots(&self) -> u16 {
        u16_at(self.bytes, 2)
    }

    /// The number of trees.
    pub fn trees(&self) -> u16 {
        u16_at(self.bytes, 4)
    }

    /// The number of live records, in all trees.
    pub fn live(&self) -> u16 {
        u16_at(self.bytes, 6)
    }

    /// The size of the text, in bytes.
    pub fn text_size(&self) -> u32 {
        u32_at(self.bytes, 20)
    }

    /// The bytes of the text in use. Removed names count until a rollback or reset.
    pub fn text_used(&self) -> u32 {
        u32_at(self.bytes, 24)
    }

    /// The stamp that the next record added will get.
    pub fn next_stamp(&self) -> u32 {
        u32_at(self.bytes, 28)
    }

    /// The number of records in a tree, 0 if there is no such tree.
    pub fn count(&self, tree: u8) -> u16 {
        self.entry_at(tree).map_or(0, |at| u16_at(self.bytes, at + 2))
    }

    /// The slot of a tree's root, 0 if the tree is empty or there is no such tree.
    pub fn root(&self, tree: u8) -> u16 {
        self.entry_at(tree).map_or(0, |at| u16_at(self.bytes, at))
    }

    /// The record that the handle reaches in that tree, `None` where
    /// [`name`](crate::name) gives none.
    pub fn record(&self, tree: u8, handle: Handle) -> Option<Record<'a>> {
        if handle.slot == 0 || handle.slot > self.slots() || tree == 0 {
            return None;
        }
        Some(self.read(handle.slot)).filter(|r| r.tree == tree && r.handle == handle)
    }

    /// The records by tree and then rising key.
    pub fn records(&self) -> Records<'a> {
        Records {
            pool: *self,
            tree: 0,
            last_tree: self.trees() as u8,
            slot: 0,
            left: self.live().into(),
        }
    }

    /// The records of one tree by rising key, none if there is no such tree.
    pub fn records_of(&self, tree: u8) -> Records<'a> {
        Records {
            pool: *self,
            tree,
            last_tree: tree,
            slot: self.leftmost(self.root(tree)),
            left: self.count(tree).into(),
        }
    }

    /// The place of a tree's entry.
    fn entry_at(&self, tree: u8) -> Option<usize> {
        let there = 1 <= tree && u16::from(tree) <= self.trees();
        there.then(|| 32 + 8 * (usize::from(tree) - 1))
    }

    /// The place of a slot's record.
    fn record_at(&self, slot: u16) -> usize {
        32 + 8 * usize::from(self.trees()) + 32 * (usize::from(slot) - 1)
    }

    fn left(&self, slot: u16) -> u16 {
        u16_at(self.bytes, self.record_at(slot) + 8)
    }

    fn right(&self, slot: u16) -> u16 {
        u16_at(self.bytes, self.record_at(slot) + 10)
    }

    fn parent(&self, slot: u16) -> u16 {
        u16_at(self.bytes, self.record_at(slot) + 12)
    }

    /// The record in a slot; its tree is 0 if the slot is free.
    fn read(&self, slot: u16) -> Record<'a> {
        let at = self.record_at(slot);
        let text = 32 + 8 * usize::from(self.trees()) + 32 * usize::from(self.slots());
        let start = text + u32_at(self.bytes, at + 20) as usize;
        Record {
            tree: self.bytes[at + 15],
            key: u64_at(self.bytes, at),
            handle: Handle { slot, stamp: u32_at(self.bytes, at + 16) },
            parent: self.parent(slot),
            balance: self.bytes[at + 14],
            name: &self.bytes[start..start + usize::from(u16_at(self.bytes, at + 24))],
        }
    }

    /// The slot with the lowest key at or below a slot, 0 for 0.
    fn leftmost(&self, mut slot: u16) -> u16 {
        while slot != 0 && self.left(slot) != 0 {
            slot = self.left(slot);
        }
        slot
    }

    /// The slot with the next key of the tree, 0 if there is none.
    fn after(&self, slot: u16) -> u16 {
        if self.right(slot) != 0 {
            return self.leftmost(self.right(slot));
        }
        let mut child = slot;
        loop {
            let parent = self.parent(child);
            if parent == 0 || self.left(parent) == child {
                return parent;
            }
            child = parent;
        }
    }
}

/// The records of a pool by tree and then rising key; made by [`SoundPool::records`]
/// and [`SoundPool::records_of`].
#[derive(Clone, Debug)]
pub struct Records<'a> {
    pool: SoundPool<'a>,
    /// The tree in hand, and the last one to list.
    tree: u8,
    last_tree: u8,
    /// The slot of the next record of the tree in hand, 0 if there is none.
    slot: u16,
    /// How many records are still to come.
    left: usize,
}

impl<'a> Iterator for Records<'a> {
    type Item = Record<'a>;

    fn next(&mut self) -> Option<Record<'a>> {
        while self.slot == 0 {
            if self.tree == self.last_tree {
                return None;
            }
            self.tree += 1;
            self.slot = self.pool.leftmost(self.pool.root(self.tree));
        }
        let record = self.pool.read(self.slot);
        self.slot = self.pool.after(self.slot);
        self.left -= 1;
        Some(record)
    }

    fn size_hint(&self) -> (usize, Option<usize>) {
        (self.left, Some(self.left))
    }
}

impl ExactSizeIterator for Records<'_> {}

impl FusedIterator for Records<'_> {}

#[cfg(test)]
mod tests;
