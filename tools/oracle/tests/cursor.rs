//! The cursor: one of the original's entries, and what may be asked of any of them.
use super::world::{Item, Tree};
use crate::{Entry, First, Last, OccupiedEntry, VacantEntry};
use std::rc::Rc;

pub type Occupied = OccupiedEntry<'static, Rc<Item>, ()>;
type Vacant = VacantEntry<'static, Rc<Item>, (), u64>;

pub enum Cursor {
    Nowhere,
    Occupied(Occupied),
    Vacant(Vacant),
    First(Entry<'static, Rc<Item>, (), First>),
    Last(Entry<'static, Rc<Item>, (), Last>),
}

impl Cursor {
    pub fn kind(&self) -> u8 {
        match self {
            Cursor::Nowhere => 0,
            Cursor::Occupied(_) => 1,
            Cursor::Vacant(_) => 2,
            Cursor::First(_) => 3,
            Cursor::Last(_) => 4,
        }
    }

    /// The record that it stands at.
    pub fn record(&self) -> Option<&Item> {
        match self {
            Cursor::Occupied(e) | Cursor::First(Entry::Occupied(e)) | Cursor::Last(Entry::Occupied(e)) => {
                Some(e.get())
            }
            _ => None,
        }
    }

    pub fn vacant_key(&self) -> Option<u64> {
        if let Cursor::Vacant(e) = self { Some(*e.key()) } else { None }
    }

    /// The original's peek, to the right or to the left.
    pub fn beside(&self, right: bool) -> Option<&Item> {
        macro_rules! peek {
            ($e: expr) => {
                if right { $e.peek_next() } else { $e.peek_prev() }
            };
        }
        match self {
            Cursor::Nowhere => None,
            Cursor::Occupied(e) | Cursor::First(Entry::Occupied(e)) | Cursor::Last(Entry::Occupied(e)) => {
                peek!(e)
            }
            Cursor::Vacant(e) => peek!(e),
            Cursor::First(Entry::Vacant(e)) => peek!(e),
            Cursor::Last(Entry::Vacant(e)) => peek!(e),
        }
    }

    /// The original's move, to the right or to the left.
    pub fn moved(self, right: bool) -> Option<Occupied> {
        macro_rules! go {
            ($e: expr) => {
                if right { $e.move_next() } else { $e.move_prev() }
            };
        }
        match self {
            Cursor::Nowhere => None,
            Cursor::Occupied(e) | Cursor::First(Entry::Occupied(e)) | Cursor::Last(Entry::Occupied(e)) => {
                go!(e)
            }
            Cursor::Vacant(e) => go!(e),
            Cursor::First(Entry::Vacant(e)) => go!(e),
            Cursor::Last(Entry::Vacant(e)) => go!(e),
        }
    }

    /// The entry at its record.
    pub fn occupied(self) -> Occupied {
        match self {
            Cursor::Occupied(e) | Cursor::First(Entry::Occupied(e)) | Cursor::Last(Entry::Occupied(e)) => e,
            _ => panic!("no record at the cursor"),
        }
    }

    /// Its tree, while it has it.
    pub fn tree(&self) -> Option<&Tree> {
        match self {
            Cursor::Nowhere => None,
            Cursor::Occupied(e) | Cursor::First(Entry::Occupied(e)) | Cursor::Last(Entry::Occupied(e)) => {
                Some(&*e.tree)
            }
            Cursor::Vacant(e) => Some(&*e.tree),
            Cursor::First(Entry::Vacant(e)) => Some(&*e.tree),
            Cursor::Last(Entry::Vacant(e)) => Some(&*e.tree),
        }
    }
}
