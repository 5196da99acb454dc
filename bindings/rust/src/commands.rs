//! The 29 commands of a batch, one method for each. The number in front is the op.

use crate::batch::Batch;
use crate::pool::Handle;

/// What stands in fields that an op does not use.
const NO_HANDLE: Handle = Handle { slot: 0, stamp: 0 };

/// Commands on a tree. They drop the cursor, refused or not.
impl Batch {
    /// 1: adds a record with that key and name to a tree and shows it.
    ///
    /// It takes the lowest free slot and the next stamp.
    /// Refused with BAD_TREE, BAD_NAME, PRESENT, NO_SLOT, NO_TEXT or NO_STAMP.
    ///
    /// ```
    /// use zimatuno::Batch;
    ///
    /// let mut batch = Batch::new();
    /// batch.add(1, 10, b"id").add(1, 20, "größe".as_bytes());
    /// assert_eq!(batch.len(), 2);
    /// assert_eq!(batch.to_bytes()[64..], *"idgröße".as_bytes());
    /// ```
    pub fn add(&mut self, tree: u8, key: u64, name: &[u8]) -> &mut Batch {
        self.push(1, tree, NO_HANDLE, key, name)
    }

    /// 2: shows the record with that key. Refused with BAD_TREE or NONE.
    pub fn get(&mut self, tree: u8, key: u64) -> &mut Batch {
        self.push(2, tree, NO_HANDLE, key, b"")
    }

    /// 3: removes the record with that key and shows it as it was.
    /// Refused with BAD_TREE or NONE.
    pub fn remove_by_key(&mut self, tree: u8, key: u64) -> &mut Batch {
        self.push(3, tree, NO_HANDLE, key, b"")
    }

    /// 4: removes the record that the handle reaches and shows it as it was.
    /// Refused with BAD_TREE, BAD_SLOT, STALE or OTHER_TREE.
    pub fn remove(&mut self, tree: u8, handle: Handle) -> &mut Batch {
        self.push(4, tree, handle, 0, b"")
    }

    /// 5: shows the record after the one that the handle reaches.
    /// Refused with BAD_TREE, BAD_SLOT, STALE, OTHER_TREE or NONE.
    pub fn next(&mut self, tree: u8, handle: Handle) -> &mut Batch {
        self.push(5, tree, handle, 0, b"")
    }

    /// 6: shows the record before the one that the handle reaches.
    /// Refused with BAD_TREE, BAD_SLOT, STALE, OTHER_TREE or NONE.
    pub fn prev(&mut self, tree: u8, handle: Handle) -> &mut Batch {
        self.push(6, tree, handle, 0, b"")
    }

    /// 7: shows the record with the lowest key. Refused with BAD_TREE or NONE.
    pub fn first(&mut self, tree: u8) -> &mut Batch {
        self.push(7, tree, NO_HANDLE, 0, b"")
    }

    /// 8: shows the record with the highest key. Refused with BAD_TREE or NONE.
    pub fn last(&mut self, tree: u8) -> &mut Batch {
        self.push(8, tree, NO_HANDLE, 0, b"")
    }
}

/// Commands that set the cursor. Refused, they drop it.
impl Batch {
    /// 9: sets the cursor at the record with that key, kind 1, or at the key's place
    /// where there is none, kind 2. Refused with BAD_TREE.
    ///
    /// Shows the record, or the one that the key would hang on.
    pub fn entry(&mut self, tree: u8, key: u64) -> &mut Batch {
        self.push(9, tree, NO_HANDLE, key, b"")
    }

    /// 10: sets the cursor at the first record, kind 3, and shows it; on an empty tree
    /// too, and then shows none. Refused with BAD_TREE.
    pub fn first_entry(&mut self, tree: u8) -> &mut Batch {
        self.push(10, tree, NO_HANDLE, 0, b"")
    }

    /// 11: sets the cursor at the last record, kind 4, and shows it; on an empty tree
    /// too, and then shows none. Refused with BAD_TREE.
    pub fn last_entry(&mut self, tree: u8) -> &mut Batch {
        self.push(11, tree, NO_HANDLE, 0, b"")
    }
}

/// Commands at the cursor, which knows its tree. A refused one keeps the cursor unless
/// it says otherwise.
///
/// Below, *at a record* means kind 1, or kind 3 or 4 on a tree that is not empty.
impl Batch {
    /// 12: shows the record after the cursor, which stays.
    /// Refused with BAD_CURSOR or NONE.
    pub fn peek_next(&mut self) -> &mut Batch {
        self.at_cursor(12)
    }

    /// 13: shows the record before the cursor, which stays.
    /// Refused with BAD_CURSOR or NONE.
    pub fn peek_prev(&mut self) -> &mut Batch {
        self.at_cursor(13)
    }

    /// 14: moves the cursor to the record after it and shows that; kind 1.
    /// Refused with BAD_CURSOR, or with NONE, which loses the cursor.
    pub fn move_next(&mut self) -> &mut Batch {
        self.at_cursor(14)
    }

    /// 15: moves the cursor to the record before it and shows that; kind 1.
    /// Refused with BAD_CURSOR, or with NONE, which loses the cursor.
    pub fn move_prev(&mut self) -> &mut Batch {
        self.at_cursor(15)
    }

    /// 16: adds a record right before the cursor's and shows it; the cursor stays, kind 1.
    ///
    /// Needs a cursor at a record. The key has to lie strictly between that record and
    /// the one before it, if any; else ORDER.
    /// Refused with BAD_CURSOR, BAD_NAME, ORDER, NO_SLOT, NO_TEXT or NO_STAMP.
    pub fn insert_before(&mut self, key: u64, name: &[u8]) -> &mut Batch {
        self.adding(16, key, name)
    }

    /// 17: adds a record right after the cursor's and shows it; the cursor stays, kind 1.
    ///
    /// Needs a cursor at a record. The key has to lie strictly between that record and
    /// the one after it, if any; else ORDER.
    /// Refused with BAD_CURSOR, BAD_NAME, ORDER, NO_SLOT, NO_TEXT or NO_STAMP.
    pub fn insert_after(&mut self, key: u64, name: &[u8]) -> &mut Batch {
        self.adding(17, key, name)
    }

    /// 18: as [`insert_before`](Batch::insert_before), and moves the cursor to the new
    /// record.
    pub fn insert_before_move(&mut self, key: u64, name: &[u8]) -> &mut Batch {
        self.adding(18, key, name)
    }

    /// 19: as [`insert_after`](Batch::insert_after), and moves the cursor to the new
    /// record.
    pub fn insert_after_move(&mut self, key: u64, name: &[u8]) -> &mut Batch {
        self.adding(19, key, name)
    }

    /// 20: adds a record at a vacant entry and shows it; the cursor is then at it, kind 1.
    ///
    /// Needs a cursor of kind 2. The key has to be the entry's; else ORDER.
    /// Refused with BAD_CURSOR, BAD_NAME, ORDER, NO_SLOT, NO_TEXT or NO_STAMP.
    pub fn insert_node(&mut self, key: u64, name: &[u8]) -> &mut Batch {
        self.adding(20, key, name)
    }

    /// 21: removes the cursor's record and shows it as it was; no cursor is left.
    ///
    /// Needs a cursor at a record. Refused with BAD_CURSOR.
    pub fn remove_here(&mut self) -> &mut Batch {
        self.at_cursor(21)
    }

    /// 22: removes the record before the cursor's and shows it as it was; the cursor
    /// stays, kind 1. Needs a cursor at a record. Refused with BAD_CURSOR or NONE.
    pub fn remove_prev(&mut self) -> &mut Batch {
        self.at_cursor(22)
    }

    /// 23: removes the record after the cursor's and shows it as it was; the cursor
    /// stays, kind 1. Needs a cursor at a record. Refused with BAD_CURSOR or NONE.
    pub fn remove_next(&mut self) -> &mut Batch {
        self.at_cursor(23)
    }

    /// 24: adds a record behind the last and shows it; the cursor is then at it, kind 4.
    ///
    /// Needs a cursor of kind 4. The key has to be above the last one; else ORDER, which
    /// loses the cursor.
    /// Refused with BAD_CURSOR, BAD_NAME, ORDER, NO_SLOT, NO_TEXT or NO_STAMP.
    pub fn append(&mut self, key: u64, name: &[u8]) -> &mut Batch {
        self.adding(24, key, name)
    }

    /// 25: adds a record before the first and shows it; the cursor is then at it, kind 3.
    ///
    /// Needs a cursor of kind 3. The key has to be below the first one; else ORDER, which
    /// loses the cursor.
    /// Refused with BAD_CURSOR, BAD_NAME, ORDER, NO_SLOT, NO_TEXT or NO_STAMP.
    pub fn prepend(&mut self, key: u64, name: &[u8]) -> &mut Batch {
        self.adding(25, key, name)
    }

    fn at_cursor(&mut self, op: u8) -> &mut Batch {
        self.push(op, 0, NO_HANDLE, 0, b"")
    }

    fn adding(&mut self, op: u8, key: u64, name: &[u8]) -> &mut Batch {
        self.push(op, 0, NO_HANDLE, key, name)
    }
}

/// Commands on the whole pool. They show no record and drop the cursor, refused or not.
impl Batch {
    /// 26: opens a mark. Refused with MARK_OPEN.
    pub fn mark(&mut self) -> &mut Batch {
        self.at_cursor(26)
    }

    /// 27: undoes every change since the mark and closes it. Refused with NO_MARK.
    ///
    /// Records that were removed are back with their slots, stamps and names, and their
    /// handles are good. Handles of records added since the mark stay dead for good, as
    /// the next stamp does not go back.
    pub fn rollback(&mut self) -> &mut Batch {
        self.at_cursor(27)
    }

    /// 28: closes the mark and keeps the changes. Refused with NO_MARK.
    pub fn commit(&mut self) -> &mut Batch {
        self.at_cursor(28)
    }

    /// 29: frees every record of every tree and the text, and keeps the next stamp, so
    /// that every handle given before stays dead. Refused with MARK_OPEN.
    pub fn reset(&mut self) -> &mut Batch {
        self.at_cursor(29)
    }
}

#[cfg(test)]
mod tests;
