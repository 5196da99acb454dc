//! The commands, each carried out by the original's own function of that name. The codes of the answers
//! are the pool's: 0 done, 17 `add` gave the record back, 18 `append` or `prepend` gave it back, 19 the
//! original found nothing, 20 no slot is free. Commands that the pool's rules refuse and the original does
//! not know (stale handles, keys out of order, a cursor of the wrong kind) are never given.
use super::cursor::Cursor;
use super::world::{Item, World, entry_of};
use crate::Entry;
use std::rc::Rc;

#[derive(Clone, Copy)]
pub struct Command {
    pub op: u8,
    pub tree: u8,
    pub slot: u16,
    pub stamp: u32,
    pub key: u64,
}

#[derive(Default)]
pub struct Answer {
    pub code: u8,
    pub slot: u16,
    pub stamp: u32,
    pub key: u64,
    pub start: u32,
    pub length: u16,
}

fn shows(item: &Item) -> Answer {
    Answer { code: 0, slot: item.slot, stamp: item.stamp, key: item.key, start: item.start, length: 1 }
}

fn refuses(code: u8) -> Answer {
    Answer { code, ..Default::default() }
}

fn found(item: Option<&Item>) -> Answer {
    item.map_or(refuses(19), shows)
}

/// A world and the cursor of the batch that runs on it.
pub struct Player {
    pub world: World,
    pub cursor: Cursor,
    pub cursor_tree: u8,
}

impl Player {
    pub fn new(slots: u16, trees: u16, text: u16) -> Player {
        Player { world: World::new(slots, trees, text), cursor: Cursor::Nowhere, cursor_tree: 0 }
    }

    /// Root and count of each tree.
    pub fn roots(&self) -> Vec<(u16, u16)> {
        let of = |t: u8| match self.cursor.tree() {
            Some(tree) if t == self.cursor_tree => entry_of(tree),
            _ => entry_of(self.world.tree(t)),
        };
        (1..=self.world.tree_count() as u8).map(of).collect()
    }

    pub fn perform(&mut self, c: Command) -> Answer {
        match c.op {
            1..=8 => {
                self.cursor = Cursor::Nowhere;
                self.on_tree(c)
            }
            9..=11 => self.enter(c),
            _ => self.at_cursor(c),
        }
    }

    fn taken_out(&mut self, item: Rc<Item>) -> Answer {
        self.world.drop_slot(item.slot);
        shows(&item)
    }

    fn added(&mut self, item: &Rc<Item>) -> Answer {
        self.world.keep(item);
        shows(item)
    }

    fn on_tree(&mut self, c: Command) -> Answer {
        let tree = self.world.tree(c.tree);
        let handle = |w: &World| w.items[c.slot as usize].clone().expect("a live handle");
        match c.op {
            1 => match self.world.fresh(c.tree, c.key) {
                None => refuses(if tree.get(&c.key).is_some() { 17 } else { 20 }),
                Some(item) => match tree.add(item.clone()) {
                    Ok(()) => self.added(&item),
                    Err(_) => refuses(17),
                },
            },
            2 => found(tree.get(&c.key).as_deref()),
            3 => match tree.remove_by_key(&c.key) {
                Some(item) => self.taken_out(item),
                None => refuses(19),
            },
            4 => {
                let item = handle(&self.world);
                tree.remove(&item);
                self.taken_out(item)
            }
            5 | 6 => {
                let item = handle(&self.world);
                let other = unsafe { if c.op == 5 { tree.next(&item) } else { tree.prev(&item) } };
                found(other.as_deref())
            }
            7 => found(tree.first().as_deref()),
            _ => found(tree.last().as_deref()),
        }
    }

    fn enter(&mut self, c: Command) -> Answer {
        self.cursor = Cursor::Nowhere;
        self.cursor_tree = c.tree;
        let tree = self.world.tree(c.tree);
        self.cursor = match c.op {
            9 => match tree.entry(c.key) {
                Entry::Occupied(e) => Cursor::Occupied(e),
                Entry::Vacant(e) => Cursor::Vacant(e),
            },
            10 => Cursor::First(tree.first_entry()),
            _ => Cursor::Last(tree.last_entry()),
        };
        match &self.cursor {
            Cursor::Vacant(e) => e.nearest().map_or(Answer::default(), shows),
            k => k.record().map_or(Answer::default(), shows),
        }
    }

    fn at_cursor(&mut self, c: Command) -> Answer {
        let right = matches!(c.op, 12 | 14 | 17 | 19 | 23);
        match c.op {
            12 | 13 => found(self.cursor.beside(right)),
            14 | 15 => match self.take().moved(right) {
                Some(e) => {
                    let answer = shows(e.get());
                    self.cursor = Cursor::Occupied(e);
                    answer
                }
                None => refuses(19),
            },
            21 => {
                let item = self.take().occupied().remove();
                self.taken_out(item)
            }
            22 | 23 => self.remove_beside(right),
            _ => self.insert(c, right),
        }
    }

    fn take(&mut self) -> Cursor {
        core::mem::replace(&mut self.cursor, Cursor::Nowhere)
    }

    /// One that finds nothing keeps the cursor's kind.
    fn remove_beside(&mut self, right: bool) -> Answer {
        if self.cursor.beside(right).is_none() {
            let k = match &mut self.cursor {
                Cursor::Occupied(e)
                | Cursor::First(Entry::Occupied(e))
                | Cursor::Last(Entry::Occupied(e)) => e,
                _ => panic!("no record at the cursor"),
            };
            assert!(if right { k.remove_next() } else { k.remove_prev() }.is_none());
            return refuses(19);
        }
        let mut e = self.take().occupied();
        let item = if right { e.remove_next() } else { e.remove_prev() }.expect("a record beside");
        self.cursor = Cursor::Occupied(e);
        self.taken_out(item)
    }

    fn insert(&mut self, c: Command, right: bool) -> Answer {
        let item = self.world.fresh(self.cursor_tree, c.key).expect("a free slot");
        let new = item.clone();
        // The unchecked forms of append and prepend stand in for the checked ones now and then.
        let unchecked = c.key % 4 == 1;
        self.cursor = match (c.op, self.take()) {
            (16 | 17, k) => {
                let mut e = k.occupied();
                unsafe { if right { e.insert_next_unchecked(new) } else { e.insert_prev_unchecked(new) } };
                Cursor::Occupied(e)
            }
            (18, k) => Cursor::Occupied(unsafe { k.occupied().insert_move_prev_unchecked(new) }),
            (19, k) => Cursor::Occupied(unsafe { k.occupied().insert_move_next_unchecked(new) }),
            (20, Cursor::Vacant(e)) => Cursor::Occupied(e.insert_node(new)),
            (24, Cursor::Last(e)) => {
                let fits = matches!(&e, Entry::Occupied(o) if o.get().key < c.key);
                if unchecked && fits {
                    Cursor::Last(unsafe { e.append_unchecked(new) })
                } else {
                    match e.append(new, Item::cmp_keys) {
                        Ok(e) => Cursor::Last(e),
                        Err(_) => return refuses(18),
                    }
                }
            }
            (25, Cursor::First(e)) => {
                let fits = matches!(&e, Entry::Occupied(o) if c.key < o.get().key);
                if unchecked && fits {
                    Cursor::First(unsafe { e.prepend_unchecked(new) })
                } else {
                    match e.prepend(new, Item::cmp_keys) {
                        Ok(e) => Cursor::First(e),
                        Err(_) => return refuses(18),
                    }
                }
            }
            _ => panic!("not the cursor needed"),
        };
        self.added(&item)
    }
}

impl Item {
    fn cmp_keys(a: &Item, b: &Item) -> core::cmp::Ordering {
        Ord::cmp(a, b)
    }
}
