//! The pool's side of the original: records in numbered slots, each held by one of the original's trees.
//! A new record takes the lowest free slot, the next stamp and one byte of text, as the pool's rules say,
//! so that links can be written as slot numbers. Which record hangs where is the original's alone.
use crate::{AvlItem, AvlNode, AvlTree};
use core::borrow::Borrow;
use core::cell::UnsafeCell;
use std::rc::Rc;

pub struct Item {
    pub key: u64,
    pub slot: u16,
    pub tree: u8,
    pub stamp: u32,
    pub start: u32,
    node: UnsafeCell<AvlNode<()>>,
}

impl Borrow<u64> for Item {
    fn borrow(&self) -> &u64 {
        &self.key
    }
}

unsafe impl AvlItem<()> for Item {
    #[allow(clippy::mut_from_ref)]
    fn get_node(&self) -> &mut AvlNode<()> {
        unsafe { &mut *self.node.get() }
    }
}

crate::impl_ord_with_borrow_unique!(Item, u64);

pub type Tree = AvlTree<Rc<Item>, ()>;

/// Left, right, parent and balance of a record.
pub type Links = (u16, u16, u16, u8);

pub struct World {
    pub slots: u16,
    pub text: u16,
    pub used: u32,
    pub next: u32,
    pub live: u16,
    /// By slot; place 0 stays empty.
    pub items: Vec<Option<Rc<Item>>>,
    /// Place 0 is tree 1. Raw, since a cursor holds its tree while the other trees are read.
    trees: Vec<*mut Tree>,
}

fn slot_of(p: *mut u8) -> u16 {
    if p.is_null() { 0 } else { unsafe { (*(p as *const Item)).slot } }
}

/// The root's slot and the count.
pub fn entry_of(tree: &Tree) -> (u16, u16) {
    (slot_of(tree.root), tree.count as u16)
}

pub fn links(item: &Item) -> Links {
    let node = item.get_node();
    (slot_of(node.left()), slot_of(node.right()), slot_of(node.get_parent()), node.get_balance())
}

impl World {
    pub fn new(slots: u16, trees: u16, text: u16) -> World {
        World {
            slots,
            text,
            used: 0,
            next: 1,
            live: 0,
            items: (0..=slots).map(|_| None).collect(),
            trees: (0..trees).map(|_| Box::into_raw(Box::new(Tree::new()))).collect(),
        }
    }

    pub fn tree_count(&self) -> u16 {
        self.trees.len() as u16
    }

    /// Tree t, counted from 1. While a cursor is on it, it is read through the cursor alone.
    #[allow(clippy::mut_from_ref)]
    pub fn tree(&self, t: u8) -> &'static mut Tree {
        let tree = self.trees[t as usize - 1];
        unsafe { &mut *tree }
    }

    /// A record for the lowest free slot, not yet kept; none if no slot is free.
    pub fn fresh(&self, tree: u8, key: u64) -> Option<Rc<Item>> {
        let slot = (1..=self.slots).find(|&x| self.items[x as usize].is_none())?;
        assert!(self.used < self.text as u32, "a run has more additions than text");
        let node = UnsafeCell::new(AvlNode::default());
        Some(Rc::new(Item { key, slot, tree, stamp: self.next, start: self.used, node }))
    }

    pub fn keep(&mut self, item: &Rc<Item>) {
        self.items[item.slot as usize] = Some(item.clone());
        self.next += 1;
        self.used += 1;
        self.live += 1;
    }

    pub fn drop_slot(&mut self, slot: u16) {
        self.items[slot as usize] = None;
        self.live -= 1;
    }

    /// The words of the pool before its text, in order, each of eight bytes.
    pub fn words(&self, roots: &[(u16, u16)], mut take: impl FnMut(u64)) {
        let (n, t) = (self.slots as u64, roots.len() as u64);
        take(1 | n << 16 | t << 32 | (self.live as u64) << 48);
        take(32 | (32 + 8 * t) << 32);
        take((32 + 8 * t + 32 * n) | (self.text as u64) << 32);
        take(self.used as u64 | (self.next as u64) << 32);
        for &(root, count) in roots {
            take(root as u64 | (count as u64) << 16);
        }
        for item in &self.items[1..] {
            let Some(item) = item else {
                (0..4).for_each(|_| take(0));
                continue;
            };
            let (left, right, parent, balance) = links(item);
            take(item.key);
            take(
                left as u64
                    | (right as u64) << 16
                    | (parent as u64) << 32
                    | (balance as u64) << 48
                    | (item.tree as u64) << 56,
            );
            take(item.stamp as u64 | (item.start as u64) << 32);
            take(1);
        }
    }
}

impl Drop for World {
    fn drop(&mut self) {
        for &tree in &self.trees {
            drop(unsafe { Box::from_raw(tree) });
        }
    }
}
