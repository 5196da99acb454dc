//! The rows with the original Rust tree, with a box for each node. What a node holds besides its
//! key is what a record of ours holds: a stamp and the place and length of a name.

use crate::clock::timed;
use crate::keys::{Keys, Row};
use embed_avl::{AvlItem, AvlNode, AvlTree};
use std::borrow::Borrow;
use std::cell::UnsafeCell;
use std::hint::black_box;

struct Item {
    key: u64,
    stamp: u32,
    start: u32,
    length: u16,
    node: UnsafeCell<AvlNode<()>>,
}

impl Borrow<u64> for Item {
    fn borrow(&self) -> &u64 {
        &self.key
    }
}

// SAFETY: the node is the item's own, in an UnsafeCell, and only the tree asks for it.
unsafe impl AvlItem<()> for Item {
    #[allow(clippy::mut_from_ref)]
    fn get_node(&self) -> &mut AvlNode<()> {
        unsafe { &mut *self.node.get() }
    }
}

embed_avl::impl_ord_with_borrow_unique!(Item, u64);

type Tree = AvlTree<Box<Item>, ()>;

fn item(key: u64, place: usize) -> Box<Item> {
    let node = UnsafeCell::new(AvlNode::default());
    Box::new(Item { key, stamp: place as u32 + 1, start: 8 * place as u32, length: 8, node })
}

fn add_all(tree: &mut Tree, order: &[u64]) {
    for (place, &key) in order.iter().enumerate() {
        assert!(tree.add(item(black_box(key), place)).is_ok());
    }
}

fn append_all(tree: &mut Tree, order: &[u64]) {
    let mut last = tree.last_entry();
    for (place, &key) in order.iter().enumerate() {
        let added = last.append(item(black_box(key), place), |a, b| a.key.cmp(&b.key));
        last = added.ok().expect("a key above the last");
    }
}

fn full(keys: &Keys) -> Tree {
    let mut tree = Tree::new();
    add_all(&mut tree, &keys.added);
    let item = tree.first().expect("a tree with keys");
    black_box((item.stamp, item.start, item.length));
    tree
}

/// The nodes' allocation is within the clock; that they are freed at the end is not.
fn build(order: &[u64], all: fn(&mut Tree, &[u64])) -> f64 {
    let mut tree = Tree::new();
    let (time, ()) = timed(|| all(&mut tree, order));
    assert_eq!(tree.len(), order.len());
    time
}

fn find(keys: &Keys, asked: &[u64], found: usize) -> f64 {
    let tree = full(keys);
    let (time, (count, sum)) = timed(|| {
        let (mut count, mut sum) = (0, 0u64);
        for key in asked {
            if let Some(item) = tree.get(black_box(key)) {
                count += 1;
                sum = sum.wrapping_add(item.key);
            }
        }
        (count, sum)
    });
    assert_eq!(count, found);
    assert_eq!(sum, if found == 0 { 0 } else { keys.sum() });
    time
}

fn walk(keys: &Keys) -> f64 {
    let tree = full(keys);
    let (time, sum) = timed(|| {
        let mut sum = 0u64;
        for item in tree.iter() {
            sum = sum.wrapping_add(black_box(item.key));
        }
        sum
    });
    assert_eq!(sum, keys.sum());
    time
}

/// The boxes that come out are freed within the clock.
fn remove(keys: &Keys) -> f64 {
    let mut tree = full(keys);
    let (time, count) = timed(|| {
        keys.asked.iter().filter(|&key| tree.remove_by_key(black_box(key)).is_some()).count()
    });
    assert_eq!((count, tree.len()), (keys.asked.len(), 0));
    time
}

/// The nanoseconds of one round.
pub fn round(row: Row, keys: &Keys) -> f64 {
    match row {
        Row::Random => build(&keys.added, add_all),
        Row::Ascending => build(&keys.rising, add_all),
        Row::Append => build(&keys.rising, append_all),
        Row::Hit => find(keys, &keys.asked, keys.asked.len()),
        Row::Miss => find(keys, &keys.missing, 0),
        Row::Walk => walk(keys),
        Row::Remove => remove(keys),
    }
}
