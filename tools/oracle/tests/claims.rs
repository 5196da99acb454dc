//! What docs/DIFFERENCES.md says of the original and no sequence shows, since our library refuses it. Each
//! is run on the original; one that is not so ends the program.
use super::world::{Tree, World, entry_of};

fn add(w: &mut World, tree: u8, keys: &[u64]) {
    for &key in keys {
        let item = w.fresh(tree, key).unwrap();
        assert!(w.tree(tree).add(item.clone()).is_ok());
        w.keep(&item);
    }
}

/// Hangs a record behind the one with key `at`, which the original does not compare with it.
fn hang_behind(w: &mut World, at: u64, key: u64) {
    let item = w.fresh(1, key).unwrap();
    let mut entry = w.tree(1).entry(at).unwrap_occupied();
    unsafe { entry.insert_next_unchecked(item.clone()) };
    w.keep(&item);
}

fn walk(tree: &Tree) -> Vec<u64> {
    tree.iter().map(|x| x.key).collect()
}

pub fn check() {
    // `validate` lets two records with one key pass
    let mut w = World::new(4, 2, 4);
    add(&mut w, 1, &[5]);
    hang_behind(&mut w, 5, 5);
    w.tree(1).validate();
    assert_eq!(walk(w.tree(1)), [5, 5]);

    // and a record deep in a left subtree that is above the root
    let mut w = World::new(4, 2, 4);
    add(&mut w, 1, &[10, 5, 30]);
    hang_behind(&mut w, 5, 20);
    w.tree(1).validate();
    assert_eq!(walk(w.tree(1)), [5, 20, 10, 30]);

    // `remove` takes a record with a parent out of another tree, and the wrong count falls
    let mut w = World::new(4, 2, 4);
    add(&mut w, 1, &[2, 1, 3]);
    add(&mut w, 2, &[7]);
    w.tree(2).remove(&w.items[2].clone().unwrap());
    assert_eq!(walk(w.tree(1)), [2, 3]);
    assert_eq!(entry_of(w.tree(1)), (1, 3));
    assert_eq!(entry_of(w.tree(2)), (4, 0));
}
