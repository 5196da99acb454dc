//! Kept handles: after removals, rollbacks and resets.

use crate::support::{adds, fresh, handle, listing, pool_with, refusals};
use zimatuno::{name, Batch, Handle, Refusal, SoundPool};

/// Whether every way to use the handle in tree 1 is refused as stale.
fn is_stale(pool: &mut [u8], handle: Handle) -> bool {
    let mut batch = Batch::new();
    batch.next(1, handle).prev(1, handle).remove(1, handle);
    let answers = batch.run(pool).unwrap();
    let sound = SoundPool::new(pool).unwrap();
    refusals(&answers) == [Some(Refusal::Stale); 3]
        && name(pool, 1, handle).is_none()
        && sound.record(1, handle).is_none()
}

#[test]
fn after_a_reset() {
    let mut pool = pool_with(4, &[10, 20, 30]);
    let answers = Batch::new().reset().run(&mut pool).unwrap();
    assert_eq!(answers[0].result, Ok(None));
    assert_eq!(listing(&pool), ["pool 4 1 0 0 4"]);
    for old in 1..=3 {
        assert!(is_stale(&mut pool, handle(old, old.into())));
    }
    // The slots are taken again, with the same keys; the old handles stay dead.
    adds(&[10, 20, 30]).run(&mut pool).unwrap();
    for old in 1..=3 {
        assert!(is_stale(&mut pool, handle(old, old.into())));
        assert!(name(&pool, 1, handle(old, u32::from(old) + 3)).is_some());
    }
}

#[test]
fn after_a_rollback() {
    let mut pool = pool_with(6, &[10, 20]);
    let before = listing(&pool);
    let mut batch = Batch::new();
    batch.mark().add(1, 30, b"c").remove(1, handle(1, 1)).add(1, 40, b"d").rollback();
    let answers = batch.run(&mut pool).unwrap();
    let (added, reused) = (answers[1].handle().unwrap(), answers[3].handle().unwrap());
    assert_eq!((added, reused), (handle(3, 3), handle(1, 4)));
    assert!(is_stale(&mut pool, added) && is_stale(&mut pool, reused));
    assert_eq!(name(&pool, 1, handle(1, 1)), Some(&b"a"[..]));
    assert_eq!(name(&pool, 1, handle(2, 2)), Some(&b"b"[..]));
    // Records, names and text are those before the mark; the next stamp is not.
    let after = listing(&pool);
    assert_eq!((before[0].as_str(), after[0].as_str()), ("pool 6 1 2 2 3", "pool 6 1 2 2 5"));
    // The next record in that slot has another stamp.
    let answers = Batch::new().add(1, 30, b"e").run(&mut pool).unwrap();
    assert_eq!(answers[0].handle(), Some(handle(3, 5)));
    assert!(is_stale(&mut pool, added));
}

#[test]
fn a_mark_left_open_is_rolled_back() {
    let mut pool = pool_with(4, &[10]);
    let mut batch = Batch::new();
    batch.mark().add(1, 20, b"b").remove(1, handle(1, 1));
    let answers = batch.run(&mut pool).unwrap();
    assert_eq!(refusals(&answers), [None; 3]);
    assert_eq!(answers[1].handle(), Some(handle(2, 2)));
    assert!(is_stale(&mut pool, handle(2, 2)));
    assert_eq!(listing(&pool), ["pool 4 1 1 1 3", "1 10 1 1 0 0 61"]);
}

#[test]
fn a_commit_keeps_the_changes() {
    let mut pool = pool_with(4, &[10]);
    let mut batch = Batch::new();
    batch.mark().add(1, 20, b"b").remove(1, handle(1, 1)).commit();
    assert_eq!(refusals(&batch.run(&mut pool).unwrap()), [None; 4]);
    assert_eq!(name(&pool, 1, handle(2, 2)), Some(&b"b"[..]));
    assert!(is_stale(&mut pool, handle(1, 1)));
}

#[test]
fn changes_under_a_mark_are_undone_one_by_one() {
    let mut pool = pool_with(4, &[11, 4]);
    let mut batch = Batch::new();
    batch.mark().add(1, 20, b"c").remove_by_key(1, 20).add(1, 9, b"d").rollback();
    batch.run(&mut pool).unwrap();
    assert_eq!(crate::support::shape(&pool), "11(2)[4(0) -]");
}

#[test]
fn a_name_is_a_part_of_the_pool() {
    let mut pool = fresh(2, 1, 8);
    Batch::new().add(1, 7, b"column").run(&mut pool).unwrap();
    let found = name(&pool, 1, handle(1, 1)).unwrap();
    assert_eq!(found.as_ptr(), pool[104..].as_ptr());
    assert_eq!(found, b"column");
}
