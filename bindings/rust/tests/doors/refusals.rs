//! Every number returned, and the order of the checks.

use crate::support::{adds, fresh, handle, listing, pool_with, refusals};
use zimatuno::{check, create, name, run_batch, Batch, DoorError, Refusal, SoundPool};

/// The refusals of a batch's commands on a pool.
fn answers_to(pool: &mut [u8], batch: &Batch) -> Vec<Option<Refusal>> {
    refusals(&batch.run(pool).unwrap())
}

/// Tree 1 with the keys 10 and 20, two slots, two trees and a byte of text left.
fn full() -> Vec<u8> {
    let mut pool = fresh(2, 2, 3);
    adds(&[10, 20]).run(&mut pool).unwrap();
    pool
}

#[test]
fn doors_refuse_and_change_nothing() {
    let mut pool = pool_with(4, &[1, 2]);
    let before = pool.clone();
    assert_eq!(create(4, 1, 15, &mut pool), Err(DoorError::BadSize));
    let good = Batch::new().add(1, 3, b"c").to_bytes();
    let mut answers = [7; 24];
    let bad = run_batch(&mut pool, &good[..40], &mut answers[..23]);
    assert_eq!(bad, Err(DoorError::BadBatch));
    assert_eq!(run_batch(&mut pool, &[], &mut answers), Err(DoorError::BadBatch));
    let short = run_batch(&mut pool, &good, &mut answers[..23]);
    assert_eq!(short, Err(DoorError::BadOut));
    assert_eq!(pool, before);
    pool[0] = 2;
    let damaged = run_batch(&mut pool, &good, &mut answers);
    assert_eq!(damaged, Err(DoorError::Damaged));
    assert_eq!(check(&pool), Err(DoorError::Damaged));
    assert_eq!(Batch::new().run(&mut pool), Err(DoorError::Damaged));
    assert_eq!(SoundPool::new(&pool).err(), Some(DoorError::Damaged));
    assert_eq!(name(&pool, 1, handle(1, 1)), None);
    assert_eq!(listing(&pool), ["refused 1"]);
    pool[0] = 1;
    assert_eq!((pool, answers), (before, [7; 24]));
    assert_eq!(check(&[]), Err(DoorError::Damaged));
}

#[test]
fn unknown_ops() {
    let mut pool = pool_with(4, &[1]);
    for (op, code) in [(0, 10), (1, 17), (29, 0), (30, 10), (255, 10)] {
        let mut bytes = Batch::new().add(1, 1, b"a").to_bytes();
        bytes[16] = op;
        let mut answers = [0; 24];
        assert_eq!(run_batch(&mut pool, &bytes, &mut answers), Ok(1));
        assert_eq!(answers[0], code);
    }
}

#[test]
fn trees_and_handles() {
    use Refusal::{BadSlot, BadTree, OtherTree, Stale};
    let mut pool = full();
    for (tree, slot, stamp, refusal) in [
        (0, 0, 0, BadTree),
        (3, 1, 1, BadTree),
        (255, 1, 1, BadTree),
        (1, 0, 1, BadSlot),
        (1, 3, 1, BadSlot),
        (1, 1, 2, Stale),
        (2, 1, 2, Stale),
        (2, 1, 1, OtherTree),
    ] {
        let handle = handle(slot, stamp);
        let mut batch = Batch::new();
        batch.remove(tree, handle).next(tree, handle).prev(tree, handle);
        assert_eq!(answers_to(&mut pool, &batch), [Some(refusal); 3]);
        assert_eq!(name(&pool, tree, handle), None);
        let pool = SoundPool::new(&pool).unwrap();
        assert_eq!(pool.record(tree, handle), None);
    }
}

#[test]
fn searches_that_find_nothing() {
    let mut pool = full();
    let mut batch = Batch::new();
    batch.get(1, 15).remove_by_key(2, 10).first(2).last(2);
    batch.prev(1, handle(1, 1)).next(1, handle(2, 2));
    assert_eq!(answers_to(&mut pool, &batch), [Some(Refusal::None); 6]);
}

#[test]
fn adds_are_checked_in_order() {
    use Refusal::{BadName, BadTree, NoSlot, NoText, Present};
    let mut pool = full();
    let long = [b'x'; 256];
    let mut batch = Batch::new();
    batch.add(3, 10, b"").add(1, 10, b"").add(1, 10, &long);
    batch.add(1, 10, b"c").add(2, 10, b"c").add(1, 15, b"two");
    let full_pool = [BadTree, BadName, BadName, Present, NoSlot, NoSlot].map(Some);
    assert_eq!(answers_to(&mut pool, &batch), full_pool);
    let mut batch = Batch::new();
    batch.remove_by_key(1, 20).add(2, 10, b"cd").add(2, 10, b"c");
    assert_eq!(answers_to(&mut pool, &batch), [None, Some(NoText), None]);
}

#[test]
fn the_last_stamp_is_never_given() {
    let mut pool = pool_with(4, &[1]);
    pool[28..32].copy_from_slice(&(u32::MAX - 1).to_le_bytes());
    let mut batch = Batch::new();
    batch.add(1, 2, b"b").add(1, 3, b"c").remove_by_key(1, 1);
    assert_eq!(answers_to(&mut pool, &batch), [None, Some(Refusal::NoStamp), None]);
    assert_eq!(name(&pool, 1, handle(2, u32::MAX - 1)), Some(&b"b"[..]));
}

#[test]
fn marks() {
    use Refusal::{MarkOpen, NoMark};
    let mut pool = full();
    let mut batch = Batch::new();
    batch.rollback().commit().mark().mark().reset().commit().mark().rollback();
    let expected =
        [Some(NoMark), Some(NoMark), None, Some(MarkOpen), Some(MarkOpen), None, None, None];
    assert_eq!(answers_to(&mut pool, &batch), expected);
}
