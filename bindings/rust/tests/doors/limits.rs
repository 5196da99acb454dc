//! The limits of sizes, names and batches.

use crate::support::{adds, fresh, handle, refusals};
use zimatuno::{check, create, name, Batch, DoorError, Refusal, SoundPool};
use zimatuno::{MAX_COMMANDS, MAX_NAMES};

#[test]
fn slots() {
    let mut buffer = vec![0; 41_056];
    assert_eq!(create(1_024, 8, 8_192, &mut buffer), Ok(()));
    assert_eq!(check(&buffer), Ok(()));
    let mut buffer = vec![0; 41_088];
    assert_eq!(create(1_025, 8, 8_192, &mut buffer), Err(DoorError::BadSize));
    assert!(buffer.iter().all(|&byte| byte == 0));
}

#[test]
fn names_of_255_and_256_bytes() {
    let mut pool = fresh(4, 1, 600);
    let long = [b'x'; 256];
    let mut batch = Batch::new();
    batch.add(1, 1, &long[..255]).add(1, 2, &long).add(1, 2, &[b'x'; 70_000]).add(1, 2, b"");
    let expected = [None].into_iter().chain([Some(Refusal::BadName); 3]);
    assert_eq!(refusals(&batch.run(&mut pool).unwrap()), expected.collect::<Vec<_>>());
    assert_eq!(name(&pool, 1, handle(1, 1)), Some(&long[..255]));
}

#[test]
fn batches_of_256_and_257_commands() {
    let mut pool = fresh(300, 1, 300);
    let mut batch = Batch::new();
    for key in 0..MAX_COMMANDS as u64 {
        batch.add(1, key, b"n");
    }
    let answers = batch.run(&mut pool).unwrap();
    assert!(answers.len() == 256 && answers.iter().all(|answer| answer.result.is_ok()));
    let before = pool.clone();
    batch.get(1, 0);
    assert_eq!(batch.run(&mut pool), Err(DoorError::BadBatch));
    assert_eq!(pool, before);
    let pool = SoundPool::new(&pool).unwrap();
    assert!(pool.records().map(|record| record.key).eq(0..256));
}

#[test]
fn names_of_a_batch() {
    let mut pool = fresh(4, 1, 16);
    let mut batch = Batch::new();
    for _ in 0..MAX_NAMES / 128 {
        batch.add(2, 1, &[b'x'; 128]);
    }
    assert_eq!(batch.names_len(), MAX_NAMES);
    let answers = batch.run(&mut pool).unwrap();
    assert_eq!(refusals(&answers), [Some(Refusal::BadTree); 128]);
    batch.add(1, 1, b"x");
    assert_eq!(batch.run(&mut pool), Err(DoorError::BadBatch));
}

#[test]
fn a_full_pool_and_then_one_freed_slot() {
    let mut pool = fresh(3, 1, 16);
    let mut batch = adds(&[1, 2, 3]);
    batch.add(1, 4, b"d").remove_by_key(1, 2).add(1, 4, b"d");
    let answers = batch.run(&mut pool).unwrap();
    assert_eq!(answers[3].refusal(), Some(Refusal::NoSlot));
    assert_eq!(answers[5].handle(), Some(handle(2, 4)));
}

#[test]
fn no_text_refuses_every_well_formed_add() {
    let mut pool = fresh(4, 1, 0);
    let mut batch = adds(&[1]);
    batch.entry(1, 1).insert_node(1, b"a").last_entry(1).append(1, b"a");
    batch.first_entry(1).prepend(1, b"a");
    let no = Some(Refusal::NoText);
    let answers = batch.run(&mut pool).unwrap();
    assert_eq!(refusals(&answers), [no, None, no, None, no, None, no]);
}
