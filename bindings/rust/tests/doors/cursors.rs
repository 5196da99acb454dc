//! The cursor: which commands need one, and what they leave.

use crate::support::{fresh, pool_with};
use zimatuno::{Answer, Batch, CursorKind, Refusal};

/// The refusal, the cursor's kind and the key shown, of each answer.
fn rows(answers: &[Answer]) -> Vec<(Option<Refusal>, u8, Option<u64>)> {
    let row = |answer: &Answer| {
        let key = answer.shown().map(|record| record.key);
        (answer.refusal(), answer.cursor.code(), key)
    };
    answers.iter().map(row).collect()
}

#[test]
fn commands_without_a_cursor() {
    let mut pool = pool_with(4, &[1]);
    let mut batch = Batch::new();
    batch.peek_next().peek_prev().move_next().move_prev();
    batch.insert_before(0, b"x").insert_after(2, b"x");
    batch.insert_before_move(0, b"x").insert_after_move(2, b"x");
    batch.insert_node(2, b"x").remove_here().remove_prev().remove_next();
    batch.append(2, b"x").prepend(0, b"x");
    let answers = batch.run(&mut pool).unwrap();
    assert_eq!(rows(&answers), [(Some(Refusal::BadCursor), 0, None); 14]);
}

#[test]
fn a_walk_over_a_tree() {
    let mut pool = pool_with(4, &[20, 10, 30]);
    let mut batch = Batch::new();
    batch.first_entry(1).peek_prev().peek_next().move_next().move_next().move_next().move_next();
    let expected = [
        (None, 3, Some(10)),
        (Some(Refusal::None), 3, None),
        (None, 3, Some(20)),
        (None, 1, Some(20)),
        (None, 1, Some(30)),
        (Some(Refusal::None), 0, None),
        (Some(Refusal::BadCursor), 0, None),
    ];
    assert_eq!(rows(&batch.run(&mut pool).unwrap()), expected);
}

#[test]
fn insertions_beside_the_cursor() {
    let mut pool = fresh(16, 1, 16);
    let mut batch = Batch::new();
    batch.add(1, 10, b"a").add(1, 30, b"b").entry(1, 30);
    batch.insert_before(10, b"c").insert_before(20, b"c").insert_after(40, b"d");
    batch.insert_before_move(25, b"e").insert_after_move(27, b"f").peek_next();
    batch.remove_prev().remove_next().remove_here().peek_next();
    let expected = [
        (None, 0, Some(10)),
        (None, 0, Some(30)),
        (None, 1, Some(30)),
        (Some(Refusal::Order), 1, None),
        (None, 1, Some(20)),
        (None, 1, Some(40)),
        (None, 1, Some(25)),
        (None, 1, Some(27)),
        (None, 1, Some(30)),
        (None, 1, Some(25)),
        (None, 1, Some(30)),
        (None, 0, Some(27)),
        (Some(Refusal::BadCursor), 0, None),
    ];
    assert_eq!(rows(&batch.run(&mut pool).unwrap()), expected);
}

#[test]
fn a_vacant_entry() {
    let mut pool = pool_with(4, &[10, 30]);
    let mut batch = Batch::new();
    batch.entry(1, 20).remove_here().insert_node(21, b"c").insert_node(20, b"c").peek_prev();
    let expected = [
        (None, 2, Some(30)),
        (Some(Refusal::BadCursor), 2, None),
        (Some(Refusal::Order), 2, None),
        (None, 1, Some(20)),
        (None, 1, Some(10)),
    ];
    assert_eq!(rows(&batch.run(&mut pool).unwrap()), expected);
}

#[test]
fn both_ends_of_an_empty_tree() {
    let mut pool = fresh(4, 1, 16);
    let mut batch = Batch::new();
    batch.last_entry(1).append(20, b"a").append(30, b"b").append(40, b"").append(30, b"c");
    batch.first_entry(1).prepend(10, b"c").prepend(10, b"d").entry(1, 10).get(1, 10);
    let expected = [
        (None, 4, None),
        (None, 4, Some(20)),
        (None, 4, Some(30)),
        (Some(Refusal::BadName), 4, None),
        (Some(Refusal::Order), 0, None),
        (None, 3, Some(20)),
        (None, 3, Some(10)),
        (Some(Refusal::Order), 0, None),
        (None, 1, Some(10)),
        (None, 0, Some(10)),
    ];
    let answers = batch.run(&mut pool).unwrap();
    assert_eq!(rows(&answers), expected);
    assert_eq!(answers[0].cursor, CursorKind::Last);
}
