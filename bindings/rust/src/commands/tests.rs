//! The bytes of each command; they need no library.

use super::*;

const HANDLE: Handle = Handle { slot: 3, stamp: 4 };
const KEY: u64 = 5;

type Plain = fn(&mut Batch) -> &mut Batch;
type Adding = for<'a> fn(&'a mut Batch, u64, &[u8]) -> &'a mut Batch;

/// The 24 bytes of a batch's one command.
fn bytes(build: impl Fn(&mut Batch) -> &mut Batch) -> Vec<u8> {
    let mut batch = Batch::new();
    assert_eq!(build(&mut batch).len(), 1);
    batch.to_bytes()[16..40].to_vec()
}

/// A command's bytes by its fields; the name, if any, is the first of the names.
fn command(op: u8, tree: u8, slot: u8, stamp: u8, key: u8, name_length: u8) -> Vec<u8> {
    let mut bytes = vec![0; 24];
    bytes[0] = op;
    bytes[1] = tree;
    bytes[2] = slot;
    bytes[4] = stamp;
    bytes[8] = key;
    bytes[20] = name_length;
    bytes
}

#[test]
fn commands_on_a_tree() {
    assert_eq!(bytes(|b| b.add(2, KEY, b"nm")), command(1, 2, 0, 0, 5, 2));
    assert_eq!(bytes(|b| b.get(2, KEY)), command(2, 2, 0, 0, 5, 0));
    assert_eq!(bytes(|b| b.remove_by_key(2, KEY)), command(3, 2, 0, 0, 5, 0));
    assert_eq!(bytes(|b| b.remove(2, HANDLE)), command(4, 2, 3, 4, 0, 0));
    assert_eq!(bytes(|b| b.next(2, HANDLE)), command(5, 2, 3, 4, 0, 0));
    assert_eq!(bytes(|b| b.prev(2, HANDLE)), command(6, 2, 3, 4, 0, 0));
    assert_eq!(bytes(|b| b.first(2)), command(7, 2, 0, 0, 0, 0));
    assert_eq!(bytes(|b| b.last(2)), command(8, 2, 0, 0, 0, 0));
    assert_eq!(bytes(|b| b.entry(2, KEY)), command(9, 2, 0, 0, 5, 0));
    assert_eq!(bytes(|b| b.first_entry(2)), command(10, 2, 0, 0, 0, 0));
    assert_eq!(bytes(|b| b.last_entry(2)), command(11, 2, 0, 0, 0, 0));
}

#[test]
fn commands_that_have_only_an_op() {
    let commands: [(u8, Plain); 11] = [
        (12, Batch::peek_next),
        (13, Batch::peek_prev),
        (14, Batch::move_next),
        (15, Batch::move_prev),
        (21, Batch::remove_here),
        (22, Batch::remove_prev),
        (23, Batch::remove_next),
        (26, Batch::mark),
        (27, Batch::rollback),
        (28, Batch::commit),
        (29, Batch::reset),
    ];
    for (op, build) in commands {
        assert_eq!(bytes(build), command(op, 0, 0, 0, 0, 0));
    }
}

#[test]
fn commands_that_add_at_the_cursor() {
    let commands: [(u8, Adding); 7] = [
        (16, |b, k, n| b.insert_before(k, n)),
        (17, |b, k, n| b.insert_after(k, n)),
        (18, |b, k, n| b.insert_before_move(k, n)),
        (19, |b, k, n| b.insert_after_move(k, n)),
        (20, |b, k, n| b.insert_node(k, n)),
        (24, |b, k, n| b.append(k, n)),
        (25, |b, k, n| b.prepend(k, n)),
    ];
    for (op, build) in commands {
        assert_eq!(bytes(|b| build(b, KEY, b"nam")), command(op, 0, 0, 0, 5, 3));
    }
}
