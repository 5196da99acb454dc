//! Listings of a pool whose bytes are written out here; they need no library.

use super::*;

/// A sound pool of 9 slots and 3 trees, of which the second is empty.
fn pool() -> Vec<u8> {
    let mut bytes = Vec::new();
    for number in [1u16, 9, 3, 6] {
        bytes.extend_from_slice(&number.to_le_bytes());
    }
    for number in [32u32, 56, 344, 24, 22, 9] {
        bytes.extend_from_slice(&number.to_le_bytes());
    }
    bytes.extend_from_slice(&[5, 0, 5, 0, 0, 0, 0, 0]);
    bytes.extend_from_slice(&[0; 8]);
    bytes.extend_from_slice(&[7, 0, 1, 0, 0, 0, 0, 0]);
    for slot in [
        [9, 0, 0, 3, 0, 1, 8, 21, 1],
        [2, 4, 0, 5, 2, 1, 2, 4, 3],
        [5, 0, 1, 5, 1, 1, 3, 7, 4],
        [1, 0, 0, 2, 0, 1, 4, 11, 3],
        [3, 2, 3, 0, 0, 1, 5, 14, 5],
        [0; 9],
        [0, 0, 0, 0, 0, 3, 7, 20, 1],
        [0; 9],
        [0; 9],
    ] {
        bytes.extend_from_slice(&record(slot));
    }
    bytes.extend_from_slice(b"fourtwofiveonethreezyx\0\0");
    bytes
}

/// A record by key, left, right, parent, balance, tree, stamp, name start, name length.
fn record(fields: [u8; 9]) -> [u8; 32] {
    let mut bytes = [0; 32];
    for (place, field) in [0, 8, 10, 12, 14, 15, 16, 20, 24].into_iter().zip(fields) {
        bytes[place] = field;
    }
    bytes
}

fn row(record: Record<'_>) -> (u8, u64, u16, u32, u16, u8, &str) {
    let Handle { slot, stamp } = record.handle;
    let name = std::str::from_utf8(record.name).unwrap();
    (record.tree, record.key, slot, stamp, record.parent, record.balance, name)
}

#[test]
fn all_records_by_tree_and_key() {
    let bytes = pool();
    let pool = SoundPool { bytes: &bytes };
    let rows: Vec<_> = pool.records().map(row).collect();
    let expected = [
        (1, 1, 4, 4, 2, 0, "one"),
        (1, 2, 2, 2, 5, 2, "two"),
        (1, 3, 5, 5, 0, 0, "three"),
        (1, 5, 3, 3, 5, 1, "five"),
        (1, 9, 1, 8, 3, 0, "x"),
        (3, 0, 7, 7, 0, 0, "y"),
    ];
    assert_eq!(rows, expected);
    assert_eq!(pool.records().len(), 6);
    assert_eq!(pool.records().skip(2).len(), 4);
}

#[test]
fn the_records_of_one_tree() {
    let bytes = pool();
    let pool = SoundPool { bytes: &bytes };
    let keys = |tree| pool.records_of(tree).map(|r| r.key).collect::<Vec<_>>();
    assert_eq!(keys(1), [1, 2, 3, 5, 9]);
    assert_eq!(keys(3), [0]);
    for tree in [0, 2, 4, 255] {
        assert_eq!((keys(tree), pool.count(tree), pool.root(tree)), (vec![], 0, 0));
    }
    assert_eq!((pool.records_of(1).len(), pool.count(1), pool.root(1)), (5, 5, 5));
}

#[test]
fn header_and_handles() {
    let bytes = pool();
    let pool = SoundPool { bytes: &bytes };
    assert_eq!((pool.slots(), pool.trees(), pool.live()), (9, 3, 6));
    assert_eq!((pool.text_size(), pool.text_used(), pool.next_stamp()), (24, 22, 9));
    let find = |tree, slot, stamp| pool.record(tree, Handle { slot, stamp }).map(|r| r.name);
    assert_eq!(find(1, 5, 5), Some(&b"three"[..]));
    assert_eq!(find(3, 7, 7), Some(&b"y"[..]));
    for (tree, slot, stamp) in [
        (1, 5, 4), // another stamp
        (2, 5, 5), // another tree
        (0, 6, 0), // a free slot
        (1, 6, 6),
        (1, 0, 1), // no such slot
        (1, 10, 1),
    ] {
        assert_eq!(find(tree, slot, stamp), None);
    }
}
