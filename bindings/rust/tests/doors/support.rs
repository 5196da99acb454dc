//! What the tests share: pools, adds, listings and shapes as text.

use zimatuno::{create, pool_size, Answer, Batch, Handle, Record, Refusal, SoundPool};

pub fn fresh(slots: u16, trees: u16, text: u32) -> Vec<u8> {
    let mut pool = vec![0; pool_size(slots, trees, text).unwrap()];
    create(slots, trees, text, &mut pool).unwrap();
    pool
}

/// Adds to tree 1, with the names a, b, c and so on.
pub fn adds(keys: &[u64]) -> Batch {
    let mut batch = Batch::new();
    for (&key, name) in keys.iter().zip(b'a'..=b'z') {
        batch.add(1, key, &[name]);
    }
    batch
}

/// A pool of one tree with these keys, added in this order.
pub fn pool_with(slots: u16, keys: &[u64]) -> Vec<u8> {
    let mut pool = fresh(slots, 1, 16);
    let answers = adds(keys).run(&mut pool).unwrap();
    assert!(answers.iter().all(|answer| answer.result.is_ok()));
    pool
}

pub fn handle(slot: u16, stamp: u32) -> Handle {
    Handle { slot, stamp }
}

/// The refusals, `None` for a command that was done.
pub fn refusals(answers: &[Answer]) -> Vec<Option<Refusal>> {
    answers.iter().map(Answer::refusal).collect()
}

/// The lines that the listing program prints for a pool.
pub fn listing(pool: &[u8]) -> Vec<String> {
    let pool = match SoundPool::new(pool) {
        Ok(pool) => pool,
        Err(error) => return vec![format!("refused {}", error.code())],
    };
    let mut lines = vec![format!(
        "pool {} {} {} {} {}",
        pool.slots(),
        pool.trees(),
        pool.live(),
        pool.text_used(),
        pool.next_stamp()
    )];
    assert_eq!(pool.records().len(), pool.records().count());
    lines.extend(pool.records().map(line));
    lines
}

fn line(record: Record<'_>) -> String {
    let Handle { slot, stamp } = record.handle;
    let (tree, key, parent, balance) = (record.tree, record.key, record.parent, record.balance);
    format!("{tree} {key} {slot} {stamp} {parent} {balance} {}", hex(record.name))
}

pub fn hex(bytes: &[u8]) -> String {
    bytes.iter().map(|byte| format!("{byte:02x}")).collect()
}

/// The shape of tree 1: a record is key(balance), and its children follow in brackets if it
/// has any, "-" for a missing one.
pub fn shape(pool: &[u8]) -> String {
    let records: Vec<_> = SoundPool::new(pool).unwrap().records_of(1).collect();
    below(&records, 0)
}

/// The shape from a child of that slot on, among these records.
fn below(records: &[Record<'_>], parent: u16) -> String {
    let top = match records.iter().position(|record| record.parent == parent) {
        Some(top) => top,
        None => return "-".to_string(),
    };
    let Record { key, balance, handle, .. } = records[top];
    let left = below(&records[..top], handle.slot);
    let right = below(&records[top + 1..], handle.slot);
    match (left.as_str(), right.as_str()) {
        ("-", "-") => format!("{key}({balance})"),
        _ => format!("{key}({balance})[{left} {right}]"),
    }
}
