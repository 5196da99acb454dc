//! The batches of a row, encoded before the clock starts, and the answers that they have to get.

use crate::keys::{Keys, Row};

pub const MAX_COMMANDS: usize = 256;
pub const ANSWER_SIZE: usize = 24;
const NAME_LENGTH: usize = 8;

const ADD: u8 = 1;
const GET: u8 = 2;
const REMOVE_BY_KEY: u8 = 3;
const ENTRY: u8 = 9;
const FIRST_ENTRY: u8 = 10;
const LAST_ENTRY: u8 = 11;
const MOVE_NEXT: u8 = 14;
const APPEND: u8 = 24;

pub const DONE: u8 = 0;
const NONE: u8 = 19;

pub struct Batch {
    pub bytes: Vec<u8>,
    /// For each command its code and the key shown.
    pub expected: Vec<(u8, u64)>,
}

impl Batch {
    pub fn new() -> Batch {
        Batch { bytes: vec![1, 0, 0, 0, 16, 0, 0, 0, 0, 0, 0, 0, 0, 0, 0, 0], expected: Vec::new() }
    }

    /// One more command on tree 1. The name field is filled for every op; only adding ones read it.
    fn push(&mut self, op: u8, key: u64, code: u8, shown: u64) {
        let offset = (NAME_LENGTH * self.expected.len()) as u32;
        self.bytes.extend([op, 1, 0, 0, 0, 0, 0, 0]);
        self.bytes.extend(key.to_le_bytes());
        self.bytes.extend(offset.to_le_bytes());
        self.bytes.extend([NAME_LENGTH as u8, 0, 0, 0]);
        self.expected.push((code, shown));
    }

    /// Completes the header and puts a name for each command, the bytes of its key, behind them.
    fn close(mut self) -> Batch {
        let (count, names_at) = (self.expected.len(), self.bytes.len());
        assert!(count <= MAX_COMMANDS);
        self.bytes[2..4].copy_from_slice(&(count as u16).to_le_bytes());
        self.bytes[8..12].copy_from_slice(&(names_at as u32).to_le_bytes());
        self.bytes[12..16].copy_from_slice(&((NAME_LENGTH * count) as u32).to_le_bytes());
        for i in 0..count {
            let key = 16 + 24 * i + 8;
            self.bytes.extend_from_within(key..key + NAME_LENGTH);
        }
        self
    }
}

/// Full batches of one op, each with a key; the op shows the key, unless it finds none.
fn each(op: u8, keys: &[u64], code: u8) -> Vec<Batch> {
    keys.chunks(MAX_COMMANDS)
        .map(|part| {
            let mut batch = Batch::new();
            for &key in part {
                batch.push(op, key, code, if code == DONE { key } else { 0 });
            }
            batch.close()
        })
        .collect()
}

/// A cursor lives no longer than its batch, so each batch begins with the last entry and has 255
/// appends behind it.
fn appends(rising: &[u64]) -> Vec<Batch> {
    let mut last = 0;
    rising
        .chunks(MAX_COMMANDS - 1)
        .map(|part| {
            let mut batch = Batch::new();
            batch.push(LAST_ENTRY, 0, DONE, last);
            part.iter().for_each(|&key| batch.push(APPEND, key, DONE, key));
            last = part[part.len() - 1];
            batch.close()
        })
        .collect()
}

/// Each batch but the first begins with the entry of the key reached, and has 255 moves behind it.
fn moves(rising: &[u64]) -> Vec<Batch> {
    let mut reached = rising[0];
    rising[1..]
        .chunks(MAX_COMMANDS - 1)
        .enumerate()
        .map(|(i, part)| {
            let mut batch = Batch::new();
            batch.push(if i == 0 { FIRST_ENTRY } else { ENTRY }, reached, DONE, reached);
            part.iter().for_each(|&key| batch.push(MOVE_NEXT, 0, DONE, key));
            reached = part[part.len() - 1];
            batch.close()
        })
        .collect()
}

pub fn adds(keys: &[u64]) -> Vec<Batch> {
    each(ADD, keys, DONE)
}

pub fn gets(keys: &[u64]) -> Vec<Batch> {
    each(GET, keys, DONE)
}

pub fn of_row(row: Row, keys: &Keys) -> Vec<Batch> {
    match row {
        Row::Random => adds(&keys.added),
        Row::Ascending => adds(&keys.rising),
        Row::Append => appends(&keys.rising),
        Row::Hit => gets(&keys.asked),
        Row::Miss => each(GET, &keys.missing, NONE),
        Row::Walk => moves(&keys.rising),
        Row::Remove => each(REMOVE_BY_KEY, &keys.asked, DONE),
    }
}
