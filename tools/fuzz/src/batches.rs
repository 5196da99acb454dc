//! Batches for a step: commands that a pool is likely to carry out, and wrong ones.

use crate::layout::{commands, u16_at, u32_at, u64_at};
use crate::random::Random;

/// A record that an answer has shown.
#[derive(Clone, Copy)]
struct Shown {
    tree: u8,
    slot: u16,
    stamp: u32,
    key: u64,
}

/// What a step remembers, for plausible commands.
pub struct Memory {
    shown: Vec<Shown>,
    /// Tree, op and key of the latest command.
    tree: u8,
    op: u8,
    key: u64,
    /// How many keys the trees' own ops choose from.
    range: usize,
}

impl Memory {
    pub fn new(random: &mut Random) -> Memory {
        Memory { shown: Vec::new(), tree: 1, op: 0, key: 0, range: random.pick(&[10, 60, 2_000]) }
    }

    /// Keeps what the answers of a done batch show, the latest 64 records.
    pub fn keep(&mut self, commands: &[u8], answers: &[u8]) {
        for (answer, command) in answers.chunks_exact(24).zip(commands.chunks_exact(24)) {
            let (slot, stamp) = (u16_at(answer, 2), u32_at(answer, 4));
            if slot != 0 {
                self.shown.push(Shown { tree: command[1], slot, stamp, key: u64_at(answer, 8) });
            }
        }
        let surplus = self.shown.len().saturating_sub(64);
        self.shown.drain(..surplus);
    }

    /// A tree, a slot and a stamp: mostly those of a record shown before, or close to them.
    pub fn handle(&self, random: &mut Random) -> (u8, u16, u32) {
        if self.shown.is_empty() || random.chance(10) {
            let slot = random.below(34) as u16;
            let slot = random.pick(&[slot, slot, 0, 1_024, 1_025, u16::MAX]);
            let stamp = random.next() as u32;
            return (random.below(10) as u8, slot, random.pick(&[stamp, stamp % 40]));
        }
        let Shown { tree, slot, stamp, .. } = random.pick(&self.shown);
        match random.below(20) {
            0 => (tree, slot, stamp.wrapping_add(1)),
            1 => (tree, slot + 1, stamp),
            2 => (random.byte(), slot, stamp),
            3 => (tree ^ 1, slot, stamp),
            _ => (tree, slot, stamp),
        }
    }
}

/// A batch: four in five are well formed.
pub fn batch(memory: &mut Memory, random: &mut Random) -> Vec<u8> {
    let count = match random.below(40) {
        0 => random.pick(&[0, 1, 255, 256, 257]),
        1..=6 => random.between(20, 120),
        _ => random.between(0, 20),
    };
    let names = match random.below(40) {
        0 => random.pick(&[0, 1, 255, 16_383, 16_384, 16_385]),
        1 => random.between(256, 4_000),
        _ => random.between(1, 300),
    };
    let mut bytes = well_formed(count, names, memory, random);
    match random.below(25) {
        0 => bytes = random_bytes(random),
        1 => bytes.truncate(random.between(0, bytes.len())),
        2 => bytes.extend(random.bytes(1)),
        3 => bytes[random.below(16)] = random.byte(),
        4 => {
            let place = random.pick(&[0, 2, 4, 8, 12]);
            let by: u8 = random.pick(&[1, 24, 255]);
            bytes[place] = bytes[place].wrapping_add(by);
        }
        _ => (),
    }
    bytes
}

/// A length for the answers: mostly exact or longer, sometimes one byte or more short.
pub fn answers_length(batch: &[u8], random: &mut Random) -> usize {
    let count = commands(batch).unwrap_or_else(|| random.below(20));
    match random.below(20) {
        0 => (24 * count).saturating_sub(1),
        1 => random.between(0, 24 * count),
        2..=7 => 24 * count + random.between(1, 60),
        _ => 24 * count,
    }
}

fn random_bytes(random: &mut Random) -> Vec<u8> {
    let length = random.between(0, 400);
    let mut bytes = random.bytes(length);
    if random.chance(50) && length >= 8 {
        bytes[..8].copy_from_slice(&[1, 0, random.below(5) as u8, 0, 16, 0, 0, 0]);
    }
    bytes
}

fn well_formed(count: usize, names: usize, memory: &mut Memory, random: &mut Random) -> Vec<u8> {
    let mut bytes = vec![1, 0];
    bytes.extend_from_slice(&(count as u16).to_le_bytes());
    for field in [16, 16 + 24 * count, names] {
        bytes.extend_from_slice(&(field as u32).to_le_bytes());
    }
    let adding = random.pick(&[20, 40, 80]);
    for _ in 0..count {
        if random.chance(3) {
            bytes.extend(random.bytes(24));
        } else {
            command(adding, names, memory, random, &mut bytes);
        }
    }
    bytes.extend(random.bytes(names));
    bytes
}

/// Writes a command; `adding` percent are adds where no cursor is worked with.
fn command(
    adding: usize,
    names: usize,
    memory: &mut Memory,
    random: &mut Random,
    to: &mut Vec<u8>,
) {
    let with_cursor = (9..=25).contains(&memory.op) && random.chance(75);
    let op = match with_cursor {
        true => random.between(12, 25) as u8,
        false if random.chance(adding) => 1,
        false => op(random),
    };
    let (tree, slot, stamp) = memory.handle(random);
    let key = key(op, memory, random);
    if (4..=6).contains(&op) {
        memory.tree = tree;
    } else if op < 12 && random.chance(30) {
        memory.tree = if random.chance(5) { random.byte() } else { random.between(1, 3) as u8 };
    }
    memory.op = op;
    memory.key = key;
    let (start, length) = name(names, random);
    to.extend_from_slice(&[op, memory.tree]);
    to.extend_from_slice(&slot.to_le_bytes());
    to.extend_from_slice(&stamp.to_le_bytes());
    to.extend_from_slice(&key.to_le_bytes());
    to.extend_from_slice(&start.to_le_bytes());
    to.extend_from_slice(&length.to_le_bytes());
    to.extend(random.bytes(2));
}

/// An op for a command that does not follow a cursor.
fn op(random: &mut Random) -> u8 {
    match random.below(100) {
        0..=44 => random.between(2, 8) as u8,
        45..=79 => random.between(9, 11) as u8,
        80..=84 => random.between(12, 25) as u8,
        85..=95 => random.between(26, 28) as u8,
        96 => 29,
        97 => random.pick(&[0, 30, 255]),
        _ => random.byte(),
    }
}

/// A key: spread for the trees' own ops or one shown before, beside the latest for the cursor's.
fn key(op: u8, memory: &mut Memory, random: &mut Random) -> u64 {
    match (op, random.below(20)) {
        (_, 0) => random.pick(&[0, 1, u64::MAX, u64::MAX - 1, 1 << 32, 1 << 63]),
        (1, 1) => random.next(),
        (2 | 3 | 9, 2..=13) if !memory.shown.is_empty() => {
            let shown = random.pick(&memory.shown);
            memory.tree = shown.tree;
            shown.key
        }
        (16 | 18, 2..=14) => memory.key.wrapping_sub(1),
        (17 | 19, 2..=14) => memory.key.wrapping_add(1),
        (20, 2..=17) => memory.key,
        (24, 2..=17) => 20_000 + random.below(9_000) as u64,
        (25, 2..=17) => random.below(100) as u64,
        _ => 100 + 8 * random.below(memory.range) as u64,
    }
}

/// The place and length of a name: inside, up to the end, or outside of the names.
fn name(names: usize, random: &mut Random) -> (u32, u16) {
    let length = match random.below(30) {
        0 => random.pick(&[0, 1, 255, 256, u16::MAX]),
        1 => random.between(0, 300) as u16,
        _ => random.between(1, 8) as u16,
    };
    let latest = names.saturating_sub(usize::from(length)) as u32;
    let start = match random.below(30) {
        0 => random.pick(&[latest + 1, names as u32, u32::MAX, 1 << 31]),
        1..=4 => latest,
        _ => random.between(0, latest as usize) as u32,
    };
    (start, length)
}
