//! Pools for a step: random bytes, fresh pools, and damage done to any of them.

use crate::layout::pool_size;
use crate::random::Random;

/// Sizes for create: mostly small and good, sometimes at or beyond a limit.
pub fn sizes(random: &mut Random) -> (u16, u16, u32) {
    let n = match random.below(20) {
        0 => random.pick(&[0, 1, 1_024, 1_025, u16::MAX]),
        1 => random.between(1, 1_024) as u16,
        2..=5 => random.between(30, 120) as u16,
        _ => random.between(1, 30) as u16,
    };
    let t = match random.below(20) {
        0 => random.pick(&[0, 8, 9, 255, 256, u16::MAX]),
        _ => random.between(1, 8) as u16,
    };
    let x = match random.below(20) {
        0 => random.pick(&[0, 1, 8_192, 8_193, 1 << 31, u32::MAX]),
        1 => random.between(0, 8_192) as u32,
        _ => random.between(0, 40 * usize::from(n.min(120))) as u32,
    };
    (n, t, x)
}

/// A buffer for create: random bytes, mostly of the right length.
pub fn buffer(n: u16, t: u16, x: u32, random: &mut Random) -> Vec<u8> {
    let right = pool_size(n, t, x).unwrap_or_else(|| random.below(300));
    let length = match random.below(10) {
        0 => random.pick(&[0, right.saturating_sub(1), right + 1, right + 8, right / 2]),
        _ => right,
    };
    random.bytes(length)
}

/// Random bytes, sometimes behind a header that is almost right.
pub fn random_bytes(random: &mut Random) -> Vec<u8> {
    let length = match random.below(8) {
        0 => random.below(34),
        1 => random.between(0, 42_000),
        _ => random.between(0, 600),
    };
    let mut pool = random.bytes(length);
    if random.chance(60) && length >= 72 {
        let t = random.between(1, ((length - 64) / 8).min(8));
        let n = random.between(1, ((length - 32 - 8 * t) / 32).min(1_024));
        let text = 32 + 8 * t + 32 * n;
        let x = length - text;
        for (place, field) in [(8, 32), (12, 32 + 8 * t), (16, text), (20, x), (24, x)] {
            pool[place..place + 4].copy_from_slice(&(field as u32).to_le_bytes());
        }
        for (place, field) in [(0, 1), (2, n), (4, t), (6, random.between(0, n))] {
            pool[place..place + 2].copy_from_slice(&(field as u16).to_le_bytes());
        }
    }
    pool
}

/// Damages a pool. What comes out may still be sound.
pub fn damage(pool: &mut Vec<u8>, random: &mut Random) {
    match random.below(12) {
        0 => pool.truncate(random.between(0, pool.len())),
        1 => pool.truncate(pool.len().saturating_sub(random.between(1, 33))),
        2 => {
            let more = random.between(1, 40);
            let filled = random.chance(50);
            let value = if filled { random.byte() } else { 0 };
            pool.resize(pool.len() + more, value);
        }
        3 if pool.len() >= 32 => {
            let stamp: u32 = random.pick(&[0, 1, 2, u32::MAX - 2, u32::MAX - 1, u32::MAX]);
            pool[28..32].copy_from_slice(&stamp.to_le_bytes());
        }
        4 => copy_record(pool, random),
        _ => {
            for _ in 0..random.between(1, 3) {
                change_byte(pool, random);
            }
        }
    }
}

/// Changes one byte: to a random or a small number, by 1, or in one bit.
fn change_byte(pool: &mut [u8], random: &mut Random) {
    if pool.is_empty() {
        return;
    }
    let place = match random.below(4) {
        0 => random.below(pool.len().min(96)),
        _ => random.below(pool.len()),
    };
    pool[place] = match random.below(5) {
        0 => random.byte(),
        1 => random.below(9) as u8,
        2 => pool[place].wrapping_add(1),
        3 => pool[place].wrapping_sub(1),
        _ => pool[place] ^ 1 << random.below(8),
    };
}

/// Writes 1 to 32 bytes of the pool over others at the same place of another record.
fn copy_record(pool: &mut [u8], random: &mut Random) {
    let records = pool.len() / 32;
    if records < 2 {
        return;
    }
    let (from, to) = (random.below(records - 1), random.below(records - 1));
    let offset = random.below(32);
    let length = random.between(1, 32);
    let part = pool[32 * from + offset..][..length.min(32)].to_vec();
    let end = (32 * to + offset + part.len()).min(pool.len());
    let start = end - part.len();
    pool[start..end].copy_from_slice(&part);
}
