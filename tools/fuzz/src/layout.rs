//! What docs/REFERENCE.md says of lengths and places: enough to say which number a door has to
//! return, given what check says of the pool.

pub fn u16_at(bytes: &[u8], at: usize) -> u16 {
    u16::from_le_bytes([bytes[at], bytes[at + 1]])
}

pub fn u32_at(bytes: &[u8], at: usize) -> u32 {
    u32::from(u16_at(bytes, at)) | u32::from(u16_at(bytes, at + 2)) << 16
}

pub fn u64_at(bytes: &[u8], at: usize) -> u64 {
    u64::from(u32_at(bytes, at)) | u64::from(u32_at(bytes, at + 4)) << 32
}

/// The bytes of a pool of these sizes, `None` if a size is out of its limits.
pub fn pool_size(n: u16, t: u16, x: u32) -> Option<usize> {
    let good = (1..=1_024).contains(&n) && (1..=8).contains(&t) && x <= 8_192;
    good.then(|| 32 + 8 * usize::from(t) + 32 * usize::from(n) + x as usize)
}

/// The fresh pool of these sizes, which are within their limits.
pub fn fresh_pool(n: u16, t: u16, x: u32) -> Vec<u8> {
    let records = 32 + 8 * u32::from(t);
    let mut pool = Vec::new();
    for field in [1, n, t, 0] {
        pool.extend_from_slice(&field.to_le_bytes());
    }
    for field in [32, records, records + 32 * u32::from(n), x, 0, 1] {
        pool.extend_from_slice(&field.to_le_bytes());
    }
    pool.resize(records as usize + 32 * usize::from(n) + x as usize, 0);
    pool
}

/// The number of commands of a batch whose header and length are right.
pub fn commands(batch: &[u8]) -> Option<usize> {
    if batch.len() < 16 {
        return None;
    }
    let count = u64::from(u16_at(batch, 2));
    let names = u64::from(u32_at(batch, 12));
    let good = u16_at(batch, 0) == 1
        && count <= 256
        && u32_at(batch, 4) == 16
        && u64::from(u32_at(batch, 8)) == 16 + 24 * count
        && names <= 16_384
        && batch.len() as u64 == 16 + 24 * count + names;
    good.then_some(count as usize)
}

/// The place and length of a name in a sound pool, zeros if the handle is refused.
pub fn name_part(pool: &[u8], tree: u8, slot: u16, stamp: u32) -> (usize, usize) {
    let (n, t) = (u16_at(pool, 2), u16_at(pool, 4));
    if tree == 0 || u16::from(tree) > t || slot == 0 || slot > n {
        return (0, 0);
    }
    let record = u32_at(pool, 12) as usize + 32 * (usize::from(slot) - 1);
    if pool[record + 15] != tree || u32_at(pool, record + 16) != stamp {
        return (0, 0);
    }
    let start = (u32_at(pool, 16) + u32_at(pool, record + 20)) as usize;
    (start, usize::from(u16_at(pool, record + 24)))
}
