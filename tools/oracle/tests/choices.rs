//! What may come next at a cursor: the commands that neither the pool's rules nor the original forbid.
use super::commands::Player;
use super::world::Item;

/// Above every key.
pub const TOP: i128 = 1 << 64;

/// A key strictly between two bounds, if there is one.
pub type Pick<'a> = &'a mut dyn FnMut(i128, i128) -> Option<u64>;

/// The middle.
pub fn middle(low: i128, high: i128) -> Option<u64> {
    // beyond the last key, not half of all numbers
    let high = high.min(low + 9);
    let low = low.max(high - 9);
    (high - low > 1).then(|| ((low + high) / 2).max(low + 1) as u64)
}

/// Op and key of each command that may come next; none without a cursor.
pub fn choices(p: &Player, pick: Pick) -> Vec<(u8, u64)> {
    let (k, kind) = (&p.cursor, p.cursor.kind());
    let mut all = Vec::new();
    if kind == 0 {
        return all;
    }
    all.extend([(12, 0), (13, 0), (14, 0), (15, 0)]);
    let w = &p.world;
    let room = w.live < w.slots && w.used < w.text as u32;
    let mut may = |op: u8, key: Option<u64>| {
        if room {
            all.extend(key.map(|key| (op, key)));
        }
    };
    let key = |item: Option<&Item>, none: i128| item.map_or(none, |x| x.key as i128);
    let (low, high) = (key(k.beside(false), -1), key(k.beside(true), TOP));
    let here = k.record().map(|x| x.key as i128);
    if let Some(at) = here {
        for op in [16, 18] {
            may(op, pick(low, at));
        }
        for op in [17, 19] {
            may(op, pick(at, high));
        }
    }
    may(20, k.vacant_key());
    // in order, and out of order, which the original refuses too
    if kind == 4 {
        may(24, pick(here.unwrap_or(-1), TOP));
        may(24, here.and_then(|at| pick(-1, at + 1)));
    }
    if kind == 3 {
        may(25, pick(-1, here.unwrap_or(TOP)));
        may(25, here.and_then(|at| pick(at - 1, TOP)));
    }
    if here.is_some() {
        all.extend([(21, 0), (22, 0), (23, 0)]);
    }
    all
}
