//! The rows with std's BTreeMap. What belongs to a key is what a record of ours holds: a stamp and
//! the place and length of a name.

use crate::clock::timed;
use crate::keys::{Keys, Row};
use std::collections::BTreeMap;
use std::hint::black_box;

struct Payload {
    stamp: u32,
    start: u32,
    length: u16,
}

type Map = BTreeMap<u64, Payload>;

fn payload(place: usize) -> Payload {
    Payload { stamp: place as u32 + 1, start: 8 * place as u32, length: 8 }
}

fn add_all(map: &mut Map, order: &[u64]) {
    for (place, &key) in order.iter().enumerate() {
        map.insert(black_box(key), payload(place));
    }
}

fn full(keys: &Keys) -> Map {
    let mut map = Map::new();
    add_all(&mut map, &keys.added);
    let payload = map.values().next().expect("a map with keys");
    black_box((payload.stamp, payload.start, payload.length));
    map
}

/// The nodes' allocation is within the clock; that they are freed at the end is not.
fn build(order: &[u64]) -> f64 {
    let mut map = Map::new();
    let (time, ()) = timed(|| add_all(&mut map, order));
    assert_eq!(map.len(), order.len());
    time
}

fn find(keys: &Keys, asked: &[u64], found: usize) -> f64 {
    let map = full(keys);
    let (time, (count, sum)) = timed(|| {
        let (mut count, mut sum) = (0, 0u64);
        for key in asked {
            if let Some((key, _)) = map.get_key_value(black_box(key)) {
                count += 1;
                sum = sum.wrapping_add(*key);
            }
        }
        (count, sum)
    });
    assert_eq!(count, found);
    assert_eq!(sum, if found == 0 { 0 } else { keys.sum() });
    time
}

fn walk(keys: &Keys) -> f64 {
    let map = full(keys);
    let (time, sum) = timed(|| {
        let mut sum = 0u64;
        for key in map.keys() {
            sum = sum.wrapping_add(black_box(*key));
        }
        sum
    });
    assert_eq!(sum, keys.sum());
    time
}

fn remove(keys: &Keys) -> f64 {
    let mut map = full(keys);
    let (time, count) =
        timed(|| keys.asked.iter().filter(|&key| map.remove(black_box(key)).is_some()).count());
    assert_eq!((count, map.len()), (keys.asked.len(), 0));
    time
}

/// The nanoseconds of one round.
pub fn round(row: Row, keys: &Keys) -> f64 {
    match row {
        Row::Random => build(&keys.added),
        Row::Ascending | Row::Append => build(&keys.rising),
        Row::Hit => find(keys, &keys.asked, keys.asked.len()),
        Row::Miss => find(keys, &keys.missing, 0),
        Row::Walk => walk(keys),
        Row::Remove => remove(keys),
    }
}
