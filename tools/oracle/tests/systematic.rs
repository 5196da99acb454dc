//! Systematic runs: all orders of additions and removals of few records, and all short ways of a cursor
//! over the trees that they make.
use super::choices::{choices, middle};
use super::record::{Run, Writer};

/// All orders of 1 to n.
pub fn orders(n: u64) -> Vec<Vec<u64>> {
    if n == 0 {
        return vec![vec![]];
    }
    let mut all = Vec::new();
    for shorter in orders(n - 1) {
        for place in 0..n as usize {
            let mut order = shorter.clone();
            order.insert(place, n);
            all.push(order);
        }
    }
    all
}

/// Removes the record with the key, by key or by handle.
fn remove(run: &mut Run, key: u64, by_handle: bool) {
    if !by_handle {
        run.alone(3, 1, key);
        return;
    }
    let item = run.player.world.items.iter().flatten().find(|x| x.key == key).unwrap();
    let (slot, stamp) = (item.slot, item.stamp);
    run.give(4, 1, slot, stamp, 0);
    run.end_batch();
}

fn add_and_remove(w: &mut Writer, adds: &[u64], removals: &[u64], by_handle: bool) {
    let n = adds.len() as u16;
    let mut run = Run::new(w, n, 1, n);
    for &key in adds {
        run.alone(1, 1, key);
    }
    for &key in removals {
        remove(&mut run, key, by_handle);
    }
    run.end();
}

/// n records added in each order and removed in each order, by key and by handle in turn.
pub fn all_orders(w: &mut Writer, n: u64) {
    let all = orders(n);
    for (i, adds) in all.iter().enumerate() {
        for (j, removals) in all.iter().enumerate() {
            add_and_remove(w, adds, removals, (i + j) % 2 == 1);
        }
    }
}

/// n records added in each order; then each of them removed first, and the others from either end.
pub fn each_first(w: &mut Writer, n: u64) {
    for (i, adds) in orders(n).iter().enumerate() {
        for first in 1..=n {
            let mut rising: Vec<u64> = (1..=n).filter(|&k| k != first).collect();
            for falling in [false, true] {
                if falling {
                    rising.reverse();
                }
                let removals: Vec<u64> = [first].into_iter().chain(rising.iter().copied()).collect();
                add_and_remove(w, adds, &removals, (i + falling as usize) % 2 == 1);
            }
        }
    }
}

/// How a cursor comes to be: an entry at or between the records, the first entry, the last entry.
fn starts(n: u64) -> Vec<(u8, u64)> {
    let entries = (1..=2 * n + 1).map(|i| (9, 8 * i));
    entries.chain([(10, 0), (11, 0)]).collect()
}

/// n records with keys 16, 32, .. added in each order, then a cursor from each start, then every way of
/// two commands that may follow.
pub fn cursor_ways(w: &mut Writer, n: u64) {
    for adds in orders(n) {
        for start in starts(n) {
            let mut first = 0;
            while let Some(ways) = cursor_way(w, &adds, start, first, 0) {
                for second in 1..ways {
                    cursor_way(w, &adds, start, first, second);
                }
                first += 1;
            }
        }
    }
}

/// One of them; how many commands may follow the first one, or none if there is no such first one. If no
/// command may follow, the run ends with the first one.
fn cursor_way(w: &mut Writer, adds: &[u64], start: (u8, u64), first: usize, second: usize) -> Option<usize> {
    let n = adds.len() as u16;
    let mut run = Run::new(w, n + 2, 1, n + 2);
    for &key in adds {
        run.alone(1, 1, 16 * key);
    }
    run.give(start.0, 1, 0, 0, start.1);
    let &(op, key) = choices(&run.player, &mut middle).get(first)?;
    run.give(op, 1, 0, 0, key);
    let next = choices(&run.player, &mut middle);
    if let Some(&(op, key)) = next.get(second) {
        run.give(op, 1, 0, 0, key);
    }
    run.end();
    Some(next.len())
}
