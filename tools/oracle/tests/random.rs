//! Random runs, from a seed: single commands on the trees, and batches with a cursor.
use super::choices::choices;
use super::record::{Run, Writer};

/// Steele, Lea and Flood's SplitMix64.
pub struct Random(pub u64);

impl Random {
    pub fn next(&mut self) -> u64 {
        self.0 = self.0.wrapping_add(0x9E37_79B9_7F4A_7C15);
        let z = (self.0 ^ (self.0 >> 30)).wrapping_mul(0xBF58_476D_1CE4_E5B9);
        let z = (z ^ (z >> 27)).wrapping_mul(0x94D0_49BB_1331_11EB);
        z ^ (z >> 31)
    }

    pub fn below(&mut self, n: u64) -> u64 {
        self.next() % n
    }

    fn of<T: Copy>(&mut self, all: &[T]) -> T {
        all[self.below(all.len() as u64) as usize]
    }

    /// A number strictly between two bounds, near one of them now and then.
    fn between(&mut self, low: i128, high: i128) -> Option<u64> {
        let width = (high - low - 1).clamp(0, u64::MAX as i128) as u64;
        if width == 0 {
            return None;
        }
        let width = if self.below(2) == 0 { width.min(8) } else { width };
        let from = self.below(width) as i128;
        Some(if self.below(2) == 0 { low + 1 + from } else { high - 1 - from } as u64)
    }
}

/// What a random run is made of.
pub struct Plan {
    pub slots: u16,
    pub trees: u16,
    pub text: u16,
    /// Keys are below it; 0: all keys.
    pub keys: u64,
    pub commands: u64,
    /// The longest batch with a cursor, and how many steps in 100 are such batches.
    pub longest: u64,
    pub cursors: u64,
}

/// A key of the plan, or one that a record has.
fn key(run: &Run, plan: &Plan, r: &mut Random) -> u64 {
    let slot = 1 + r.below(plan.slots as u64) as usize;
    match &run.player.world.items[slot] {
        Some(item) if r.below(3) == 0 => item.key,
        _ if plan.keys > 0 => r.below(plan.keys),
        _ => match r.below(16) {
            0 => 0,
            1 => u64::MAX,
            _ => r.next(),
        },
    }
}

/// One command that needs no cursor. `growing` is how many in 100 changes are additions.
fn single(run: &mut Run, plan: &Plan, r: &mut Random, growing: u64) {
    let tree = 1 + r.below(plan.trees as u64) as u8;
    let change = if r.below(100) < growing { 1 } else { 3 };
    let op = if r.below(100) < 70 { change } else { r.of(&[2, 4, 4, 5, 6, 7, 8]) };
    if (4..=6).contains(&op) {
        let slot = 1 + r.below(plan.slots as u64) as u16;
        let Some(item) = &run.player.world.items[slot as usize] else { return };
        let (tree, stamp) = (item.tree, item.stamp);
        run.give(op, tree, slot, stamp, 0);
    } else {
        let key = key(run, plan, r);
        run.give(op, tree, 0, 0, key);
    }
}

/// An entry and commands at its cursor.
fn with_cursor(run: &mut Run, plan: &Plan, r: &mut Random) {
    let tree = 1 + r.below(plan.trees as u64) as u8;
    let op = r.of(&[9, 9, 9, 10, 11]);
    let key = key(run, plan, r);
    run.give(op, tree, 0, 0, key);
    for _ in 0..1 + r.below(plan.longest) {
        let next = choices(&run.player, &mut |low, high| r.between(low, high));
        if next.is_empty() {
            return;
        }
        let (op, key) = r.of(&next);
        run.give(op, r.of(&[tree, 0, 255]), 0, 0, key);
    }
}

/// A run of the plan. It grows and shrinks in turn.
pub fn random_run(w: &mut Writer, plan: &Plan, r: &mut Random) {
    let mut run = Run::new(w, plan.slots, plan.trees, plan.text);
    let mut given = 0;
    let phase = 1 + r.below(plan.commands);
    while given < plan.commands && run.player.world.used + 16 < plan.text as u32 {
        let growing = if given / phase % 2 == 0 { 75 } else { 25 };
        if r.below(100) < plan.cursors {
            with_cursor(&mut run, plan, r);
        } else {
            for _ in 0..r.of(&[1, 1, 1, 1, 3]) {
                single(&mut run, plan, r, growing);
            }
        }
        given += run.batch_length();
        run.end_batch();
    }
    run.end();
}

/// A plan with at most 40 records.
pub fn small_plan(r: &mut Random) -> Plan {
    let slots = r.of(&[3, 5, 8, 12, 20, 30, 40]);
    Plan {
        slots,
        trees: r.of(&[1, 1, 1, 2, 3]),
        text: 240,
        keys: r.of(&[4, 8, 16, 40, 100, 0]),
        commands: 200,
        longest: 7,
        cursors: 40,
    }
}

/// How a large tree is filled: at either end by entries, or by keys that rise, fall or are random.
fn fill(run: &mut Run, way: u64, slots: u16, r: &mut Random) {
    let mut order: Vec<u64> = (0..slots as u64).collect();
    if way == 2 {
        order.reverse();
    }
    if way == 0 {
        for i in (1..order.len()).rev() {
            order.swap(i, r.below(i as u64 + 1) as usize);
        }
    }
    for (i, &n) in order.iter().enumerate() {
        let (i, stride) = (i as u64, 1u64 << 32);
        match way {
            3 | 4 => {
                let last = way == 3;
                if i % 4 == 0 {
                    run.end_batch();
                    run.give(if last { 11 } else { 10 }, 1, 0, 0, 0);
                }
                let key = if last { stride * (i + 1) } else { stride * (slots as u64 - i) };
                run.give(if last { 24 } else { 25 }, 1, 0, 0, key);
            }
            _ => {
                run.alone(1, 1, stride * (n + 1));
            }
        }
    }
    run.end_batch();
}

/// A tree of up to 1,024 records is filled, worked on and emptied.
pub fn large_run(w: &mut Writer, index: u64, commands: u64, r: &mut Random) {
    let slots = r.of(&[1024, 1024, 700, 300]);
    let plan = Plan { slots, trees: 1, text: 8192, keys: 0, commands, longest: 4, cursors: 20 };
    let mut run = Run::new(w, slots, 1, plan.text);
    fill(&mut run, index % 5, slots, r);
    let mut given = 0;
    while given < commands {
        if r.below(100) < plan.cursors {
            with_cursor(&mut run, &plan, r);
        } else {
            single(&mut run, &plan, r, 50);
        }
        given += run.batch_length();
        run.end_batch();
    }
    let mut left: Vec<u64> = run.player.world.items.iter().flatten().map(|x| x.key).collect();
    if index % 2 == 0 {
        left.sort();
    }
    for key in left {
        run.alone(3, 1, key);
    }
    run.end();
}
