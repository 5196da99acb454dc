//! The three tables, as Markdown on standard output.

use crate::batches::{self, MAX_COMMANDS};
use crate::clock::{timed, Times};
use crate::keys::{Keys, Random, Row, ROWS};
use crate::ours::{self, Door};
use crate::{btree, original_round, sys, RECORDS};
use std::hint::black_box;

const ROUNDS: usize = 1000;
/// Rounds before those, to warm up.
const WARM: usize = 20;
const SEED: u64 = 1;

fn ratio(a: f64, b: Option<f64>) -> String {
    b.map_or("-".into(), |b| format!("{:.2}", a / b))
}

fn number(a: Option<f64>) -> String {
    a.map_or("-".into(), |a| format!("{a:.1}"))
}

fn spread(times: Option<&Times>) -> String {
    times.map_or("-".into(), |times| format!("{:.2}", times.spread()))
}

/// The times of one row, a round of each side in turn, so that what slows the machine slows all.
#[derive(Default)]
struct Line {
    original: Times,
    btree: Times,
    whole: Times,
    check: Times,
}

fn measure(row: Row, door: &mut Door) -> Line {
    let mut random = Random(SEED);
    let mut line = Line::default();
    for i in 0..WARM + ROUNDS {
        let keys = Keys::new(&mut random, RECORDS);
        let original = original_round(row, &keys);
        let btree = btree::round(row, &keys);
        let (start, batches) = (ours::start(row, &keys), batches::of_row(row, &keys));
        let whole = door.batches(&start, &batches);
        let check = door.checks(&start, &batches);
        if i >= WARM {
            line.original.push(original.unwrap_or(0.0));
            line.btree.push(btree);
            line.whole.push(whole);
            line.check.push(check);
        }
    }
    line
}

/// Whether the original was compiled in.
fn with_original() -> bool {
    cfg!(original)
}

fn print_times(lines: &[Line]) {
    println!("Nanoseconds for each of the {RECORDS} records, median of {ROUNDS} rounds. A build");
    println!(
        "allocates the nodes of the original and of BTreeMap, and a remove frees them, within the"
    );
    println!(
        "clock; ours writes the record, copies a name of 8 bytes, and writes an answer. Of ours,"
    );
    println!(
        "the check is measured apart, on the same pools, and the last column is the difference.\n"
    );
    println!("| | original | BTreeMap | ours | of it check | ours without check |");
    println!("|---|--:|--:|--:|--:|--:|");
    let each = |times: &Times| times.median() / RECORDS as f64;
    for (line, (_, _, name)) in lines.iter().zip(ROWS) {
        let original = number(with_original().then(|| each(&line.original)));
        let (btree, whole, check) = (each(&line.btree), each(&line.whole), each(&line.check));
        print!("| {name} | {original} | {btree:.1} | ");
        println!("{whole:.1} | {check:.1} | {:.1} |", whole - check);
    }
}

fn print_ratios(lines: &[Line]) {
    println!("\nThe same as ratios. Spread: upper quartile of the rounds over the lower one.\n");
    print!("| | BTreeMap / original | ours / original | ours without check / original ");
    println!("| ours without check / BTreeMap | spread: original | BTreeMap | ours | check |");
    println!("|---|--:|--:|--:|--:|--:|--:|--:|--:|");
    for (line, (_, _, name)) in lines.iter().zip(ROWS) {
        let original = with_original().then(|| line.original.median());
        let (btree, whole) = (line.btree.median(), line.whole.median());
        let without = whole - line.check.median();
        print!("| {name} | {} | {} | ", ratio(btree, original), ratio(whole, original));
        print!("{} | {} | ", ratio(without, original), ratio(without, Some(btree)));
        print!("{} | ", spread(with_original().then_some(&line.original)));
        print!("{} | ", spread(Some(&line.btree)));
        println!("{} | {} |", spread(Some(&line.whole)), spread(Some(&line.check)));
    }
}

pub fn commands() {
    println!("## 1. Commands\n");
    let mut door = Door::new(RECORDS);
    let lines: Vec<Line> = ROWS.iter().map(|(row, _, _)| measure(*row, &mut door)).collect();
    print_times(&lines);
    print_ratios(&lines);
    let keys = Keys::new(&mut Random(SEED), RECORDS);
    println!("\nOurs, commands and batches of a round:");
    for (row, _, name) in ROWS {
        let batches = batches::of_row(row, &keys);
        let count: usize = batches.iter().map(|batch| batch.expected.len()).sum();
        println!("- {name}: {count} commands in {} batches", batches.len());
    }
}

/// As a reader would write it; the compiler makes vector instructions of it.
#[inline(never)]
fn plain_sum(pool: &[u8]) -> u64 {
    let mut sum = 0;
    for &byte in pool {
        sum += u64::from(byte);
    }
    sum
}

fn load(byte: &u8) -> u64 {
    // SAFETY: it is a reference, so it may be read.
    u64::from(unsafe { core::ptr::read_volatile(byte) })
}

/// The same with one load for each byte. A pass of the loop is so short that its time depends on
/// where the linker happens to put it.
#[inline(never)]
fn volatile_sum(pool: &[u8]) -> u64 {
    let mut sum = 0;
    for byte in pool {
        sum += load(byte);
    }
    sum
}

/// One load for each byte too, but eight to a pass of the loop, which is not so fickle.
#[inline(never)]
fn volatile_sum_by_eights(pool: &[u8]) -> u64 {
    let mut sum = 0;
    let eights = pool.chunks_exact(8);
    for byte in eights.remainder() {
        sum += load(byte);
    }
    for eight in eights {
        for byte in eight {
            sum += load(byte);
        }
    }
    sum
}

type Sum = (&'static str, fn(&[u8]) -> u64);

const SUMS: [Sum; 3] = [
    ("`for &byte in pool { sum += u64::from(byte) }`, made vector instructions", plain_sum),
    ("the same loop with `read_volatile` of each byte", volatile_sum),
    ("the same, eight bytes to a pass of the loop", volatile_sum_by_eights),
];

/// One sum is short for the clock.
const TIMES: usize = 16;

fn time_of_sum(sum: fn(&[u8]) -> u64, pool: &[u8]) -> f64 {
    let (time, _) = timed(|| (0..TIMES).fold(0, |all, _| all ^ black_box(sum)(black_box(pool))));
    time / TIMES as f64
}

pub fn check_against_sum() {
    let mut random = Random(SEED);
    let mut pool = ours::empty(RECORDS);
    let mut check = Times::default();
    let mut sums: [Times; 3] = Default::default();
    for i in 0..WARM + ROUNDS {
        pool.copy_from_slice(&ours::full(&Keys::new(&mut random, RECORDS).added));
        let (time, code) = timed(|| sys::check(black_box(&pool)));
        assert_eq!(code, batches::DONE);
        let others = SUMS.map(|(_, sum)| time_of_sum(sum, &pool));
        if i >= WARM {
            check.push(time);
            sums.iter_mut().zip(others).for_each(|(times, time)| times.push(time));
        }
    }
    println!("\n## 2. The check of a full pool against a sum of its bytes\n");
    print!("A pool of {} bytes with {RECORDS} records, added in random order; ", pool.len());
    println!("median of {ROUNDS} rounds, each with another pool.\n");
    println!("| | microseconds | nanoseconds a byte | check / this | spread |");
    println!("|---|--:|--:|--:|--:|");
    let names = SUMS.iter().map(|(name, _)| *name);
    for (name, times) in [("zt_check", &check)].into_iter().chain(names.zip(&sums)) {
        let time = times.median();
        print!("| {name} | {:.2} | {:.3} | ", time / 1e3, time / pool.len() as f64);
        println!("{:.2} | {:.2} |", check.median() / time, times.spread());
    }
}

/// The times of one batch of gets, and of its check alone, on full pools of so many slots.
fn gets(slots: usize, count: usize) -> (Times, Times) {
    let mut random = Random(SEED);
    let mut door = Door::new(slots);
    let (mut whole, mut check) = <(Times, Times)>::default();
    for i in 0..WARM + ROUNDS {
        let keys = Keys::new(&mut random, slots);
        let asked: Vec<u64> = (0..count).map(|_| keys.added[random.below(slots)]).collect();
        let (start, batches) = (ours::full(&keys.added), batches::gets(&asked));
        let both = (door.batches(&start, &batches), door.checks(&start, &batches));
        if i >= WARM {
            whole.push(both.0);
            check.push(both.1);
        }
    }
    (whole, check)
}

pub fn sizes() {
    println!("\n## 3. Sizes\n");
    println!("Batches of {MAX_COMMANDS} gets of random keys on full pools; medians.\n");
    print!("| slots | nanoseconds a get, without check | check, microseconds ");
    println!("| check, nanoseconds a slot |\n|--:|--:|--:|--:|");
    for slots in [64, 256, RECORDS] {
        let (whole, check) = gets(slots, MAX_COMMANDS);
        let (whole, check) = (whole.median(), check.median());
        print!("| {slots} | {:.1} | ", (whole - check) / MAX_COMMANDS as f64);
        println!("{:.2} | {:.1} |", check / 1e3, check / slots as f64);
    }
    println!(
        "\nBatches of gets of random keys on a full pool of {RECORDS} slots, with the check.\n"
    );
    print!("| gets a batch | microseconds a batch | nanoseconds a get ");
    println!("| check, microseconds | share of the check |\n|--:|--:|--:|--:|--:|");
    for count in [1, 16, MAX_COMMANDS] {
        let (whole, check) = gets(RECORDS, count);
        let (whole, check) = (whole.median(), check.median());
        print!("| {count} | {:.2} | {:.1} | ", whole / 1e3, whole / count as f64);
        println!("{:.2} | {:.0} % |", check / 1e3, 100.0 * check / whole);
    }
}
