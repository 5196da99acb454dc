//! A plan cache that keeps handles too long, and what it reads through them.
//!
//! The columns of several tenants stand in one index. A query is planned under a mark and
//! abandoned, and the cache keeps the handles of the columns that were added for it. Later the
//! index is emptied and filled anew, and the cache keeps its older handles too. By then their slots
//! have columns of other tenants. Handles without stamps would read those; these are refused.
//!
//! To run it: `cargo run --offline --example plan_cache`. It ends with a verdict, and with exit
//! status 1 if something in that does not hold.

use std::error::Error;
use zimatuno::{create, name, pool_size, Answer, Batch, DoorError, Handle, Refusal, SoundPool};

/// The tree of the columns; this pool has no other.
const COLUMNS: u8 = 1;

/// What the cache keeps of a column: its handle, and here its name too, to compare.
#[derive(Clone)]
struct Kept {
    handle: Handle,
    column: &'static str,
}

fn main() -> Result<(), Box<dyn Error>> {
    // A pool for 8 records in 1 tree, with 64 bytes for their names.
    let mut pool = vec![0; pool_size(8, 1, 64)?];
    create(8, 1, 64, &mut pool)?;

    // Columns of two tenants. The answer to an add has the handle of the new record.
    let mut fill = Batch::new();
    fill.add(COLUMNS, 10, b"acme.price");
    fill.add(COLUMNS, 20, b"globex.salary");
    fill.add(COLUMNS, 30, b"globex.id");
    let older = keep(&["acme.price", "globex.salary", "globex.id"], &fill.run(&mut pool)?)?;
    let before = listing(&pool)?;
    print!("The index, by key, handle (slot,stamp) and name:\n{before}");

    // Under a mark one column goes and two come, the first of them into the slot that is free now.
    // Two gets show that it was done; then it is undone.
    let mut query = Batch::new();
    query.mark();
    query.remove_by_key(COLUMNS, 20);
    query.add(COLUMNS, 40, b"acme.total");
    query.add(COLUMNS, 50, b"acme.tax");
    query.get(COLUMNS, 40);
    query.get(COLUMNS, 20);
    query.rollback();
    let answers = query.run(&mut pool)?;
    let planned = keep(&["acme.total", "acme.tax"], &answers[2..4])?;
    let was_done = answers[4] == answers[2] && answers[5].refusal() == Some(Refusal::None);
    println!("\nA query is planned under a mark and abandoned:");
    println!("  mark               {}", said(&answers[0]));
    println!("  remove 20          {}", said(&answers[1]));
    println!("  add 40 acme.total  {}", said(&answers[2]));
    println!("  add 50 acme.tax    {}", said(&answers[3]));
    println!("  get 40             {}", said(&answers[4]));
    println!("  get 20             {}", said(&answers[5]));
    println!("  rollback           {}", said(&answers[6]));
    let after = listing(&pool)?;
    print!("\nThe index after the rollback:\n{after}");

    // Another tenant's column takes the slot that acme.tax had.
    let answers = Batch::new().add(COLUMNS, 60, b"globex.bonus").run(&mut pool)?;
    println!("\nAnother tenant adds a column:\n  add 60 globex.bonus  {}", said(&answers[0]));

    println!("\nThe handles from before the mark:");
    let older_read = use_handles(&mut pool, &older, None)?;
    println!("\nThe handles of the abandoned query:");
    let planned_refused = use_handles(&mut pool, &planned, Some(Refusal::Stale))?;

    // The index is emptied and filled anew: the same slots, the same keys, another tenant.
    let mut refill = Batch::new();
    refill.reset();
    refill.add(COLUMNS, 10, b"initech.name");
    refill.add(COLUMNS, 20, b"initech.price");
    refill.add(COLUMNS, 30, b"initech.cost");
    refill.add(COLUMNS, 40, b"initech.margin");
    refill.run(&mut pool)?;
    println!("\nAll kept handles after a reset and four adds:");
    let all_refused = use_handles(&mut pool, &[older, planned].concat(), Some(Refusal::Stale))?;

    let verdict = [
        ("what was done under the mark was seen under it", was_done),
        ("the listing after the rollback is the one before, byte for byte", before == after),
        ("every handle from before the mark reads its own column after the rollback", older_read),
        ("every handle of a column added under the mark is refused", planned_refused),
        ("every handle from before the reset is refused after it", all_refused),
    ];
    println!("\nVerdict:");
    for (claim, holds) in verdict {
        println!("  {}  {claim}", if holds { "holds" } else { "FAILS" });
    }
    if verdict.iter().all(|&(_, holds)| holds) {
        Ok(())
    } else {
        Err("the verdict does not hold".into())
    }
}

/// Keeps the handles of columns from the answers to their adds.
fn keep(columns: &[&'static str], answers: &[Answer]) -> Result<Vec<Kept>, &'static str> {
    let kept = columns.iter().zip(answers).map(|(&column, answer)| {
        let handle = answer.handle().ok_or("a column was not added")?;
        Ok(Kept { handle, column })
    });
    kept.collect()
}

/// Uses kept handles, and gives whether all are answered as expected: with that refusal by a
/// command and with nothing by the door name, or else with their own columns. Before the answer it
/// prints what an index without stamps would read: the column that has the slot now, which is read
/// by its own handle.
fn use_handles(
    pool: &mut [u8],
    kept: &[Kept],
    refusal: Option<Refusal>,
) -> Result<bool, DoorError> {
    let mut good = true;
    println!("  {:<21}{:<23}with stamps", "kept", "without stamps");
    for Kept { handle, column } in kept {
        let answer = Batch::new().next(COLUMNS, *handle).run(pool)?[0];
        let found = read(pool, *handle);
        good &= match refusal {
            Some(_) => answer.refusal() == refusal && found.is_none(),
            None => found.as_deref() == Some(*column),
        };
        let mut live = SoundPool::new(pool)?.records().map(|record| record.handle);
        let now = live.find(|now| now.slot == handle.slot);
        let in_slot = now.and_then(|now| Some(format!("{now} {}", read(pool, now)?)));
        println!(
            "  {:<21}{:<23}{}",
            format!("{handle} {column}"),
            in_slot.as_deref().unwrap_or("nothing"),
            found.unwrap_or_else(|| said(&answer))
        );
    }
    Ok(good)
}

/// The name of the column that a handle reaches, by the door name.
fn read(pool: &[u8], handle: Handle) -> Option<String> {
    name(pool, COLUMNS, handle).map(|name| String::from_utf8_lossy(name).into_owned())
}

/// An answer in words.
fn said(answer: &Answer) -> String {
    match answer.result {
        Ok(Some(record)) => format!("done, {}", record.handle),
        Ok(None) => "done".to_string(),
        Err(refusal) => format!("refused, {} {refusal}", refusal.code()),
    }
}

/// The columns by rising key, a line each.
fn listing(pool: &[u8]) -> Result<String, DoorError> {
    let lines = SoundPool::new(pool)?.records().map(|record| {
        format!("  {} {} {}\n", record.key, record.handle, String::from_utf8_lossy(record.name))
    });
    Ok(lines.collect())
}
