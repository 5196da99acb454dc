//! One step: a pool, then rounds of damage, check, batch and names on it.

use crate::batches::{answers_length, batch, Memory};
use crate::doors::{demand, Doors};
use crate::pools;
use crate::random::Random;

/// Runs a step. A fault names the input of the call that showed it.
pub fn run(doors: &mut Doors, random: &mut Random) -> Result<(), String> {
    let mut pool = start(doors, random)?;
    let mut memory = Memory::new(random);
    let mut sound = doors.check(&pool, random).map_err(|fault| input(fault, &pool, &[]))?;
    let rounds = if random.chance(5) { 20 } else { random.between(1, 6) };
    for _ in 0..rounds {
        if random.chance(30) {
            let mut damaged = pool.clone();
            pools::damage(&mut damaged, random);
            let still = round(doors, &mut damaged, &mut memory, random)?;
            doors.tally.damages += 1;
            doors.tally.harmless += u64::from(sound && still);
            // Damage that leaves a pool sound, such as a later next stamp, is worked on further.
            if still && random.chance(50) {
                pool = damaged;
                sound = true;
            }
        } else {
            sound = round(doors, &mut pool, &mut memory, random)?;
        }
    }
    Ok(())
}

/// A pool that create writes; random bytes if it refuses, and in a tenth of the steps.
fn start(doors: &mut Doors, random: &mut Random) -> Result<Vec<u8>, String> {
    let sizes = pools::sizes(random);
    let buffer = pools::buffer(sizes.0, sizes.1, sizes.2, random);
    let created = doors
        .create(sizes, &buffer, random)
        .map_err(|fault| format!("{}, sizes {:?}, buffer {} bytes", fault, sizes, buffer.len()))?;
    match created {
        Some(pool) if random.chance(90) => Ok(pool),
        _ => Ok(pools::random_bytes(random)),
    }
}

/// Check, a batch and names on a pool, which becomes what the batch makes of it. Gives whether it
/// is sound.
fn round(
    doors: &mut Doors,
    pool: &mut Vec<u8>,
    memory: &mut Memory,
    random: &mut Random,
) -> Result<bool, String> {
    let sound = doors.check(pool, random).map_err(|fault| input(fault, pool, &[]))?;
    let batch = batch(memory, random);
    let length = answers_length(&batch, random);
    let answers = random.bytes(length);
    let done = doors
        .batch((pool, sound), &batch, &answers, random)
        .map_err(|fault| input(fault, pool, &batch))?;
    if let Some((pool_after, answers_after)) = done {
        keep(doors, &batch, &answers_after, memory).map_err(|fault| input(fault, pool, &batch))?;
        *pool = pool_after;
    }
    for _ in 0..random.between(0, 3) {
        let handle = memory.handle(random);
        doors
            .name(pool, sound, handle, random)
            .map_err(|fault| input(format!("{}, handle {:?}", fault, handle), pool, &[]))?;
    }
    Ok(sound)
}

/// Looks at the layout of each answer of a done batch, counts it, and keeps what it shows.
fn keep(
    doors: &mut Doors,
    batch: &[u8],
    answers: &[u8],
    memory: &mut Memory,
) -> Result<(), String> {
    let count = usize::from(batch[2]) + 256 * usize::from(batch[3]);
    let answers = &answers[..24 * count];
    for (answer, command) in answers.chunks_exact(24).zip(batch[16..].chunks_exact(24)) {
        let code = usize::from(answer[0]);
        demand(code == 0 || (10..=24).contains(&code), "an answer's code")?;
        demand(answer[1] <= 4 && answer[22..] == [0, 0], "an answer's cursor and zero bytes")?;
        demand(code == 0 || answer[2..].iter().all(|&byte| byte == 0), "a refusal's record")?;
        doors.tally.answers[code] += 1;
        if code == 0 {
            demand((1..=29).contains(&command[0]), "a done command's op")?;
            doors.tally.ops[usize::from(command[0])] += 1;
        }
    }
    memory.keep(&batch[16..], answers);
    Ok(())
}

/// The fault with the input in hexadecimal.
fn input(fault: String, pool: &[u8], batch: &[u8]) -> String {
    let hex = |bytes: &[u8]| bytes.iter().map(|byte| format!("{:02x}", byte)).collect::<String>();
    format!("{}\npool {}\nbatch {}", fault, hex(pool), hex(batch))
}
