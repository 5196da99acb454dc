//! The four doors, each called on two guarded copies of the same input. What is looked at after
//! each call: guards, inputs that are only read, the number returned, and what a refusal leaves.

use crate::guarded::Guarded;
use crate::layout::{commands, fresh_pool, name_part, pool_size};
use crate::random::Random;
use crate::sys;
use crate::tally::Tally;
use crate::watch::Watch;

/// Pool and answers after a batch.
pub type After = (Vec<u8>, Vec<u8>);

/// What every call needs. A fault is a text.
pub struct Doors {
    pub watch: Watch,
    pub tally: Tally,
}

impl Doors {
    /// The pool that create writes; `None` if it refuses, as it has to for wrong sizes.
    pub fn create(
        &mut self,
        (n, t, x): (u16, u16, u32),
        buffer: &[u8],
        random: &mut Random,
    ) -> Result<Option<Vec<u8>>, String> {
        let (code, after) = twice(|| {
            let mut lent = Guarded::new(buffer, random);
            let code = self.watch.timed(|| sys::create(n, t, x, &mut lent));
            lent.intact("create's buffer")?;
            Ok((code, lent.content().to_vec()))
        })?;
        let good = pool_size(n, t, x) == Some(buffer.len());
        demand(code == if good { 0 } else { 4 }, "create's number")?;
        self.tally.create[usize::from(code)] += 1;
        if good {
            demand(after == fresh_pool(n, t, x), "the fresh pool's bytes")?;
            return Ok(Some(after));
        }
        demand(after == buffer, "the buffer after a refusal")?;
        Ok(None)
    }

    /// Whether check calls the pool sound.
    pub fn check(&mut self, pool: &[u8], random: &mut Random) -> Result<bool, String> {
        let code = twice(|| {
            let mut lent = Guarded::new(pool, random);
            let code = self.watch.timed(|| sys::check(&mut lent));
            lent.intact("check's pool")?;
            demand(lent.content() == pool, "check's pool, which is only read")?;
            Ok(code)
        })?;
        demand(code <= 1, "check's number")?;
        self.tally.check[usize::from(code)] += 1;
        Ok(code == 0)
    }

    /// Calls name. `sound` is what check says of the pool; with it the part is determined.
    pub fn name(
        &mut self,
        pool: &[u8],
        sound: bool,
        (tree, slot, stamp): (u8, u16, u32),
        random: &mut Random,
    ) -> Result<(), String> {
        let part = twice(|| {
            let mut lent = Guarded::new(pool, random);
            let part = self.watch.timed(|| sys::name(&mut lent, tree, slot, stamp));
            lent.intact("name's pool")?;
            demand(lent.content() == pool, "name's pool, which is only read")?;
            Ok(part)
        })?;
        let (start, length) = (part as u32 as usize, (part >> 32) as usize);
        demand(start + length <= pool.len(), "name's part within the pool")?;
        let right = if sound { name_part(pool, tree, slot, stamp) } else { (0, 0) };
        demand((start, length) == right, "name's part")?;
        self.tally.name[usize::from(length != 0)] += 1;
        Ok(())
    }

    /// Runs a batch and gives pool and answers after it; `None` if it is refused, which it is
    /// exactly for a wrong header or length, short answers or a pool that is not sound.
    pub fn batch(
        &mut self,
        (pool, sound): (&[u8], bool),
        batch: &[u8],
        answers: &[u8],
        random: &mut Random,
    ) -> Result<Option<After>, String> {
        let (outcome, pool_after, answers_after) =
            twice(|| batch_once(&mut self.watch, pool, batch, answers, random))?;
        let count = commands(batch);
        let right = match count {
            None => 2,
            Some(count) if answers.len() < 24 * count => 3,
            Some(_) if !sound => 1,
            Some(count) => (count as u32) << 8,
        };
        demand(outcome == right, "batch's code and number answered")?;
        self.tally.batch[outcome as u8 as usize] += 1;
        if outcome as u8 != 0 {
            demand(pool_after == pool, "the pool after a refusal")?;
            demand(answers_after == answers, "the answers after a refusal")?;
            return Ok(None);
        }
        let end = 24 * count.unwrap_or(0);
        demand(answers_after[end..] == answers[end..], "the bytes beyond the answers")?;
        demand(pool_after.len() == pool.len(), "the pool's length")?;
        demand(self.check(&pool_after, random)?, "a sound pool after a done batch")?;
        Ok(Some((pool_after, answers_after)))
    }
}

/// One call of batch; the outcome, the pool and the answers after it.
fn batch_once(
    watch: &mut Watch,
    pool: &[u8],
    batch: &[u8],
    answers: &[u8],
    random: &mut Random,
) -> Result<(u32, Vec<u8>, Vec<u8>), String> {
    let mut lent = Guarded::new(pool, random);
    let mut read = Guarded::new(batch, random);
    let mut written = Guarded::new(answers, random);
    let outcome = watch.timed(|| sys::batch(&mut lent, &mut read, &mut written));
    lent.intact("batch's pool")?;
    read.intact("batch's batch")?;
    written.intact("batch's answers")?;
    demand(read.content() == batch, "batch's batch, which is only read")?;
    Ok((outcome, lent.content().to_vec(), written.content().to_vec()))
}

/// The result of two calls, which has to be the same.
fn twice<R: PartialEq>(mut call: impl FnMut() -> Result<R, String>) -> Result<R, String> {
    let first = call()?;
    demand(first == call()?, "two calls with the same input differ")?;
    Ok(first)
}

/// A fault unless the demand holds.
pub fn demand(holds: bool, what: &str) -> Result<(), String> {
    if holds {
        Ok(())
    } else {
        Err(what.to_string())
    }
}
