//! The counts of a run, by kind of call and outcome.

use std::fmt;

/// The calls themselves are twice as many: each is made on two copies of its input.
#[derive(Default)]
pub struct Tally {
    /// By the number returned: 0 and 4.
    pub create: [u64; 5],
    /// By the number returned: 0 and 1.
    pub check: [u64; 5],
    /// By the code returned: 0 to 3.
    pub batch: [u64; 5],
    /// Empty parts, and names.
    pub name: [u64; 2],
    /// Answers of done batches by their code.
    pub answers: [u64; 25],
    /// Done commands by their op.
    pub ops: [u64; 30],
    /// Damage done to pools, and how often the pool was sound before it and after it.
    pub damages: u64,
    pub harmless: u64,
}

impl fmt::Display for Tally {
    fn fmt(&self, f: &mut fmt::Formatter<'_>) -> fmt::Result {
        writeln!(f, "create: done {}, BAD_SIZE {}", self.create[0], self.create[4])?;
        writeln!(f, "check: sound {}, DAMAGED {}", self.check[0], self.check[1])?;
        let [done, damaged, bad_batch, bad_out, _] = self.batch;
        write!(f, "batch: done {}, DAMAGED {}, BAD_BATCH {}, ", done, damaged, bad_batch)?;
        writeln!(f, "BAD_OUT {}", bad_out)?;
        writeln!(f, "name: part {}, empty {}", self.name[1], self.name[0])?;
        writeln!(f, "damages: {}, sound before and after {}", self.damages, self.harmless)?;
        writeln!(f, "answers: {}, by code{}", total(&self.answers), listed(&self.answers))?;
        write!(f, "commands done: {}, by op{}", total(&self.ops), listed(&self.ops))
    }
}

fn total(counts: &[u64]) -> u64 {
    counts.iter().sum()
}

/// The counts that are not 0, each behind its number.
fn listed(counts: &[u64]) -> String {
    let numbered = counts.iter().enumerate().filter(|(_, &count)| count != 0);
    numbered.map(|(number, count)| format!(" {}:{}", number, count)).collect()
}
