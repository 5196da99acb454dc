//! The keys of a round, and the rows of the first table. Every round has keys of its own, the same
//! for all that are measured: a processor that has learnt the branches of one round gains nothing
//! by it in the next.

/// SplitMix64, with a fixed seed, so that every run has the same keys.
pub struct Random(pub u64);

impl Random {
    pub fn next(&mut self) -> u64 {
        self.0 = self.0.wrapping_add(0x9e37_79b9_7f4a_7c15);
        let a = (self.0 ^ (self.0 >> 30)).wrapping_mul(0xbf58_476d_1ce4_e5b9);
        let b = (a ^ (a >> 27)).wrapping_mul(0x94d0_49bb_1331_11eb);
        b ^ (b >> 31)
    }

    /// A number below the bound, which is small: no care is taken of the bias.
    pub fn below(&mut self, bound: usize) -> usize {
        (self.next() % bound as u64) as usize
    }

    fn shuffled(&mut self, keys: &[u64]) -> Vec<u64> {
        let mut keys = keys.to_vec();
        for i in (1..keys.len()).rev() {
            keys.swap(i, self.below(i + 1));
        }
        keys
    }
}

pub struct Keys {
    /// In the order in which the keys are added.
    pub added: Vec<u64>,
    pub rising: Vec<u64>,
    /// All of them again, in the order in which they are looked up or removed.
    pub asked: Vec<u64>,
    /// As many other keys.
    pub missing: Vec<u64>,
}

impl Keys {
    pub fn new(random: &mut Random, count: usize) -> Keys {
        let mut all: Vec<u64> = (0..2 * count).map(|_| random.next()).collect();
        let missing = all.split_off(count);
        let added = all.clone();
        all.sort_unstable();
        // 64 random bits hardly ever come twice, and with the fixed seed they do not
        assert!(all.windows(2).all(|pair| pair[0] < pair[1]));
        assert!(missing.iter().all(|key| all.binary_search(key).is_err()));
        let asked = random.shuffled(&all);
        Keys { added, rising: all, asked, missing }
    }

    /// The sum of the keys, by which it is told that each was found once.
    pub fn sum(&self) -> u64 {
        self.added.iter().fold(0, |sum, key| sum.wrapping_add(*key))
    }
}

/// What the first table measures.
#[derive(Clone, Copy)]
pub enum Row {
    Random,
    Ascending,
    Append,
    Hit,
    Miss,
    Walk,
    Remove,
}

/// Each row with its name as an argument and in the table.
pub const ROWS: [(Row, &str, &str); 7] = [
    (Row::Random, "random", "build, random order"),
    (Row::Ascending, "ascending", "build, ascending"),
    (Row::Append, "append", "build, append at the last entry"),
    (Row::Hit, "get-hit", "get, hit"),
    (Row::Miss, "get-miss", "get, miss"),
    (Row::Walk, "walk", "walk over all"),
    (Row::Remove, "remove", "remove by key"),
];
