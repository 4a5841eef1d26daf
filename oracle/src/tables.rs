//! Tables lent to the proved code, full of noise before each call.

use crate::random::Random;

/// Numbers kept after each table, which no call may alter.
const MARGIN: usize = 64;

/// From how many places of the pool the noise of a table may be taken.
const FIRSTS: usize = 4096;

/// N tables with the margins after them. A table's noise is a part of a pool, so that it need not be
/// drawn number by number.
pub struct Tables<const N: usize> {
    /// One of any numbers, one of numbers as rows have them.
    pools: [Pool; 2],
    pool: usize,
    /// Where each table's noise begins in the pool.
    firsts: [usize; N],
    lengths: [usize; N],
    numbers: [Vec<u32>; N],
}

impl<const N: usize> Default for Tables<N> {
    fn default() -> Self {
        Self {
            pools: [Pool::new(1 << 32), Pool::new(32)],
            pool: 0,
            firsts: [0; N],
            lengths: [0; N],
            numbers: [const { Vec::new() }; N],
        }
    }
}

impl<const N: usize> Tables<N> {
    /// Sets the lengths of the tables, draws noise for them and fills them with it.
    pub fn prepare(&mut self, lengths: [usize; N], noise: &mut Random) {
        self.lengths = lengths;
        self.pool = noise.below(self.pools.len());
        self.firsts = lengths.map(|_| noise.below(FIRSTS));
        for table in 0..N {
            let length = self.lengths[table] + MARGIN;
            self.pools[self.pool].grow(FIRSTS + length);
            if self.numbers[table].len() < length {
                self.numbers[table].resize(length, 0);
            }
            self.restore(table, length);
        }
    }

    /// The tables, to be lent.
    pub fn lend(&mut self) -> [&mut [u32]; N] {
        let mut lengths = self.lengths.into_iter();
        self.numbers.each_mut().map(|numbers| {
            let length = lengths.next().unwrap_or(0);
            &mut numbers[..length]
        })
    }

    /// Whether a table holds these rows and then, up to the end of the margin, its noise.
    pub fn holds(&self, table: usize, rows: &[u32]) -> bool {
        let (found, numbers) = (self.found(table), self.numbers(table));
        numbers[..rows.len()] == *rows && numbers[rows.len()..] == found[rows.len()..]
    }

    /// Puts back so many numbers of noise at the front of a table.
    pub fn restore(&mut self, table: usize, numbers: usize) {
        let first = self.firsts[table];
        let noise = &self.pools[self.pool].numbers[first..first + numbers];
        self.numbers[table][..numbers].copy_from_slice(noise);
    }

    pub fn length(&self, table: usize) -> usize {
        self.lengths[table]
    }

    /// What a table and its margin held before the call.
    pub fn found(&self, table: usize) -> &[u32] {
        let length = self.lengths[table] + MARGIN;
        &self.pools[self.pool].numbers[self.firsts[table]..][..length]
    }

    /// What a table and its margin hold.
    pub fn numbers(&self, table: usize) -> &[u32] {
        &self.numbers[table][..self.lengths[table] + MARGIN]
    }
}

/// Noise below a limit, as much as was asked for.
struct Pool {
    random: Random,
    limit: u64,
    numbers: Vec<u32>,
}

impl Pool {
    fn new(limit: u64) -> Self {
        Self {
            random: Random::new(limit),
            limit,
            numbers: Vec::new(),
        }
    }

    fn grow(&mut self, length: usize) {
        while self.numbers.len() < length {
            self.numbers.push((self.random.next() % self.limit) as u32);
        }
    }
}
