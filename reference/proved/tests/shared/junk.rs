//! Numbers of any kind, small ones and the edges of all limits above all.

use samples::splitmix64::SplitMix64;

pub struct Junk(pub SplitMix64);

impl Junk {
    pub fn below(&mut self, bound: u64) -> u64 {
        self.0.below(bound)
    }

    pub fn pick<T: Copy>(&mut self, of: &[T]) -> T {
        of[self.below(of.len() as u64) as usize]
    }

    pub fn number(&mut self) -> u64 {
        match self.below(5) {
            0 | 1 => self.below(12),
            2 => self.pick(&[
                4095,
                4096,
                4097,
                65535,
                65536,
                1 << 32,
                1 << 61,
                (1 << 61) - 8,
                1 << 63,
                u64::MAX - 1,
                u64::MAX,
            ]),
            3 => self.0.next() >> self.below(64),
            _ => self.0.next(),
        }
    }

    /// A capacity or a key limit: mostly small, so that the words are few.
    pub fn limit(&mut self) -> u64 {
        match self.below(10) {
            0 => self.number(),
            1 => self.pick(&[64, 100, 257]),
            _ => self.below(9),
        }
    }

    /// About a limit, or anything.
    pub fn count(&mut self, limit: u64) -> u64 {
        match self.below(3) {
            0 => self.number(),
            _ => self.below(limit.saturating_add(2)),
        }
    }

    /// As many words as are enough, or one less, or some more, or any small number.
    pub fn size(&mut self, enough: usize) -> usize {
        match self.below(6) {
            0 => enough - 1,
            1 => enough + 1 + self.below(20) as usize,
            2 => self.below(200) as usize,
            _ => enough,
        }
    }

    /// Words of all kinds but those of a damaged state, with nodes of a map of that capacity.
    pub fn words(&mut self, capacity: u64, size: usize) -> Vec<u64> {
        match self.below(3) {
            0 => (0..size).map(|_| self.0.next()).collect(),
            1 => (0..size).map(|_| self.below(capacity.min(9) + 4)).collect(),
            _ => (0..size).map(|_| self.number()).collect(),
        }
    }

    /// Overwrites up to four words, and makes the words `size` many.
    pub fn damage(&mut self, words: &mut Vec<u64>, capacity: u64, size: usize) {
        for _ in 0..self.below(5) {
            let at = self.below(words.len() as u64) as usize;
            words[at] = match self.below(3) {
                0 => words[at] ^ 1 << self.below(64),
                1 => self.below(capacity + 4),
                _ => self.number(),
            };
        }
        let filler = self.0.next();
        words.resize(size, filler);
    }

    /// A number above all operations.
    pub fn no_operation(&mut self, operations: u64) -> u64 {
        operations + (self.0.next() >> self.below(64)).saturating_sub(operations)
    }
}
