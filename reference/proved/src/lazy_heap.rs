//! The heap of crates/lazy_heap. Its operations are those of crates/replay_lazy_heap/src/lib.rt.

use crate::exports;
use crate::replay::{self, Answer, State, encode};

pub const MAX_LIMIT: u64 = 4096;
pub const MAX_FACTOR: u64 = 8;

/// The words of a heap for `limit` keys.
pub fn words_for(limit: u64) -> usize {
    64 + 32 * limit as usize
}

#[derive(Clone, Copy, Debug, PartialEq, Eq)]
pub enum Call {
    /// Key limit, factor, and the next sequence number.
    Open(u64, u64, u64),
    SetAutoRebuild(u64),
    /// Key and score.
    Update(u64, u64),
    Remove(u64),
    PopBest,
    PeekBest,
    Rebuild,
    MaybeRebuild(u64),
    RenumberSeqs,
    Clear,
    AutoRebuildFactor,
    ScoreOf(u64),
    Len,
    IsEmpty,
    HeapLen,
    Check,
    /// How many keys hold at most this score.
    CountAtMost(u64),
    /// No operation of the heap where the number is above 16.
    Other(u64),
}

/// What a call answers, and how many entries it discards.
pub type Reply = (Answer, u64);

impl replay::Call for Call {
    const NUMBERS: usize = 6;

    type Reply = Reply;

    fn words(self) -> [u64; 4] {
        match self {
            Self::Open(limit, factor, seq) => encode(0, [limit, factor, seq]),
            Self::SetAutoRebuild(factor) => encode(1, [factor]),
            Self::Update(key, score) => encode(2, [key, score]),
            Self::Remove(key) => encode(3, [key]),
            Self::PopBest => encode(4, []),
            Self::PeekBest => encode(5, []),
            Self::Rebuild => encode(6, []),
            Self::MaybeRebuild(factor) => encode(7, [factor]),
            Self::RenumberSeqs => encode(8, []),
            Self::Clear => encode(9, []),
            Self::AutoRebuildFactor => encode(10, []),
            Self::ScoreOf(key) => encode(11, [key]),
            Self::Len => encode(12, []),
            Self::IsEmpty => encode(13, []),
            Self::HeapLen => encode(14, []),
            Self::Check => encode(15, []),
            Self::CountAtMost(score) => encode(16, [score]),
            Self::Other(operation) => encode(operation, []),
        }
    }

    fn reply(words: [u64; 4]) -> Reply {
        Answer::with_discarded(words)
    }

    fn replay(numbers: &mut [u64], words: &mut [u64], calls: &[u64], answers: &mut [u64]) -> u64 {
        exports::lazy_heap(numbers, words, calls, answers)
    }
}

/// A heap with words of its own. The numbers are those of the map of scores (key limit, keys held,
/// insertions until its cells are refilled), and then entries, next sequence number, factor.
pub type LazyMinHeap = State<Call, 6>;

impl LazyMinHeap {
    /// # Panics
    ///
    /// Where the opening is refused.
    pub fn new(limit: u64, factor: u64, seq: u64) -> Self {
        let mut heap = Self::unopened(words_for(limit));
        let opening = heap.call(Call::Open(limit, factor, seq));
        assert_eq!(opening, (Answer::Done, 0));
        heap
    }

    pub fn seq(&self) -> u64 {
        self.numbers[4]
    }

    /// For a number that no entry has or is below: a heap is one with any next number above all
    /// that it has given.
    pub fn set_seq(&mut self, seq: u64) {
        self.numbers[4] = seq;
    }
}
