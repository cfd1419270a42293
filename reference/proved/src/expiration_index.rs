//! The index of crates/expiration_index. Its operations are those of
//! crates/replay_expiration_index/src/lib.rt.

use crate::exports;
use crate::replay::{self, Answer, State, encode};

pub const MAX_LIMIT: u64 = 4096;

/// The words of an index for `limit` keys.
pub fn words_for(limit: u64) -> usize {
    64 + 32 * limit as usize
}

#[derive(Clone, Copy, Debug, PartialEq, Eq)]
pub enum Call {
    /// Key limit, and the next sequence number.
    Open(u64, u64),
    Clear,
    /// Key and deadline.
    SetDeadline(u64, u64),
    Remove(u64),
    NextDeadline,
    /// At this tick.
    PopExpired(u64),
    DeadlineOf(u64),
    Contains(u64),
    /// At this tick.
    ExpiredCount(u64),
    Len,
    IsEmpty,
    HeapLen,
    Check,
    /// No operation of the index where the number is above 12.
    Other(u64),
}

/// What a call answers, and how many entries it discards.
pub type Reply = (Answer, u64);

impl replay::Call for Call {
    const NUMBERS: usize = 6;

    type Reply = Reply;

    fn words(self) -> [u64; 4] {
        match self {
            Self::Open(limit, seq) => encode(0, [limit, seq]),
            Self::Clear => encode(1, []),
            Self::SetDeadline(key, deadline) => encode(2, [key, deadline]),
            Self::Remove(key) => encode(3, [key]),
            Self::NextDeadline => encode(4, []),
            Self::PopExpired(tick) => encode(5, [tick]),
            Self::DeadlineOf(key) => encode(6, [key]),
            Self::Contains(key) => encode(7, [key]),
            Self::ExpiredCount(tick) => encode(8, [tick]),
            Self::Len => encode(9, []),
            Self::IsEmpty => encode(10, []),
            Self::HeapLen => encode(11, []),
            Self::Check => encode(12, []),
            Self::Other(operation) => encode(operation, []),
        }
    }

    fn reply(words: [u64; 4]) -> Reply {
        Answer::with_discarded(words)
    }

    fn replay(numbers: &mut [u64], words: &mut [u64], calls: &[u64], answers: &mut [u64]) -> u64 {
        exports::expiration_index(numbers, words, calls, answers)
    }
}

/// An index with words of its own. The numbers are those of its heap: key limit, keys held,
/// insertions until the map's cells are refilled, entries, next sequence number, factor.
pub type ExpirationIndex = State<Call, 6>;

impl ExpirationIndex {
    /// # Panics
    ///
    /// Where the opening is refused.
    pub fn new(limit: u64, seq: u64) -> Self {
        let mut index = Self::unopened(words_for(limit));
        assert_eq!(index.call(Call::Open(limit, seq)), (Answer::Done, 0));
        index
    }

    pub fn seq(&self) -> u64 {
        self.numbers[4]
    }
}
