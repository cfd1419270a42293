//! The recency list of crates/fast_lru. Its operations are those of
//! crates/replay_fast_lru/src/lib.rt.

use crate::exports;
use crate::replay::{self, Answer, State, encode};

pub const MAX_CAPACITY: u64 = 4096;

/// The words of a list with room for `capacity` items.
pub fn words_for(capacity: u64) -> usize {
    64 + 8 * capacity as usize
}

#[derive(Clone, Copy, Debug, PartialEq, Eq)]
pub enum Call {
    New(u64),
    Clear,
    /// Key and value.
    Insert(u64, u64),
    Get(u64),
    Remove(u64),
    PopLru,
    Touch(u64),
    Peek(u64),
    Contains(u64),
    PeekLru,
    RecencyRank(u64),
    Len,
    IsEmpty,
    Capacity,
    Check,
    /// No operation of the list where the number is above 14.
    Other(u64),
}

impl replay::Call for Call {
    const NUMBERS: usize = 3;

    type Reply = Answer;

    fn words(self) -> [u64; 4] {
        match self {
            Self::New(capacity) => encode(0, [capacity]),
            Self::Clear => encode(1, []),
            Self::Insert(key, value) => encode(2, [key, value]),
            Self::Get(key) => encode(3, [key]),
            Self::Remove(key) => encode(4, [key]),
            Self::PopLru => encode(5, []),
            Self::Touch(key) => encode(6, [key]),
            Self::Peek(key) => encode(7, [key]),
            Self::Contains(key) => encode(8, [key]),
            Self::PeekLru => encode(9, []),
            Self::RecencyRank(key) => encode(10, [key]),
            Self::Len => encode(11, []),
            Self::IsEmpty => encode(12, []),
            Self::Capacity => encode(13, []),
            Self::Check => encode(14, []),
            Self::Other(operation) => encode(operation, []),
        }
    }

    fn reply(words: [u64; 4]) -> Answer {
        Answer::from_words(words)
    }

    fn replay(numbers: &mut [u64], words: &mut [u64], calls: &[u64], answers: &mut [u64]) -> u64 {
        exports::fast_lru(numbers, words, calls, answers)
    }
}

/// A list with words of its own. The numbers are those of its map: capacity, length, and insertions
/// until the cells are refilled.
pub type FastLru = State<Call, 3>;

impl FastLru {
    /// # Panics
    ///
    /// Where the capacity is above [`MAX_CAPACITY`].
    pub fn new(capacity: u64) -> Self {
        let mut list = Self::unopened(words_for(capacity));
        assert_eq!(list.call(Call::New(capacity)), Answer::Done);
        list
    }
}
