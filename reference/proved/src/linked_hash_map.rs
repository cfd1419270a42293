//! The map of crates/linked_hash_map. Its operations are those of
//! crates/replay_linked_hash_map/src/lib.rt.

use crate::exports;
use crate::replay::{self, Answer, Record, State, encode};

pub const MAX_CAPACITY: u64 = 4096;

/// The words of a map with room for `capacity` records.
pub fn words_for(capacity: u64) -> usize {
    8 * capacity as usize + 58
}

#[derive(Clone, Copy, Debug, PartialEq, Eq)]
pub enum Call {
    Open(u64),
    Clear,
    Touch(u64),
    SetPayload(Record),
    Put(Record),
    Remove(u64),
    Find(u64),
    Record(u64),
    First,
    Last,
    Next(u64),
    Previous(u64),
    Check,
    /// No operation of the map where the number is above 12.
    Other(u64),
}

impl replay::Call for Call {
    const NUMBERS: usize = 3;

    type Reply = Answer;

    fn words(self) -> [u64; 4] {
        let with_payload = |operation, r: Record| [operation, r.key, r.first, r.second];
        match self {
            Self::Open(capacity) => encode(0, [capacity]),
            Self::Clear => encode(1, []),
            Self::Touch(key) => encode(2, [key]),
            Self::SetPayload(record) => with_payload(3, record),
            Self::Put(record) => with_payload(4, record),
            Self::Remove(key) => encode(5, [key]),
            Self::Find(key) => encode(6, [key]),
            Self::Record(slot) => encode(7, [slot]),
            Self::First => encode(8, []),
            Self::Last => encode(9, []),
            Self::Next(slot) => encode(10, [slot]),
            Self::Previous(slot) => encode(11, [slot]),
            Self::Check => encode(12, []),
            Self::Other(operation) => encode(operation, []),
        }
    }

    fn reply(words: [u64; 4]) -> Answer {
        Answer::from_words(words)
    }

    fn replay(numbers: &mut [u64], words: &mut [u64], calls: &[u64], answers: &mut [u64]) -> u64 {
        exports::linked_hash_map(numbers, words, calls, answers)
    }
}

/// A map with words of its own. The numbers are capacity, length, and insertions until the cells
/// are refilled.
pub type LinkedHashMap = State<Call, 3>;

impl LinkedHashMap {
    /// # Panics
    ///
    /// Where the capacity is above [`MAX_CAPACITY`].
    pub fn new(capacity: u64) -> Self {
        let mut map = Self::unopened(words_for(capacity));
        assert_eq!(map.call(Call::Open(capacity)), Answer::Yes);
        map
    }
}
