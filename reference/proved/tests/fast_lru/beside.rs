//! The proved list and the Rust's, call by call: answers and length.

use cachekit::policy::fast_lru as rust;
use proved::fast_lru::{Call, FastLru};
use proved::replay::Answer;

pub struct Beside {
    proved: FastLru,
    rust: rust::FastLru<u64, u64>,
    pub tally: Tally,
}

/// How often the rare things happened.
#[derive(Clone, Copy, Debug, Default)]
pub struct Tally {
    pub calls: u64,
    pub evictions: u64,
    /// Inserts that replaced a value, and other calls that found their key.
    pub hits: u64,
    pub misses: u64,
}

impl std::ops::AddAssign for Tally {
    fn add_assign(&mut self, other: Self) {
        self.calls += other.calls;
        self.evictions += other.evictions;
        self.hits += other.hits;
        self.misses += other.misses;
    }
}

impl Beside {
    pub fn new(capacity: u64) -> Self {
        Self {
            proved: FastLru::new(capacity),
            rust: rust::FastLru::new(capacity as usize),
            tally: Tally::default(),
        }
    }

    pub fn call(&mut self, call: Call) {
        let answers = self.proved.replay(&[call, Call::Len]);
        let len = self.rust.len();
        let answer = self.rust_answer(call);
        assert_eq!(answers[0], answer, "{call:?}");
        assert_eq!(answers[1], number(self.rust.len()), "after {call:?}");

        self.tally.calls += 1;
        match (call, answer) {
            (Call::Insert(..), Answer::Nothing) if self.rust.len() == len => {
                self.tally.evictions += 1
            }
            (_, Answer::Number(_) | Answer::Yes) => self.tally.hits += 1,
            (_, Answer::Nothing | Answer::No) => self.tally.misses += 1,
            _ => {}
        }
    }

    /// The place of every key, and the check.
    pub fn expect_whole(&mut self, keys: &[u64]) {
        for &key in keys {
            self.call(Call::RecencyRank(key));
        }
        self.call(Call::Capacity);
        assert_eq!(self.proved.call(Call::Check), Answer::Yes);
    }

    /// Takes every item out, oldest first.
    pub fn drain(&mut self) {
        while !self.rust.is_empty() {
            self.call(Call::PeekLru);
            self.call(Call::PopLru);
        }
        self.call(Call::PopLru);
        self.call(Call::IsEmpty);
    }

    fn rust_answer(&mut self, call: Call) -> Answer {
        let rust = &mut self.rust;
        match call {
            Call::New(_) | Call::Check => panic!("the Rust has no {call:?}"),
            Call::Clear => {
                rust.clear();
                Answer::Done
            }
            Call::Insert(key, value) => Answer::from_number(rust.insert(key, value)),
            Call::Get(key) => Answer::from_number(rust.get(&key).copied()),
            Call::Remove(key) => Answer::from_number(rust.remove(&key)),
            Call::PopLru => Answer::from_pair(rust.pop_lru()),
            Call::Touch(key) => Answer::from_bool(rust.touch(&key)),
            Call::Peek(key) => Answer::from_number(rust.peek(&key).copied()),
            Call::Contains(key) => Answer::from_bool(rust.contains(&key)),
            Call::PeekLru => Answer::from_pair(rust.peek_lru().map(|(&key, &value)| (key, value))),
            Call::RecencyRank(key) => {
                Answer::from_number(rust.recency_rank(&key).map(|rank| rank as u64))
            }
            Call::Len => number(rust.len()),
            Call::IsEmpty => Answer::from_bool(rust.is_empty()),
            Call::Capacity => number(rust.capacity()),
            Call::Other(_) => Answer::Unknown,
        }
    }
}

fn number(n: usize) -> Answer {
    Answer::Number(n as u64)
}
