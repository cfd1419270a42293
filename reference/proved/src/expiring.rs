//! The book of crates/expiring. Its operations are those of crates/replay_expiring/src/lib.rt.

use crate::exports;
use crate::replay::Answer;
use std::time::Duration;

pub const MAX_CAPACITY: u64 = 4096;
pub const MAX_LIMIT: u64 = 4096;
pub const NUMBERS: usize = 12;

/// The words of a book with room for `capacity` values and `limit` deadlines.
pub fn words_for(capacity: u64, limit: u64) -> usize {
    128 + 8 * capacity as usize + 32 * limit as usize
}

/// Seconds and nanoseconds, which need not be below a second.
#[derive(Clone, Copy, Debug, Default, PartialEq, Eq)]
pub struct Ttl {
    pub secs: u64,
    pub nanos: u64,
}

impl Ttl {
    pub fn from_millis(millis: u64) -> Self {
        Self {
            secs: millis / 1000,
            nanos: millis % 1000 * 1_000_000,
        }
    }

    /// None where refusal 3 is due.
    pub fn duration(self) -> Option<Duration> {
        (self.nanos < 1_000_000_000).then(|| Duration::new(self.secs, self.nanos as u32))
    }
}

#[derive(Clone, Copy, Debug, Default, PartialEq, Eq)]
pub struct Opening {
    pub capacity: u64,
    pub limit: u64,
    /// The first sequence number.
    pub seq: u64,
    pub default_ttl: Option<Ttl>,
}

impl Opening {
    pub fn words(self) -> [u64; 6] {
        let given = u64::from(self.default_ttl.is_some());
        let ttl = self.default_ttl.unwrap_or_default();
        [
            self.capacity,
            self.limit,
            self.seq,
            given,
            ttl.secs,
            ttl.nanos,
        ]
    }
}

#[derive(Clone, Copy, Debug, PartialEq, Eq)]
pub enum Call {
    /// Key and value.
    Insert(u64, u64),
    InsertWithTtl(u64, u64, Ttl),
    Get(u64),
    Remove(u64),
    Clear,
    SetTtl(u64, Ttl),
    PurgeExpired,
    NextDeadline,
    Touch(u64),
    PopLru,
    Contains(u64),
    Peek(u64),
    TtlStatus(u64),
    RecencyRank(u64),
    LiveLen,
    Expirations,
    PeekLru,
}

/// How many there are.
pub const OPERATIONS: u64 = 17;

impl Call {
    /// With the tick that the clock reads.
    pub fn words(self, tick: u64) -> [u64; 6] {
        let encode =
            |operation, key, value, ttl: Ttl| [operation, tick, key, value, ttl.secs, ttl.nanos];
        let none = Ttl::default();
        match self {
            Self::Insert(key, value) => encode(0, key, value, none),
            Self::InsertWithTtl(key, value, ttl) => encode(1, key, value, ttl),
            Self::Get(key) => encode(2, key, 0, none),
            Self::Remove(key) => encode(3, key, 0, none),
            Self::Clear => encode(4, 0, 0, none),
            Self::SetTtl(key, ttl) => encode(5, key, 0, ttl),
            Self::PurgeExpired => encode(6, 0, 0, none),
            Self::NextDeadline => encode(7, 0, 0, none),
            Self::Touch(key) => encode(8, key, 0, none),
            Self::PopLru => encode(9, 0, 0, none),
            Self::Contains(key) => encode(10, key, 0, none),
            Self::Peek(key) => encode(11, key, 0, none),
            Self::TtlStatus(key) => encode(12, key, 0, none),
            Self::RecencyRank(key) => encode(13, key, 0, none),
            Self::LiveLen => encode(14, 0, 0, none),
            Self::Expirations => encode(15, 0, 0, none),
            Self::PeekLru => encode(16, 0, 0, none),
        }
    }

    /// The lifetime that it brings.
    pub fn ttl(self) -> Option<Ttl> {
        match self {
            Self::InsertWithTtl(_, _, ttl) | Self::SetTtl(_, ttl) => Some(ttl),
            _ => None,
        }
    }
}

/// What a call answers, and how many entries it discards.
pub type Reply = (Answer, u64);

/// Opens a book in lent words.
pub fn open(numbers: &mut [u64], words: &mut [u64], opening: Opening) -> Answer {
    let mut answer = [0; 4];
    let ran = exports::open_expiring(numbers, words, &opening.words(), &mut answer);
    assert_eq!(ran, 1);
    Answer::from_words(answer)
}

/// Runs calls in words on lent words and numbers, and says how many it ran.
pub fn replay(numbers: &mut [u64], words: &mut [u64], calls: &[u64], answers: &mut [u64]) -> u64 {
    exports::expiring(numbers, words, calls, answers)
}

/// One call on lent words and numbers.
pub fn call(numbers: &mut [u64], words: &mut [u64], tick: u64, call: Call) -> Reply {
    let mut answer = [0; 4];
    let ran = replay(numbers, words, &call.words(tick), &mut answer);
    assert_eq!(ran, 1);
    Answer::with_discarded(answer)
}

/// Whether words and numbers form a book.
pub fn check(numbers: &[u64], words: &[u64]) -> bool {
    match exports::check_expiring(numbers, words) {
        0 => false,
        1 => true,
        other => panic!("the check said {other}"),
    }
}

/// A book with words of its own.
#[derive(Clone, Debug)]
pub struct Expiring {
    pub numbers: [u64; NUMBERS],
    pub words: Vec<u64>,
}

impl Expiring {
    /// # Panics
    ///
    /// Where the opening is refused.
    pub fn new(opening: Opening) -> Self {
        let mut book = Self {
            numbers: [0; NUMBERS],
            words: vec![0; words_for(opening.capacity, opening.limit)],
        };
        let answer = open(&mut book.numbers, &mut book.words, opening);
        assert_eq!(answer, Answer::Done);
        book
    }

    pub fn call(&mut self, tick: u64, of: Call) -> Reply {
        call(&mut self.numbers, &mut self.words, tick, of)
    }

    /// As many calls as `calls` has six words for, with their answers as words.
    pub fn replay(&mut self, calls: &[[u64; 6]], answers: &mut [[u64; 4]]) {
        let ran = replay(
            &mut self.numbers,
            &mut self.words,
            calls.as_flattened(),
            answers.as_flattened_mut(),
        );
        assert_eq!(ran, calls.len() as u64);
    }

    pub fn check(&self) -> bool {
        check(&self.numbers, &self.words)
    }

    /// Values stored.
    pub fn len(&self) -> u64 {
        self.numbers[1]
    }

    pub fn is_empty(&self) -> bool {
        self.len() == 0
    }

    /// Deadlines held.
    pub fn held(&self) -> u64 {
        self.numbers[4]
    }

    /// Entries in the heap.
    pub fn entries(&self) -> u64 {
        self.numbers[6]
    }

    /// The next sequence number.
    pub fn seq(&self) -> u64 {
        self.numbers[7]
    }

    pub fn expirations(&self) -> u64 {
        self.numbers[11]
    }
}
