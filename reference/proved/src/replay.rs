//! What the layers have in common: a list of calls goes in, a list of answers comes out, four words
//! each (crates/replay/src/lib.rt).

use std::marker::PhantomData;

/// A call of one layer.
pub trait Call: Copy {
    /// How many numbers the layer has.
    const NUMBERS: usize;

    type Reply;

    fn words(self) -> [u64; 4];

    /// # Panics
    ///
    /// On words that are no answer of the layer.
    fn reply(words: [u64; 4]) -> Self::Reply;

    /// The exported function.
    fn replay(numbers: &mut [u64], words: &mut [u64], calls: &[u64], answers: &mut [u64]) -> u64;
}

/// An operation and its arguments, zeros after them.
pub fn encode<const N: usize>(operation: u64, arguments: [u64; N]) -> [u64; 4] {
    let mut words = [operation, 0, 0, 0];
    words[1..=N].copy_from_slice(&arguments);
    words
}

#[derive(Clone, Copy, Debug, Default, PartialEq, Eq)]
pub struct Record {
    pub key: u64,
    pub first: u64,
    pub second: u64,
}

#[derive(Clone, Copy, Debug, PartialEq, Eq)]
pub enum Answer {
    No,
    Yes,
    Nothing,
    Number(u64),
    Pair(u64, u64),
    Record(Record),
    Inserted,
    Replaced(Record),
    Full,
    Done,
    /// By its number, 0 where it has none.
    Refused(u64),
    /// There is no such operation.
    Unknown,
    /// Of `ttl_status`, as the next three.
    Missing,
    Immortal,
    Expired,
    /// What remains, and the deadline.
    Live(u64, u64),
}

impl Answer {
    /// An answer, and how many entries the call discarded.
    ///
    /// # Panics
    ///
    /// On words that are no answer.
    pub fn with_discarded(words: [u64; 4]) -> (Self, u64) {
        let [code, key, first, second] = words;
        let record = Record { key, first, second };
        let (answer, rest) = match code {
            0 => (Self::No, words),
            1 => (Self::Yes, words),
            2 => (Self::Nothing, words),
            3 => (Self::Number(key), [code, 0, first, second]),
            4 => (Self::Pair(key, first), [code, 0, 0, second]),
            5 => (Self::Record(record), [code, 0, 0, 0]),
            6 => (Self::Inserted, words),
            7 => (Self::Replaced(record), [code, 0, 0, 0]),
            8 => (Self::Full, words),
            9 => (Self::Done, words),
            10 => (Self::Refused(key), [code, 0, first, second]),
            11 => (Self::Unknown, words),
            12 => (Self::Missing, words),
            13 => (Self::Immortal, words),
            14 => (Self::Expired, words),
            15 => (Self::Live(key, first), [code, 0, 0, second]),
            _ => panic!("no answer has code {code}"),
        };
        let [_, 0, 0, discarded] = rest else {
            panic!("{words:?} says more than its code");
        };
        (answer, discarded)
    }

    /// An answer of a layer that discards nothing.
    ///
    /// # Panics
    ///
    /// On words that are no such answer.
    pub fn from_words(words: [u64; 4]) -> Self {
        let (answer, discarded) = Self::with_discarded(words);
        assert_eq!(discarded, 0);
        answer
    }

    pub fn from_bool(yes: bool) -> Self {
        if yes { Self::Yes } else { Self::No }
    }

    pub fn from_number(number: Option<u64>) -> Self {
        number.map_or(Self::Nothing, Self::Number)
    }

    pub fn from_pair(pair: Option<(u64, u64)>) -> Self {
        pair.map_or(Self::Nothing, |(first, second)| Self::Pair(first, second))
    }
}

/// Runs calls on lent words and numbers.
pub fn replay<C: Call>(numbers: &mut [u64], words: &mut [u64], calls: &[C]) -> Vec<C::Reply> {
    let calls: Vec<[u64; 4]> = calls.iter().map(|call| call.words()).collect();
    let mut answers = vec![[0; 4]; calls.len()];
    let ran = C::replay(
        numbers,
        words,
        calls.as_flattened(),
        answers.as_flattened_mut(),
    );
    assert_eq!(ran, calls.len() as u64);
    answers.into_iter().map(C::reply).collect()
}

/// A layer's numbers, with words of their own.
#[derive(Clone, Debug)]
pub struct State<C, const NUMBERS: usize> {
    pub numbers: [u64; NUMBERS],
    pub words: Vec<u64>,
    calls: PhantomData<C>,
}

impl<C: Call, const NUMBERS: usize> State<C, NUMBERS> {
    /// Numbers and words that are all 0, which is no state of any layer.
    pub fn unopened(words: usize) -> Self {
        assert_eq!(NUMBERS, C::NUMBERS);
        Self {
            numbers: [0; NUMBERS],
            words: vec![0; words],
            calls: PhantomData,
        }
    }

    pub fn replay(&mut self, calls: &[C]) -> Vec<C::Reply> {
        replay(&mut self.numbers, &mut self.words, calls)
    }

    pub fn call(&mut self, call: C) -> C::Reply {
        let mut answer = [0; 4];
        let ran = C::replay(
            &mut self.numbers,
            &mut self.words,
            &call.words(),
            &mut answer,
        );
        assert_eq!(ran, 1);
        C::reply(answer)
    }
}
