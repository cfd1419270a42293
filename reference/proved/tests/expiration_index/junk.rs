//! Any words and any numbers, for every operation: the call ends, nothing is written outside, and
//! refusals come under their causes, and leave all as it was.

use crate::shared::guarded::Guarded;
use crate::shared::junk::Junk;
use crate::shared::lists;
use proved::expiration_index::{Call, ExpirationIndex, MAX_LIMIT, words_for};
use proved::lazy_heap;
use proved::replay::{Answer, replay};
use samples::splitmix64::SplitMix64;

const FACTOR: u64 = 2;

/// Refusals 1 and 2, in this order.
fn cause_of(limit: u64, words: usize) -> Option<u64> {
    if !(1..=MAX_LIMIT).contains(&limit) {
        return Some(1);
    }
    (words < words_for(limit)).then_some(2)
}

fn cause(call: Call, numbers: &[u64; 6], words: usize) -> Option<u64> {
    match call {
        Call::Open(limit, _) => cause_of(limit, words),
        Call::Check | Call::Other(_) => None,
        _ => cause_of(numbers[0], words),
    }
}

impl Junk {
    fn index_numbers(&mut self, limit: u64) -> [u64; 6] {
        [
            limit,
            self.count(limit),
            self.number(),
            self.count(limit.saturating_mul(9)),
            self.number(),
            self.count(FACTOR),
        ]
    }

    /// An index with some of its words, or of its numbers, overwritten, or none.
    fn damaged_index(&mut self, limit: u64) -> ([u64; 6], Vec<u64>) {
        let start = match self.below(2) {
            0 => 0,
            _ => u64::MAX - self.below(20),
        };
        let mut index = ExpirationIndex::new(limit, start);
        for _ in 0..4 * limit {
            let key = self.below(2 * limit);
            match self.below(6) {
                0 => index.call(Call::Remove(key)),
                1 => index.call(Call::PopExpired(self.below(5))),
                _ => index.call(Call::SetDeadline(key, self.below(5))),
            };
        }
        if self.below(2) == 0 {
            let at = self.below(6) as usize;
            index.numbers[at] = self.count(limit);
        }
        let size = self.size(words_for(limit));
        self.damage(&mut index.words, limit, size);
        (index.numbers, index.words)
    }

    fn index(&mut self) -> ([u64; 6], Vec<u64>) {
        if self.below(3) == 0 {
            let limit = 1 + self.below(9);
            return self.damaged_index(limit);
        }
        let limit = self.limit();
        let enough = match limit {
            0..=MAX_LIMIT => words_for(limit),
            _ => words_for(4),
        };
        let size = self.size(enough);
        (self.index_numbers(limit), self.words(limit, size))
    }

    fn index_call(&mut self) -> Call {
        let key = self.number();
        match self.below(14) {
            0 => Call::Open(self.limit(), self.number()),
            1 => Call::Clear,
            2 => Call::SetDeadline(key, self.number()),
            3 => Call::Remove(key),
            4 => Call::NextDeadline,
            5 => Call::PopExpired(self.number()),
            6 => Call::DeadlineOf(key),
            7 => Call::Contains(key),
            8 => Call::ExpiredCount(self.number()),
            9 => Call::Len,
            10 => Call::IsEmpty,
            11 => Call::HeapLen,
            12 => Call::Check,
            _ => Call::Other(self.no_operation(13)),
        }
    }
}

fn may_write(call: Call) -> bool {
    match call {
        Call::Open(..) | Call::Clear => true,
        Call::SetDeadline(..) | Call::Remove(_) => true,
        Call::NextDeadline | Call::PopExpired(_) => true,
        _ => false,
    }
}

/// One call, with all that holds of any words.
fn call_on_junk(numbers: &mut [u64; 6], words: &mut Guarded, call: Call) {
    let numbers_before = *numbers;
    let words_before = words.lent().to_vec();
    let (answer, discarded) = replay(numbers, words.lent(), &[call])[0];
    words.assert_guards();

    let refusal = match answer {
        Answer::Refused(number) => Some(number),
        _ => None,
    };
    let cause = cause(call, &numbers_before, words_before.len());
    // Refusal 4 may come without its cause where words and numbers are no index.
    let is_full = matches!(call, Call::SetDeadline(..)) && cause.is_none() && refusal == Some(4);
    if !is_full {
        assert_eq!(refusal, cause, "{numbers_before:?} {call:?}");
    }

    if refusal.is_some() {
        let expected = match call {
            Call::Open(..) => [0; 6],
            _ => numbers_before,
        };
        assert_eq!((*numbers, discarded), (expected, 0), "{call:?}");
        assert_eq!(words.lent(), words_before, "{call:?}");
        return;
    }
    let limit = match call {
        Call::Open(limit, _) => limit,
        _ => numbers_before[0],
    };
    let own = if may_write(call) { words_for(limit) } else { 0 };
    assert_eq!(words.lent()[own..], words_before[own..], "{call:?}");
    if call != Call::Check && !matches!(call, Call::Other(_)) {
        assert_eq!(numbers[0], limit, "{call:?}");
    }
    match call {
        Call::Open(_, seq) => {
            assert_eq!(numbers[..2], [limit, 0]);
            assert_eq!(numbers[3..], [0, seq, FACTOR]);
            assert_use(numbers, words);
        }
        // An index is a heap of the index's factor.
        Call::Check => {
            let is_heap = replay(numbers, words.lent(), &[lazy_heap::Call::Check])[0].0;
            let expected = Answer::from_bool(numbers[5] == FACTOR && is_heap == Answer::Yes);
            assert_eq!(answer, expected, "{numbers:?}");
        }
        Call::Other(_) => assert_eq!(answer, Answer::Unknown),
        _ => {}
    }
    if !may_write(call) {
        assert_eq!(*numbers, numbers_before, "{call:?}");
    }
}

/// An index just opened works, whatever its words held.
fn assert_use(numbers: &mut [u64; 6], words: &mut Guarded) {
    let calls = [
        Call::Check,
        Call::IsEmpty,
        Call::SetDeadline(7, 70),
        Call::DeadlineOf(7),
        Call::NextDeadline,
        Call::PopExpired(69),
        Call::ExpiredCount(69),
        Call::ExpiredCount(70),
        Call::PopExpired(70),
        Call::PopExpired(70),
        Call::Contains(7),
        Call::Check,
    ];
    let answers: Vec<Answer> = replay(numbers, words.lent(), &calls)
        .into_iter()
        .map(|(answer, _)| answer)
        .collect();
    let due = Answer::Pair(7, 70);
    assert_eq!(
        answers,
        [
            Answer::Yes,
            Answer::Yes,
            Answer::Nothing,
            Answer::Number(70),
            due,
            Answer::Nothing,
            Answer::Number(0),
            Answer::Number(1),
            due,
            Answer::Nothing,
            Answer::No,
            Answer::Yes,
        ]
    );
}

#[test]
fn every_operation_on_any_words() {
    let mut junk = Junk(SplitMix64(1));
    for _ in 0..30_000 {
        let (mut numbers, words) = junk.index();
        let mut words = Guarded::new(&words);
        for _ in 0..1 + junk.below(12) {
            call_on_junk(&mut numbers, &mut words, junk.index_call());
        }
    }
}

#[test]
fn the_largest_indexes_of_junk() {
    let mut junk = Junk(SplitMix64(2));
    for _ in 0..25 {
        let limit = junk.pick(&[4095, 4096, 4096, 4097]);
        let size = junk.size(words_for(limit.min(MAX_LIMIT)));
        let mut numbers = junk.index_numbers(limit);
        let mut words = Guarded::new(&junk.words(limit, size));
        for _ in 0..8 {
            call_on_junk(&mut numbers, &mut words, junk.index_call());
        }
    }
}

#[test]
fn refusals_at_their_edges() {
    let open = |limit, size| {
        let mut words = vec![u64::MAX; size];
        replay(&mut [9; 6], &mut words, &[Call::Open(limit, 5)])[0].0
    };
    for limit in [1, 2, 7, 64, 4095, 4096] {
        assert_eq!(open(limit, words_for(limit)), Answer::Done);
        assert_eq!(open(limit, words_for(limit) - 1), Answer::Refused(2));
    }
    for limit in [0, 4097, u64::MAX] {
        assert_eq!(open(limit, words_for(4097)), Answer::Refused(1));
        assert_eq!(open(limit, 0), Answer::Refused(1));
    }
}

#[test]
fn lists_of_any_length() {
    lists::of_any_length::<Call>(13, words_for);
}
