//! Any words and any numbers, for every operation: the call ends, nothing is written outside, and
//! refusals come under their causes, and leave all as it was.

use crate::shared::guarded::Guarded;
use crate::shared::junk::Junk;
use crate::shared::lists;
use proved::lazy_heap::{Call, LazyMinHeap, MAX_FACTOR, MAX_LIMIT, words_for};
use proved::replay::{Answer, replay};
use samples::splitmix64::SplitMix64;

/// Refusals 1 and 2, in this order.
fn cause_of(limit: u64, words: usize) -> Option<u64> {
    if !(1..=MAX_LIMIT).contains(&limit) {
        return Some(1);
    }
    (words < words_for(limit)).then_some(2)
}

/// And refusal 5.
fn cause_with(limit: u64, words: usize, factor: u64) -> Option<u64> {
    cause_of(limit, words).or((MAX_FACTOR < factor).then_some(5))
}

fn cause(call: Call, numbers: &[u64; 6], words: usize) -> Option<u64> {
    match call {
        Call::Open(limit, factor, _) => cause_with(limit, words, factor),
        Call::SetAutoRebuild(factor) | Call::MaybeRebuild(factor) => {
            cause_with(numbers[0], words, factor)
        }
        Call::Check | Call::Other(_) => None,
        _ => cause_of(numbers[0], words),
    }
}

impl Junk {
    fn heap_numbers(&mut self, limit: u64) -> [u64; 6] {
        [
            limit,
            self.count(limit),
            self.number(),
            self.count(limit.saturating_mul(9)),
            self.number(),
            self.count(MAX_FACTOR),
        ]
    }

    /// A heap with some of its words, or of its numbers, overwritten, or none.
    fn damaged_heap(&mut self, limit: u64) -> ([u64; 6], Vec<u64>) {
        let start = match self.below(2) {
            0 => 0,
            _ => u64::MAX - self.below(20),
        };
        let mut heap = LazyMinHeap::new(limit, self.below(9), start);
        for _ in 0..4 * limit {
            let key = self.below(2 * limit);
            match self.below(6) {
                0 => heap.call(Call::Remove(key)),
                1 => heap.call(Call::PopBest),
                _ => heap.call(Call::Update(key, self.below(5))),
            };
        }
        if self.below(2) == 0 {
            let at = self.below(6) as usize;
            heap.numbers[at] = self.count(limit);
        }
        let size = self.size(words_for(limit));
        self.damage(&mut heap.words, limit, size);
        (heap.numbers, heap.words)
    }

    fn heap(&mut self) -> ([u64; 6], Vec<u64>) {
        if self.below(3) == 0 {
            let limit = 1 + self.below(9);
            return self.damaged_heap(limit);
        }
        let limit = self.limit();
        let enough = match limit {
            0..=MAX_LIMIT => words_for(limit),
            _ => words_for(4),
        };
        let size = self.size(enough);
        (self.heap_numbers(limit), self.words(limit, size))
    }

    fn heap_call(&mut self) -> Call {
        let key = self.number();
        let factor = match self.below(4) {
            0 => self.number(),
            _ => self.below(10),
        };
        match self.below(18) {
            0 => Call::Open(self.limit(), factor, self.number()),
            1 => Call::SetAutoRebuild(factor),
            2 => Call::Update(key, self.number()),
            3 => Call::Remove(key),
            4 => Call::PopBest,
            5 => Call::PeekBest,
            6 => Call::Rebuild,
            7 => Call::MaybeRebuild(factor),
            8 => Call::RenumberSeqs,
            9 => Call::Clear,
            10 => Call::AutoRebuildFactor,
            11 => Call::ScoreOf(key),
            12 => Call::Len,
            13 => Call::IsEmpty,
            14 => Call::HeapLen,
            15 => Call::Check,
            16 => Call::CountAtMost(self.number()),
            _ => Call::Other(self.no_operation(17)),
        }
    }
}

fn may_write(call: Call) -> bool {
    match call {
        Call::Open(..) | Call::Update(..) | Call::Remove(_) => true,
        Call::PopBest | Call::PeekBest | Call::Clear => true,
        Call::Rebuild | Call::MaybeRebuild(_) | Call::RenumberSeqs => true,
        _ => false,
    }
}

/// One call, with all that holds of any words.
fn call_on_junk(numbers: &mut [u64; 6], words: &mut Guarded, call: Call) {
    let numbers_before = *numbers;
    let words_before = words.lent().to_vec();
    let (answer, discarded) = replay(numbers, words.lent(), &[call])[0];
    words.assert_guards();

    let refusal = match answer {
        Answer::Refused(number) => Some(number),
        _ => None,
    };
    let cause = cause(call, &numbers_before, words_before.len());
    // Refusal 4 may come without its cause where words and numbers are no heap.
    let is_full = matches!(call, Call::Update(..)) && cause.is_none() && refusal == Some(4);
    if !is_full {
        assert_eq!(refusal, cause, "{numbers_before:?} {call:?}");
    }

    if refusal.is_some() {
        let expected = match call {
            Call::Open(..) => [0; 6],
            _ => numbers_before,
        };
        assert_eq!((*numbers, discarded), (expected, 0), "{call:?}");
        assert_eq!(words.lent(), words_before, "{call:?}");
        return;
    }
    let limit = match call {
        Call::Open(limit, ..) => limit,
        _ => numbers_before[0],
    };
    let own = if may_write(call) { words_for(limit) } else { 0 };
    assert_eq!(words.lent()[own..], words_before[own..], "{call:?}");
    match call {
        Call::Open(_, factor, seq) => {
            assert_eq!(numbers[..2], [limit, 0]);
            assert_eq!(numbers[3..], [0, seq, factor.max(1)]);
            assert_use(numbers, words);
        }
        Call::SetAutoRebuild(factor) => {
            assert_eq!(numbers[..5], numbers_before[..5]);
            assert_eq!(numbers[5], factor.max(1));
        }
        Call::Other(_) => assert_eq!(answer, Answer::Unknown),
        _ => {}
    }
    if !may_write(call) && !matches!(call, Call::SetAutoRebuild(_)) {
        assert_eq!(*numbers, numbers_before, "{call:?}");
    }
}

/// A heap just opened works, whatever its words held.
fn assert_use(numbers: &mut [u64; 6], words: &mut Guarded) {
    let calls = [
        Call::IsEmpty,
        Call::Update(7, 70),
        Call::ScoreOf(7),
        Call::PeekBest,
        Call::PopBest,
        Call::PopBest,
    ];
    let answers: Vec<Answer> = replay(numbers, words.lent(), &calls)
        .into_iter()
        .map(|(answer, _)| answer)
        .collect();
    let best = Answer::Pair(7, 70);
    assert_eq!(
        answers,
        [
            Answer::Yes,
            Answer::Nothing,
            Answer::Number(70),
            best,
            best,
            Answer::Nothing
        ]
    );
}

#[test]
fn every_operation_on_any_words() {
    let mut junk = Junk(SplitMix64(1));
    for _ in 0..60_000 {
        let (mut numbers, words) = junk.heap();
        let mut words = Guarded::new(&words);
        for _ in 0..1 + junk.below(12) {
            call_on_junk(&mut numbers, &mut words, junk.heap_call());
        }
    }
}

#[test]
fn the_largest_heaps_of_junk() {
    let mut junk = Junk(SplitMix64(2));
    for _ in 0..50 {
        let limit = junk.pick(&[4095, 4096, 4096, 4097]);
        let size = junk.size(words_for(limit.min(MAX_LIMIT)));
        let mut numbers = junk.heap_numbers(limit);
        let mut words = Guarded::new(&junk.words(limit, size));
        for _ in 0..8 {
            call_on_junk(&mut numbers, &mut words, junk.heap_call());
        }
    }
}

#[test]
fn refusals_at_their_edges() {
    let open = |limit, factor, size| {
        let mut words = vec![u64::MAX; size];
        replay(&mut [9; 6], &mut words, &[Call::Open(limit, factor, 5)])[0].0
    };
    for limit in [1, 2, 7, 64, 4095, 4096] {
        let enough = words_for(limit);
        assert_eq!(open(limit, 2, enough), Answer::Done);
        assert_eq!(open(limit, 2, enough - 1), Answer::Refused(2));
        assert_eq!(open(limit, 8, enough), Answer::Done);
        assert_eq!(open(limit, 9, enough), Answer::Refused(5));
        assert_eq!(open(limit, 9, enough - 1), Answer::Refused(2));
    }
    for limit in [0, 4097, u64::MAX] {
        assert_eq!(open(limit, 9, words_for(4097)), Answer::Refused(1));
        assert_eq!(open(limit, 2, 0), Answer::Refused(1));
    }
}

/// Answers are free on such numbers. These are the answers from before docs/DESIGN-PASS.md, so that
/// no change of them goes unseen: nothing is rebuilt, and no count beyond a heap's is told.
#[test]
fn numbers_that_no_call_stores() {
    let mut words = [0; 192];
    let more_keys_than_any_limit = &mut [4, 5000, 1, 10_000, 0, 2];
    let answers = replay(more_keys_than_any_limit, &mut words, &[Call::MaybeRebuild(1)]);
    assert_eq!(answers, [(Answer::Done, 0)]);

    let mut heap = LazyMinHeap::new(4, 8, 0);
    heap.numbers[5] = 9;
    for score in 0..10 {
        assert_eq!(heap.call(Call::Update(1, score)).1, 0);
    }
    assert_eq!(heap.numbers[3], 10);

    let mut heap = LazyMinHeap::new(4, 8, 0);
    heap.numbers[3] = 40_000;
    heap.numbers[4] = u64::MAX;
    assert_eq!(heap.call(Call::Update(1, 5)), (Answer::Nothing, 0));
}

#[test]
fn lists_of_any_length() {
    lists::of_any_length::<Call>(17, words_for);
}
