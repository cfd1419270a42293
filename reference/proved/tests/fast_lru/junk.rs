//! Any words and any numbers, for every operation: the call ends, nothing is written outside, and
//! refusals come under their causes alone, and leave all as it was.

use crate::shared::guarded::Guarded;
use crate::shared::junk::Junk;
use crate::shared::lists;
use proved::fast_lru::{Call, FastLru, MAX_CAPACITY, words_for};
use proved::replay::{Answer, replay};
use samples::splitmix64::SplitMix64;

/// Refusals 1 and 2, in this order.
fn cause_of(capacity: u64, words: usize) -> Option<u64> {
    if MAX_CAPACITY < capacity {
        return Some(1);
    }
    (words < words_for(capacity)).then_some(2)
}

fn cause(call: Call, numbers: &[u64; 3], words: usize) -> Option<u64> {
    match call {
        Call::New(capacity) => cause_of(capacity, words),
        Call::Check | Call::Other(_) => None,
        // The numbers of a refused `new`.
        _ if *numbers == [0; 3] => Some(1),
        _ => cause_of(numbers[0], words),
    }
}

impl Junk {
    /// A list with some of its words, or of its numbers, overwritten, or none.
    fn damaged_list(&mut self, capacity: u64) -> ([u64; 3], Vec<u64>) {
        let mut list = FastLru::new(capacity);
        for _ in 0..3 * capacity {
            let key = self.below(2 * capacity);
            match self.below(4) {
                0 => list.call(Call::Remove(key)),
                _ => list.call(Call::Insert(key, self.number())),
            };
        }
        if self.below(2) == 0 {
            let at = self.below(3) as usize;
            list.numbers[at] = self.count(capacity);
        }
        let size = self.size(words_for(capacity));
        self.damage(&mut list.words, capacity, size);
        (list.numbers, list.words)
    }

    fn list(&mut self) -> ([u64; 3], Vec<u64>) {
        if self.below(3) == 0 {
            let capacity = self.below(9);
            return self.damaged_list(capacity);
        }
        let capacity = self.limit();
        let size = self.size(words_for(capacity.min(MAX_CAPACITY)));
        let numbers = match self.below(20) {
            0 => [0; 3],
            _ => [capacity, self.count(capacity), self.number()],
        };
        (numbers, self.words(capacity, size))
    }

    fn list_call(&mut self) -> Call {
        let key = self.number();
        match self.below(16) {
            0 => Call::New(self.limit()),
            1 => Call::Clear,
            2 => Call::Insert(key, self.number()),
            3 => Call::Get(key),
            4 => Call::Remove(key),
            5 => Call::PopLru,
            6 => Call::Touch(key),
            7 => Call::Peek(key),
            8 => Call::Contains(key),
            9 => Call::PeekLru,
            10 => Call::RecencyRank(key),
            11 => Call::Len,
            12 => Call::IsEmpty,
            13 => Call::Capacity,
            14 => Call::Check,
            _ => Call::Other(self.no_operation(15)),
        }
    }
}

fn may_write(call: Call) -> bool {
    match call {
        Call::New(_) | Call::Clear | Call::Insert(..) | Call::Remove(_) => true,
        Call::Get(_) | Call::Touch(_) | Call::PopLru => true,
        _ => false,
    }
}

/// One call, with all that holds of any words.
fn call_on_junk(numbers: &mut [u64; 3], words: &mut Guarded, call: Call) {
    let numbers_before = *numbers;
    let words_before = words.lent().to_vec();
    let answer = replay(numbers, words.lent(), &[call])[0];
    words.assert_guards();

    let refusal = match answer {
        Answer::Refused(number) => Some(number),
        _ => None,
    };
    let cause = cause(call, &numbers_before, words_before.len());
    assert_eq!(refusal, cause, "{numbers_before:?} {call:?}");
    if refusal.is_some() {
        let expected = match call {
            Call::New(_) => [0; 3],
            _ => numbers_before,
        };
        assert_eq!(*numbers, expected, "{call:?}");
        assert_eq!(words.lent(), words_before, "{call:?}");
        return;
    }

    let capacity = match call {
        Call::New(capacity) => capacity,
        _ => numbers_before[0],
    };
    let own = match may_write(call) {
        true => words_for(capacity),
        false => 0,
    };
    assert_eq!(words.lent()[own..], words_before[own..], "{call:?}");
    if may_write(call) {
        assert_eq!(numbers[0], capacity, "{call:?}");
    } else {
        assert_eq!(*numbers, numbers_before, "{call:?}");
    }
    match call {
        Call::New(_) => assert_empty(numbers, words),
        Call::Check if cause_of(capacity, words_before.len()).is_some() => {
            assert_eq!(answer, Answer::No);
        }
        Call::Other(_) => assert_eq!(answer, Answer::Unknown),
        _ => {}
    }
}

/// A list just opened is one, and works, whatever its words held.
fn assert_empty(numbers: &mut [u64; 3], words: &mut Guarded) {
    let stored = match numbers[0] {
        0 => Answer::Nothing,
        _ => Answer::Number(70),
    };
    let calls = [
        Call::Check,
        Call::IsEmpty,
        Call::Insert(7, 70),
        Call::Get(7),
        Call::Remove(7),
        Call::Check,
    ];
    let answers = [
        Answer::Yes,
        Answer::Yes,
        Answer::Nothing,
        stored,
        stored,
        Answer::Yes,
    ];
    assert_eq!(replay(numbers, words.lent(), &calls), answers);
}

#[test]
fn every_operation_on_any_words() {
    let mut junk = Junk(SplitMix64(1));
    for _ in 0..60_000 {
        let (mut numbers, words) = junk.list();
        let mut words = Guarded::new(&words);
        for _ in 0..1 + junk.below(12) {
            call_on_junk(&mut numbers, &mut words, junk.list_call());
        }
    }
}

#[test]
fn the_largest_lists_of_junk() {
    let mut junk = Junk(SplitMix64(2));
    for _ in 0..150 {
        let capacity = junk.pick(&[4095, 4096, 4096, 4097]);
        let size = junk.size(words_for(capacity.min(MAX_CAPACITY)));
        let mut numbers = [capacity, junk.count(capacity), junk.number()];
        let mut words = Guarded::new(&junk.words(capacity, size));
        for _ in 0..8 {
            call_on_junk(&mut numbers, &mut words, junk.list_call());
        }
    }
}

#[test]
fn refusals_at_their_edges() {
    let open = |capacity, size| {
        let mut words = vec![u64::MAX; size];
        replay(&mut [9; 3], &mut words, &[Call::New(capacity)])[0]
    };
    for capacity in [0, 1, 2, 7, 64, 4095, 4096] {
        let enough = words_for(capacity);
        assert_eq!(open(capacity, enough), Answer::Done);
        assert_eq!(open(capacity, enough - 1), Answer::Refused(2));
    }
    for capacity in [4097, u64::MAX] {
        assert_eq!(open(capacity, words_for(4097)), Answer::Refused(1));
        assert_eq!(open(capacity, 0), Answer::Refused(1));
    }
}

#[test]
fn lists_of_any_length() {
    lists::of_any_length::<Call>(15, words_for);
}
