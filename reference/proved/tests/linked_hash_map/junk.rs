//! Any words and any numbers, for every operation: no crash, nothing written outside, and refusals
//! exactly where the capacity is too large or the words are too few.

use crate::layout::fits;
use crate::shared::guarded::Guarded;
use crate::shared::junk::Junk;
use crate::shared::lists;
use proved::linked_hash_map::{Call, LinkedHashMap, MAX_CAPACITY, words_for};
use proved::replay::{Answer, Record, replay};
use samples::splitmix64::SplitMix64;

impl Junk {
    fn map_numbers(&mut self, capacity: u64) -> [u64; 3] {
        [capacity, self.count(capacity), self.number()]
    }

    fn map_words(&mut self, capacity: u64) -> Vec<u64> {
        let size = self.size(words_for(capacity.min(MAX_CAPACITY)));
        match self.below(4) {
            0 => self.damaged_map(capacity.min(9), size),
            _ => self.words(capacity, size),
        }
    }

    /// A map with some of its words overwritten.
    fn damaged_map(&mut self, capacity: u64, size: usize) -> Vec<u64> {
        let mut map = LinkedHashMap::new(capacity);
        for _ in 0..3 * capacity {
            let key = self.below(2 * capacity);
            match self.below(4) {
                0 => map.call(Call::Remove(key)),
                _ => map.call(Call::Put(self.record(key))),
            };
        }
        self.damage(&mut map.words, capacity, size);
        map.words
    }

    fn record(&mut self, key: u64) -> Record {
        Record {
            key,
            first: self.number(),
            second: self.number(),
        }
    }

    fn map_call(&mut self) -> Call {
        let key = self.number();
        let record = self.record(key);
        match self.below(14) {
            0 => Call::Open(self.limit()),
            1 => Call::Clear,
            2 => Call::Touch(key),
            3 => Call::SetPayload(record),
            4 => Call::Put(record),
            5 => Call::Remove(key),
            6 => Call::Find(key),
            7 => Call::Record(key),
            8 => Call::First,
            9 => Call::Last,
            10 => Call::Next(key),
            11 => Call::Previous(key),
            12 => Call::Check,
            _ => Call::Other(self.no_operation(13)),
        }
    }
}

/// One call, with all that holds of any words.
fn call_on_junk(numbers: &mut [u64; 3], words: &mut Guarded, call: Call) {
    let numbers_before = *numbers;
    let words_before = words.lent().to_vec();
    let answer = replay(numbers, words.lent(), &[call])[0];

    let capacity = match call {
        Call::Open(capacity) => capacity,
        _ => numbers_before[0],
    };
    let fits = fits(capacity, words_before.len());
    assert_eq!(
        is_refused(call, answer, fits),
        !fits,
        "{numbers_before:?} {call:?}: {answer:?}"
    );

    words.assert_guards();
    let may_change = match call {
        Call::Open(_) | Call::Clear | Call::Touch(_) => fits,
        Call::SetPayload(_) | Call::Put(_) | Call::Remove(_) => fits,
        _ => false,
    };
    let own = if may_change { words_for(capacity) } else { 0 };
    assert_eq!(words.lent()[own..], words_before[own..]);

    match call {
        Call::Open(_) if !fits => assert_eq!(*numbers, [0; 3]),
        Call::Open(_) if fits => {
            assert_eq!(numbers[..2], [capacity, 0]);
            let check = replay(numbers, words.lent(), &[Call::Check]);
            assert_eq!(check, [Answer::Yes]);
        }
        Call::Clear | Call::Put(_) | Call::Remove(_) if fits => assert_eq!(numbers[0], capacity),
        _ => assert_eq!(*numbers, numbers_before),
    }
    if let Call::Other(_) = call {
        assert_eq!(answer, Answer::Unknown);
    }
}

/// Whether the answer is the call's refusal. Some calls have no answer that they keep for it: those
/// say what they must where the words do not fit, and may say it elsewhere.
fn is_refused(call: Call, answer: Answer, fits: bool) -> bool {
    match call {
        Call::Open(_) | Call::Clear => answer == Answer::No,
        Call::SetPayload(_) | Call::Check => answer == Answer::No && !fits,
        Call::Record(_) => answer == Answer::Record(Record::default()) && !fits,
        Call::Other(_) => answer == Answer::Unknown && !fits,
        _ => answer == Answer::Refused(0),
    }
}

#[test]
fn every_operation_on_any_words() {
    let mut junk = Junk(SplitMix64(1));
    for _ in 0..60_000 {
        let capacity = junk.limit();
        let mut numbers = junk.map_numbers(capacity);
        let mut words = Guarded::new(&junk.map_words(capacity));
        for _ in 0..1 + junk.below(12) {
            call_on_junk(&mut numbers, &mut words, junk.map_call());
        }
    }
}

#[test]
fn the_largest_maps_of_junk() {
    let mut junk = Junk(SplitMix64(2));
    for _ in 0..150 {
        let capacity = junk.pick(&[4095, 4096, 4096, 4097]);
        let mut numbers = junk.map_numbers(capacity);
        let mut words = Guarded::new(&junk.map_words(capacity));
        for _ in 0..8 {
            call_on_junk(&mut numbers, &mut words, junk.map_call());
        }
    }
}

#[test]
fn words_too_few_by_one() {
    for capacity in [0, 1, 2, 7, 64, 4095, 4096] {
        for (count, answer) in [
            (words_for(capacity) - 1, Answer::No),
            (words_for(capacity), Answer::Yes),
        ] {
            let mut words = vec![u64::MAX; count];
            let opening = replay(&mut [9; 3], &mut words, &[Call::Open(capacity)]);
            assert_eq!(opening, [answer]);
        }
    }
    let mut words = vec![0; words_for(4097)];
    let opening = replay(&mut [9; 3], &mut words, &[Call::Open(4097)]);
    assert_eq!(opening, [Answer::No]);
}

#[test]
fn lists_of_any_length() {
    lists::of_any_length::<Call>(13, words_for);
}
