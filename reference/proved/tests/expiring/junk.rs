//! Any words and any numbers, for every operation: the call ends, nothing is written outside, and
//! refusals come under their causes, and leave all as it was.

use crate::shared::guarded::{GUARD, Guarded};
use crate::shared::junk::Junk;
use proved::expiring::{
    Call, Expiring, MAX_CAPACITY, MAX_LIMIT, NUMBERS, OPERATIONS, Opening, Ttl, call, check, open,
    replay, words_for,
};
use proved::replay::Answer;
use samples::splitmix64::SplitMix64;

type Numbers = [u64; NUMBERS];

/// Refusals 1 and 2, in this order.
fn cause_of(capacity: u64, limit: u64, words: usize) -> Option<u64> {
    if MAX_CAPACITY < capacity || !(1..=MAX_LIMIT).contains(&limit) {
        return Some(1);
    }
    (words < words_for(capacity, limit)).then_some(2)
}

/// And refusal 3.
fn cause_with(capacity: u64, limit: u64, words: usize, ttl: Option<Ttl>) -> Option<u64> {
    let is_bad = ttl.is_some_and(|ttl| ttl.duration().is_none());
    cause_of(capacity, limit, words).or(is_bad.then_some(3))
}

impl Junk {
    fn nanos(&mut self) -> u64 {
        match self.below(3) {
            0 => self.number(),
            1 => self.pick(&[
                999_999_999,
                1_000_000_000,
                (1 << 32) - 1,
                1 << 32,
                (1 << 32) + 7,
            ]),
            _ => self.below(1_000_000_000),
        }
    }

    fn ttl(&mut self) -> Ttl {
        Ttl {
            secs: self.number(),
            nanos: self.nanos(),
        }
    }

    /// Deadlines held. `purge_expired` and `live_len` walk, so that on the largest ones they would
    /// end, but not today.
    fn held(&mut self, limit: u64, most: u64) -> u64 {
        self.count(limit).min(most)
    }

    fn book_numbers(&mut self, capacity: u64, limit: u64) -> Numbers {
        let given = self.below(2);
        [
            capacity,
            self.held(capacity, 300),
            self.number(),
            limit,
            self.held(limit, 300),
            self.number(),
            self.count(limit.saturating_mul(2)),
            self.number(),
            self.below(4),
            given,
            given * self.number(),
            self.number(),
        ]
    }

    /// A book with some of its words, or of its numbers, overwritten, or none.
    fn damaged_book(&mut self, capacity: u64, limit: u64) -> (Numbers, Vec<u64>) {
        let seq = match self.below(2) {
            0 => 0,
            _ => u64::MAX - self.below(20),
        };
        let default_ttl = match self.below(2) {
            0 => None,
            _ => Some(Ttl::from_millis(self.below(5))),
        };
        let mut book = Expiring::new(Opening {
            capacity,
            limit,
            seq,
            default_ttl,
        });
        for tick in 0..3 * limit {
            let key = self.below(2 * limit);
            let ttl = Ttl::from_millis(1 + self.below(9));
            match self.below(6) {
                0 => book.call(tick, Call::Remove(key)),
                1 => book.call(tick, Call::Get(key)),
                2 => book.call(tick, Call::Insert(key, tick)),
                _ => book.call(tick, Call::InsertWithTtl(key, tick, ttl)),
            };
        }
        if self.below(2) == 0 {
            // Not the default lifetime, for which two numbers have to go together.
            let at = self.pick(&[0, 1, 2, 3, 4, 5, 6, 7, 8, 11]);
            book.numbers[at] = self.held(limit, 300);
        }
        let size = self.size(words_for(capacity, limit));
        self.damage(&mut book.words, capacity.max(limit), size);
        (book.numbers, book.words)
    }

    fn book(&mut self) -> (Numbers, Vec<u64>) {
        if self.below(3) == 0 {
            let (capacity, limit) = (self.below(9), 1 + self.below(9));
            return self.damaged_book(capacity, limit);
        }
        let (capacity, limit) = (self.limit(), self.limit());
        let enough = match cause_of(capacity, limit, usize::MAX) {
            None => words_for(capacity, limit),
            Some(_) => words_for(4, 4),
        };
        let size = self.size(enough);
        (
            self.book_numbers(capacity, limit),
            self.words(capacity.max(limit), size),
        )
    }

    fn book_call(&mut self) -> Call {
        let key = self.number();
        match self.below(OPERATIONS) {
            0 => Call::Insert(key, self.number()),
            1 => Call::InsertWithTtl(key, self.number(), self.ttl()),
            2 => Call::Get(key),
            3 => Call::Remove(key),
            4 => Call::Clear,
            5 => Call::SetTtl(key, self.ttl()),
            6 => Call::PurgeExpired,
            7 => Call::NextDeadline,
            8 => Call::Touch(key),
            9 => Call::PopLru,
            10 => Call::Contains(key),
            11 => Call::Peek(key),
            12 => Call::TtlStatus(key),
            13 => Call::RecencyRank(key),
            14 => Call::LiveLen,
            15 => Call::Expirations,
            _ => Call::PeekLru,
        }
    }

    fn opening(&mut self) -> Opening {
        Opening {
            capacity: self.limit(),
            limit: self.limit(),
            seq: self.number(),
            default_ttl: (self.below(2) == 0).then(|| self.ttl()),
        }
    }
}

fn may_write(call: Call) -> bool {
    call.words(0)[0] < 10
}

fn refusal_of(answer: Answer) -> Option<u64> {
    match answer {
        Answer::Refused(number) => Some(number),
        _ => None,
    }
}

/// One call, with all that holds of any words.
fn call_on_junk(numbers: &mut Numbers, words: &mut Guarded, tick: u64, of: Call) {
    let numbers_before = *numbers;
    let words_before = words.lent().to_vec();
    let is_book = check(numbers, words.lent());
    let (answer, discarded) = call(numbers, words.lent(), tick, of);
    words.assert_guards();

    let refusal = refusal_of(answer);
    let [capacity, _, _, limit, ..] = numbers_before;
    let cause = cause_with(capacity, limit, words_before.len(), of.ttl());
    // Refusal 4 may come without its cause where words and numbers are no book.
    if !(cause.is_none() && refusal == Some(4)) {
        assert_eq!(refusal, cause, "{numbers_before:?} {of:?}");
    }
    if refusal.is_some() {
        assert_eq!((*numbers, discarded), (numbers_before, 0), "{of:?}");
        assert_eq!(words.lent(), words_before, "{of:?}");
        return;
    }
    let own = if may_write(of) {
        words_for(capacity, limit)
    } else {
        assert_eq!(*numbers, numbers_before, "{of:?}");
        0
    };
    assert_eq!(words.lent()[own..], words_before[own..], "{of:?}");
    if is_book {
        assert!(check(numbers, words.lent()), "{of:?}");
    }
}

fn open_on_junk(numbers: &mut Numbers, words: &mut Guarded, opening: Opening) {
    let words_before = words.lent().to_vec();
    let answer = open(numbers, words.lent(), opening);
    words.assert_guards();
    let Opening {
        capacity,
        limit,
        seq,
        default_ttl,
    } = opening;
    let cause = cause_with(capacity, limit, words_before.len(), default_ttl);
    assert_eq!(refusal_of(answer), cause, "{opening:?}");
    if cause.is_some() {
        assert_eq!(*numbers, [0; NUMBERS], "{opening:?}");
        assert_eq!(words.lent(), words_before, "{opening:?}");
        // Later calls on these numbers are refused for the limit.
        let later = call(numbers, words.lent(), 5, Call::Get(7));
        assert_eq!(later, (Answer::Refused(1), 0));
        return;
    }
    assert_eq!(answer, Answer::Done);
    let own = words_for(capacity, limit);
    assert_eq!(words.lent()[own..], words_before[own..], "{opening:?}");
    assert_eq!((numbers[0], numbers[1]), (capacity, 0));
    assert_eq!((numbers[3], numbers[4]), (limit, 0));
    assert_eq!(numbers[6..9], [0, seq, 2]);
    assert_eq!(numbers[9], u64::from(default_ttl.is_some()));
    assert_eq!(numbers[11], 0);
    assert!(check(numbers, words.lent()));
    assert_use(numbers, words, capacity);
}

/// A book just opened works, whatever its words held.
fn assert_use(numbers: &mut Numbers, words: &mut Guarded, capacity: u64) {
    let mut answer = |tick, of| call(numbers, words.lent(), tick, of).0;
    let ttl = Ttl::from_millis(20);
    assert_eq!(answer(3, Call::NextDeadline), Answer::Nothing);
    assert_eq!(answer(3, Call::InsertWithTtl(7, 70, ttl)), Answer::Nothing);
    let status = match capacity {
        0 => Answer::Missing,
        _ => Answer::Live(13, 23),
    };
    assert_eq!(answer(10, Call::TtlStatus(7)), status);
    assert_eq!(answer(10, Call::NextDeadline), Answer::Pair(7, 23));
    assert_eq!(answer(23, Call::PurgeExpired), Answer::Number(1));
    assert_eq!(answer(23, Call::Expirations), Answer::Number(1));
    assert_eq!(answer(23, Call::NextDeadline), Answer::Nothing);
}

#[test]
fn every_operation_on_any_words() {
    let mut junk = Junk(SplitMix64(1));
    for _ in 0..60_000 {
        let (mut numbers, words) = junk.book();
        let mut words = Guarded::new(&words);
        for _ in 0..1 + junk.below(12) {
            let tick = junk.number();
            let of = junk.book_call();
            call_on_junk(&mut numbers, &mut words, tick, of);
        }
        open_on_junk(&mut numbers, &mut words, junk.opening());
    }
}

#[test]
fn the_largest_books_of_junk() {
    let mut junk = Junk(SplitMix64(2));
    for _ in 0..50 {
        let capacity = junk.pick(&[0, 4095, 4096, 4096, 4097]);
        let limit = junk.pick(&[1, 4095, 4096, 4096, 4097]);
        let enough = words_for(capacity.min(MAX_CAPACITY), limit.min(MAX_LIMIT));
        let size = junk.size(enough);
        let mut numbers = junk.book_numbers(capacity, limit);
        numbers[4] = junk.held(limit, 5000);
        let mut words = Guarded::new(&junk.words(limit, size));
        for _ in 0..8 {
            let tick = junk.number();
            let of = junk.book_call();
            call_on_junk(&mut numbers, &mut words, tick, of);
        }
    }
}

#[test]
fn refusals_at_their_edges() {
    let open = |capacity, limit, nanos, size: usize| {
        let opening = Opening {
            capacity,
            limit,
            seq: 5,
            default_ttl: Some(Ttl { secs: 1, nanos }),
        };
        open(&mut [9; NUMBERS], &mut vec![u64::MAX; size], opening)
    };
    for capacity in [0, 1, 64, 4095, 4096] {
        for limit in [1, 2, 64, 4095, 4096] {
            let enough = words_for(capacity, limit);
            assert_eq!(open(capacity, limit, 999_999_999, enough), Answer::Done);
            for bad in [1_000_000_000, (1 << 32) - 1, 1 << 32, u64::MAX] {
                assert_eq!(open(capacity, limit, bad, enough), Answer::Refused(3));
                assert_eq!(open(capacity, limit, bad, enough - 1), Answer::Refused(2));
            }
        }
    }
    for (capacity, limit) in [(4097, 4), (u64::MAX, 4), (4, 0), (4, 4097), (4, u64::MAX)] {
        let size = words_for(4097, 4097);
        assert_eq!(open(capacity, limit, 1 << 32, size), Answer::Refused(1));
        assert_eq!(open(capacity, limit, 0, 0), Answer::Refused(1));
    }
}

/// As many calls run as have room for an answer and come before the first that is none, and no other
/// word is written.
#[test]
fn lists_of_any_length() {
    let mut junk = Junk(SplitMix64(3));
    for _ in 0..20_000 {
        let mut words = Guarded::new(&vec![7; words_for(junk.below(4), junk.below(4))]);
        let mut numbers = vec![GUARD; junk.below(NUMBERS as u64 + 3) as usize];
        let mut calls: Vec<u64> = (0..junk.below(60)).map(|_| junk.below(17)).collect();
        if junk.below(3) == 0 {
            for operation in calls.iter_mut().step_by(6) {
                if junk.below(6) == 0 {
                    *operation = junk.no_operation(OPERATIONS);
                }
            }
        }
        let mut answers = Guarded::new(&vec![GUARD; junk.below(40) as usize]);

        let ran = replay(&mut numbers, words.lent(), &calls, answers.lent());
        words.assert_guards();
        answers.assert_guards();
        let are_few = numbers.len() < NUMBERS;
        let room = (calls.len() / 6).min(answers.lent().len() / 4);
        let known = calls
            .chunks(6)
            .take_while(|call| call[0] < OPERATIONS)
            .count();
        let expected = if are_few { 0 } else { room.min(known) };
        assert_eq!(ran as usize, expected);
        let (written, past) = answers.lent().split_at(4 * expected);
        assert!(written.chunks(4).all(|answer| answer[0] != GUARD));
        assert!(past.iter().all(|&word| word == GUARD));
        assert!(numbers.iter().skip(NUMBERS).all(|&n| n == GUARD));
        if are_few {
            assert!(numbers.iter().all(|&number| number == GUARD));
            assert!(words.lent().iter().all(|&word| word == 7));
        }
    }
}

/// Any number but 0 says that there is a default lifetime, and every call leaves its numbers as they are.
#[test]
fn numbers_of_a_default_lifetime() {
    for (read, status) in [
        ([0, 9], Answer::Immortal),
        ([1, 9], Answer::Live(9, 9)),
        ([7, 9], Answer::Live(9, 9)),
    ] {
        let mut book = Expiring::new(Opening {
            capacity: 1,
            limit: 1,
            ..Opening::default()
        });
        book.numbers[9..11].copy_from_slice(&read);
        book.call(0, Call::Insert(5, 50));
        assert_eq!(book.numbers[9..11], read);
        assert_eq!(book.call(0, Call::TtlStatus(5)).0, status);
        assert_eq!(book.numbers[9..11], read);
    }
}
