//! The calls one by one give what the same calls give as one list.

use hailtansy::{Book, Opening, Refusal, TtlStatus};
use std::time::Duration;

type Words = [u64; 4];

/// An answer in words, as crates/replay_expiring has them.
trait InWords {
    fn words(self) -> [u64; 3];
}

impl InWords for bool {
    fn words(self) -> [u64; 3] {
        [self.into(), 0, 0]
    }
}

impl InWords for u64 {
    fn words(self) -> [u64; 3] {
        [3, self, 0]
    }
}

impl InWords for (u64, u64) {
    fn words(self) -> [u64; 3] {
        [4, self.0, self.1]
    }
}

impl<T: InWords> InWords for Option<T> {
    fn words(self) -> [u64; 3] {
        self.map_or([2, 0, 0], T::words)
    }
}

impl<T: InWords> InWords for Result<T, Refusal> {
    fn words(self) -> [u64; 3] {
        self.map_or_else(|why| [10, why.number(), 0], T::words)
    }
}

impl InWords for TtlStatus {
    fn words(self) -> [u64; 3] {
        match self {
            Self::Missing => [12, 0, 0],
            Self::Immortal => [13, 0, 0],
            Self::Expired => [14, 0, 0],
            Self::Live {
                remaining,
                deadline,
            } => [15, remaining.as_millis() as u64, deadline],
        }
    }
}

fn single(book: &mut Book, call: [u64; 6]) -> Words {
    let [operation, now, key, value, secs, nanos] = call;
    let ttl = Duration::new(secs, nanos as u32);
    let [code, first, second] = match operation {
        0 => book.insert(now, key, value).words(),
        1 => book.insert_with_ttl(now, key, value, ttl).words(),
        2 => book.get(now, key).words(),
        3 => book.remove(now, key).words(),
        4 => {
            book.clear(now);
            [9, 0, 0]
        }
        5 => book.set_ttl(now, key, ttl).words(),
        6 => book.purge_expired(now).words(),
        7 => book.next_deadline(now).words(),
        8 => book.touch(now, key).words(),
        9 => book.pop_lru(now).words(),
        10 => book.contains(now, key).words(),
        11 => book.peek(now, key).words(),
        12 => book.ttl_status(now, key).words(),
        13 => book.recency_rank(now, key).words(),
        14 => book.live_len(now).words(),
        15 => book.expirations(now).words(),
        16 => book.peek_lru(now).words(),
        _ => panic!("{operation} is no operation"),
    };
    // A look discards nothing.
    let discarded = if operation < 10 { book.discarded() } else { 0 };
    [code, first, second, discarded]
}

/// xorshift64*, of Vigna.
struct Random(u64);

impl Random {
    fn below(&mut self, limit: u64) -> u64 {
        self.0 ^= self.0 >> 12;
        self.0 ^= self.0 << 25;
        self.0 ^= self.0 >> 27;
        (self.0.wrapping_mul(0x2545_F491_4F6C_DD1D) >> 32) % limit
    }

    fn call(&mut self, now: u64) -> [u64; 6] {
        // A `clear` now and then only, so that there is something to look at.
        let operation = match self.below(17) {
            4 if self.below(20) > 0 => 1,
            operation => operation,
        };
        let nanos = [0, 999_999, 1_000_000, 20_000_000, 500_000_000][self.below(5) as usize];
        let key = self.below(12);
        [operation, now, key, self.below(1000), 0, nanos]
    }
}

fn compare(opening: Opening, seed: u64) {
    let mut random = Random(seed);
    let mut now = 0;
    let calls: Vec<_> = (0..20_000)
        .map(|_| {
            now = (now + random.below(20)).saturating_sub(random.below(8));
            random.call(now)
        })
        .collect();
    let mut one_by_one = Book::open(opening).expect("the opening is accepted");
    let mut as_a_list = one_by_one.clone();

    let mut answers = vec![Words::default(); calls.len()];
    assert_eq!(as_a_list.replay(&calls, &mut answers), calls.len());
    for (call, answer) in calls.into_iter().zip(answers) {
        assert_eq!(single(&mut one_by_one, call), answer, "{call:?}");
    }
    assert!(one_by_one.check());
    assert_eq!(one_by_one.save(), as_a_list.save());
}

#[test]
fn without_a_default() {
    compare(Opening::new(8, 12), 1);
}

#[test]
fn with_a_default_and_few_deadlines() {
    compare(Opening::new(8, 4).default_ttl(Duration::from_millis(50)), 2);
}

#[test]
fn across_renumbering() {
    compare(Opening::new(3, 12).seq(u64::MAX - 100), 3);
}

#[test]
fn with_nothing_stored() {
    compare(Opening::new(0, 2), 4);
}

#[test]
fn a_list_ends_at_what_is_no_call() {
    let mut book = Book::open(Opening::new(2, 4)).expect("the opening is accepted");
    let calls = [[0, 0, 7, 70, 0, 0], [17, 0, 0, 0, 0, 0], [4, 0, 0, 0, 0, 0]];
    let mut answers = [[0; 4]; 3];
    assert_eq!(book.replay(&calls, &mut answers), 1);
    assert_eq!(answers, [[2, 0, 0, 0], [0; 4], [0; 4]]);
    assert_eq!(book.peek(0, 7), Some(70));
}
